//! The lists of a problem, owned.

use crate::{Columns, Problem, Rows};

#[derive(Clone, Debug, PartialEq, Eq)]
pub struct Lists {
    pub coefficients: Vec<i64>,
    pub rights: Vec<i64>,
    pub lower: Vec<i64>,
    pub upper: Vec<i64>,
    pub low: Vec<i64>,
    pub high: Vec<i64>,
    pub ideals: Vec<Option<i64>>,
}

impl Lists {
    /// Zeros and no ideals, for so many columns and rows.
    pub fn new(columns: usize, rows: usize) -> Lists {
        Lists {
            coefficients: vec![0; rows * columns],
            rights: vec![0; rows],
            lower: vec![0; columns],
            upper: vec![0; columns],
            low: vec![0; columns],
            high: vec![0; columns],
            ideals: vec![None; columns],
        }
    }

    /// The first numbers of each list, as so many columns and rows need.
    pub fn truncate(&mut self, columns: usize, rows: usize) {
        self.coefficients.truncate(rows * columns);
        self.rights.truncate(rows);
        for list in [&mut self.lower, &mut self.upper, &mut self.low, &mut self.high] {
            list.truncate(columns);
        }
        self.ideals.truncate(columns);
    }

    pub fn problem(&self, limit: u32) -> Problem<'_> {
        Problem {
            columns: Columns {
                lower: &self.lower,
                upper: &self.upper,
                low: &self.low,
                high: &self.high,
                ideals: &self.ideals,
            },
            rows: Rows { coefficients: &self.coefficients, rights: &self.rights },
            limit,
        }
    }
}
