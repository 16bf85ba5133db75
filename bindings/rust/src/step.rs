//! The next step of settling, as the preview tells it.
//!
//! In the fields, columns and vectors are counted from 0, as slices are. Displayed they are counted from 1, as in the listing.

use std::fmt;

use crate::Refusal;

/// The part of settling that a step belongs to. It is displayed as `bounds` or `goals`.
#[derive(Clone, Copy, Debug, PartialEq, Eq, Hash)]
pub enum Part {
    /// Some value lies out of its bounds.
    Bounds,
    /// All values lie in their bounds.
    Goals,
}

/// What a move does with a vector. It is displayed as `+` or `-`.
#[derive(Clone, Copy, Debug, PartialEq, Eq, Hash)]
pub enum Sign {
    /// The vector is added.
    Plus,
    /// The vector is taken away.
    Minus,
}

/// A vector of the basis with its sign, displayed as `+N1` or `-N1` for the first vector.
#[derive(Clone, Copy, Debug, PartialEq, Eq, Hash)]
pub struct SignedVector {
    /// Whether it is added or taken away.
    pub sign: Sign,
    /// Its place in the [`basis`], counted from 0; displayed it is counted from 1.
    pub vector: usize,
}

/// What a step adds to the values: one vector of the basis or two, each once. It is displayed as `+N1` or `+N1 -N2`.
#[derive(Clone, Copy, Debug, PartialEq, Eq, Hash)]
pub struct Move {
    /// The vector, or the first of two.
    pub first: SignedVector,
    /// The second of two.
    pub second: Option<SignedVector>,
}

/// A step of settling, displayed as `goals part: +N1 -N2 for column 3`.
#[derive(Clone, Copy, Debug, PartialEq, Eq, Hash)]
pub struct Step {
    /// The part that it belongs to.
    pub part: Part,
    /// The column that it improves, counted from 0; displayed it is counted from 1. The move may change others too.
    pub column: usize,
    /// The move that improves it.
    pub by: Move,
}

/// What a preview that is not refused tells beside its buffers.
#[derive(Clone, Copy, Debug, PartialEq, Eq, Hash)]
pub struct Seen {
    /// The next step; `None` where no move improves.
    pub step: Option<Step>,
    /// The rounds of the elimination, as in an [`Answer`](crate::Answer).
    pub rounds: u32,
}

/// A column whose value a step changes.
#[derive(Clone, Copy, Debug, PartialEq, Eq, Hash)]
pub struct Change {
    /// The column, counted from 0.
    pub column: usize,
    /// Its value before the step.
    pub from: i64,
    /// Its value after the step.
    pub to: i64,
}

/// A step with what it does to the values.
#[derive(Clone, Debug, PartialEq, Eq)]
pub struct NextStep {
    /// The step.
    pub step: Step,
    /// The value of each column after the step.
    pub after: Vec<i64>,
    /// The columns that the step changes, by rising column; all others keep their values.
    pub changes: Vec<Change>,
    /// The rounds of the elimination, as in an [`Answer`](crate::Answer).
    pub rounds: u32,
}

/// The vectors of the basis, from the tableau that a call left which was not refused: N1 first, as a [`Move`] counts them.
pub fn basis(tableau: &[i64], columns: usize, rows: usize) -> impl Iterator<Item = &[i64]> {
    // A chunk of no numbers is not allowed; where there is no column, there is no tableau either.
    let width = rows.saturating_add(columns).max(1);
    let split = tableau.chunks_exact(width).map(move |row| row.split_at(rows));
    split.filter(|(sums, _)| sums.iter().all(|sum| *sum == 0)).map(|(_, vector)| vector)
}

/// The columns where two lists differ.
pub(crate) fn changes(before: &[i64], after: &[i64]) -> Vec<Change> {
    let pairs = before.iter().zip(after).enumerate();
    pairs.filter(|(_, (from, to))| from != to).map(|(column, (&from, &to))| Change { column, from, to }).collect()
}

/// The numbers of a step, and those of a preview's report: behind the step stand the rounds.
const STEP_COUNT: usize = 6;
pub(crate) const PREVIEW_COUNT: usize = STEP_COUNT + 1;

/// What a report says of the next step in so many columns. Only a library of another version tells what this does not know.
pub(crate) fn step_of(report: [u32; STEP_COUNT], columns: usize) -> Result<Option<Step>, Refusal> {
    if report == [0; STEP_COUNT] {
        return Ok(None);
    }
    let [part, column, first, first_sign, second, second_sign] = report;
    let known = || {
        let second = match (second, second_sign) {
            (0, 0) => None,
            _ => Some(vector_of(second, second_sign, columns)?),
        };
        let by = Move { first: vector_of(first, first_sign, columns)?, second };
        Some(Step { part: part_of(part)?, column: place_of(column, columns)?, by })
    };
    known().map(Some).ok_or(Refusal::Unknown(0))
}

/// There are no more vectors than columns.
fn vector_of(number: u32, sign: u32, columns: usize) -> Option<SignedVector> {
    Some(SignedVector { sign: sign_of(sign)?, vector: place_of(number, columns)? })
}

/// A number counted from 1, as a place counted from 0.
fn place_of(number: u32, count: usize) -> Option<usize> {
    let place = usize::try_from(number).ok()?.checked_sub(1)?;
    (place < count).then_some(place)
}

pub(crate) fn part_of(number: u32) -> Option<Part> {
    match number {
        1 => Some(Part::Bounds),
        2 => Some(Part::Goals),
        _ => None,
    }
}

pub(crate) fn sign_of(number: u32) -> Option<Sign> {
    match number {
        1 => Some(Sign::Plus),
        2 => Some(Sign::Minus),
        _ => None,
    }
}

impl fmt::Display for Part {
    fn fmt(&self, f: &mut fmt::Formatter) -> fmt::Result {
        f.write_str(match self {
            Part::Bounds => "bounds",
            Part::Goals => "goals",
        })
    }
}

impl fmt::Display for Sign {
    fn fmt(&self, f: &mut fmt::Formatter) -> fmt::Result {
        f.write_str(match self {
            Sign::Plus => "+",
            Sign::Minus => "-",
        })
    }
}

impl fmt::Display for SignedVector {
    fn fmt(&self, f: &mut fmt::Formatter) -> fmt::Result {
        write!(f, "{}N{}", self.sign, self.vector.saturating_add(1))
    }
}

impl fmt::Display for Move {
    fn fmt(&self, f: &mut fmt::Formatter) -> fmt::Result {
        match self.second {
            None => write!(f, "{}", self.first),
            Some(second) => write!(f, "{} {second}", self.first),
        }
    }
}

impl fmt::Display for Step {
    fn fmt(&self, f: &mut fmt::Formatter) -> fmt::Result {
        write!(f, "{} part: {} for column {}", self.part, self.by, self.column.saturating_add(1))
    }
}

#[cfg(test)]
mod tests {
    use super::*;

    const PLUS_1: SignedVector = SignedVector { sign: Sign::Plus, vector: 0 };
    const MINUS_3: SignedVector = SignedVector { sign: Sign::Minus, vector: 2 };

    #[test]
    fn no_step() {
        assert_eq!(step_of([0; STEP_COUNT], 4), Ok(None));
    }

    #[test]
    fn a_step_by_one_vector() {
        let step = step_of([1, 4, 3, 2, 0, 0], 4).unwrap().unwrap();
        assert_eq!(step, Step { part: Part::Bounds, column: 3, by: Move { first: MINUS_3, second: None } });
        assert_eq!(step.by.to_string(), "-N3");
        assert_eq!(step.to_string(), "bounds part: -N3 for column 4");
    }

    #[test]
    fn a_step_by_two_vectors() {
        let step = step_of([2, 1, 1, 1, 3, 2], 3).unwrap().unwrap();
        assert_eq!(step, Step { part: Part::Goals, column: 0, by: Move { first: PLUS_1, second: Some(MINUS_3) } });
        assert_eq!(step.by.to_string(), "+N1 -N3");
        assert_eq!(step.to_string(), "goals part: +N1 -N3 for column 1");
    }

    /// Each number of the report in turn is none that this package knows.
    #[test]
    fn an_unknown_step_is_told() {
        let known = [2, 1, 1, 1, 3, 2];
        assert!(step_of(known, 3).is_ok());
        let (part, sign, counted) = ([0, 3, 7, u32::MAX], [0, 3, 7, u32::MAX], [0, 4, 49, u32::MAX]);
        for (place, numbers) in [part, counted, counted, sign, counted, sign].into_iter().enumerate() {
            for number in numbers {
                let mut report = known;
                report[place] = number;
                assert_eq!(step_of(report, 3), Err(Refusal::Unknown(0)), "{report:?}");
            }
        }
        assert_eq!(step_of([0, 0, 0, 0, 0, 1], 3), Err(Refusal::Unknown(0)));
        assert_eq!(step_of(known, 0), Err(Refusal::Unknown(0)));
    }

    #[test]
    fn the_vectors_of_a_tableau() {
        let tableau = [1, 0, 0, 1, 0, 1, 0, 1, 0, 0, 1, 1];
        assert_eq!(basis(&tableau, 3, 1).collect::<Vec<_>>(), [[1, 0, 1], [0, 1, 1]]);
        assert_eq!(basis(&[], 0, 0).count(), 0);
        assert_eq!(basis(&[], usize::MAX, 1).count(), 0);
        assert_eq!(basis(&[1, 2], 0, 3).count(), 0);
    }

    #[test]
    fn the_changes_of_a_step() {
        let changed = [Change { column: 0, from: 1, to: 2 }, Change { column: 2, from: 0, to: -5 }];
        assert_eq!(changes(&[1, 7, 0], &[2, 7, -5]), changed);
        assert_eq!(changes(&[1, 7], &[1, 7]), []);
    }
}
