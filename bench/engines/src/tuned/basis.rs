//! The basis where it lies in the tableau, with its nonzero places as sets of bits.

use crate::problem::{divisor, MAX_COLUMNS};

/// A set of columns or of vectors.
pub type Set = u64;

/// The members of a set, rising.
pub fn members(mut set: Set) -> impl Iterator<Item = usize> {
    std::iter::from_fn(move || {
        if set == 0 {
            return None;
        }
        let first = set.trailing_zeros() as usize;
        set &= set - 1;
        Some(first)
    })
}

pub struct Basis<'a> {
    numbers: &'a [i64],
    stride: usize,
    n: usize,
    pub count: usize,
    /// The columns that each vector changes.
    pub supports: [Set; MAX_COLUMNS],
    /// The vectors that change each column.
    pub holders: [Set; MAX_COLUMNS],
    /// The vectors that share a column with each vector, itself too.
    pub neighbours: [Set; MAX_COLUMNS],
}

impl<'a> Basis<'a> {
    /// The basis below the first rows of a form of n columns and m rows.
    pub fn new(tableau: &'a [i64], heads: usize, n: usize, m: usize) -> Basis<'a> {
        let stride = m + n;
        let mut basis = Basis {
            numbers: if heads < n { &tableau[heads * stride + m..] } else { &[] },
            stride,
            n,
            count: n - heads,
            supports: [0; MAX_COLUMNS],
            holders: [0; MAX_COLUMNS],
            neighbours: [0; MAX_COLUMNS],
        };
        basis.find_sets();
        basis
    }

    fn find_sets(&mut self) {
        for s in 0..self.count {
            let mut support = 0;
            for (j, &entry) in self.vector(s).iter().enumerate() {
                support |= Set::from(entry != 0) << j;
            }
            self.supports[s] = support;
            for j in members(support) {
                self.holders[j] |= 1 << s;
            }
        }
        for s in 0..self.count {
            self.neighbours[s] = members(self.supports[s]).fold(0, |set, j| set | self.holders[j]);
        }
    }

    pub fn vector(&self, s: usize) -> &[i64] {
        &self.numbers[s * self.stride..s * self.stride + self.n]
    }

    /// Writes the strides; no divisor falls below 1.
    pub fn strides(&self, strides: &mut [u64]) {
        for (j, stride) in strides.iter_mut().enumerate() {
            *stride = 0;
            for s in members(self.holders[j]) {
                *stride = divisor(self.vector(s)[j].unsigned_abs(), *stride);
                if *stride == 1 {
                    break;
                }
            }
        }
    }
}
