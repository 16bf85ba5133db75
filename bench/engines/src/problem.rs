//! The problem, its limits, causes 1 to 6 and the ideals, for both engines.

pub const MAX_COLUMNS: usize = 48;
pub const MAX_ROWS: usize = 48;
pub const MAX_WIDTH: usize = MAX_ROWS + MAX_COLUMNS;
pub const MAX_COEFFICIENT: i64 = 1_000;
pub const MAX_RIGHT: i64 = 1_000_000;
pub const MAX_BOUND: i64 = 1_000_000;
pub const MAX_GOAL: i64 = 1_000_000_000;
pub const MAX_LIMIT: u32 = 65_535;
pub const M: i64 = 2_147_483_647;

pub const COUNTS_OUTSIDE: u32 = 1;
pub const WRONG_LENGTH: u32 = 2;
pub const ROW_NUMBER_OUTSIDE: u32 = 3;
pub const BOUND_OUTSIDE: u32 = 4;
pub const GOAL_OUTSIDE: u32 = 5;
pub const LIMIT_OUTSIDE: u32 = 6;
pub const ELIMINATION_BEYOND: u32 = 7;
pub const NO_WHOLE_NUMBERS: u32 = 8;
pub const SEATING_BEYOND: u32 = 9;

pub struct Problem<'a> {
    pub n: usize,
    pub m: usize,
    pub limit: u32,
    pub coefficients: &'a [i64],
    pub rights: &'a [i64],
    pub lower: &'a [i64],
    pub upper: &'a [i64],
    /// 0 where there is no goal, as the high one then is.
    pub low: &'a [i64],
    pub high: &'a [i64],
    /// 0 where no ideal is handed in.
    pub given: &'a [i64],
    pub ideals: &'a [i64],
}

pub struct Lent<'a> {
    pub tableau: &'a mut [i64],
    pub values: &'a mut [i64],
    pub strides: &'a mut [u64],
}

#[derive(Clone, Copy)]
pub enum Verdict {
    Fitted = 1,
    Outside = 2,
    Spent = 3,
}

pub struct Settled {
    pub verdict: Verdict,
    pub bounds_steps: u32,
    pub goals_steps: u32,
    /// How often the elimination chose a smallest entry.
    pub rounds: u32,
}

fn outside(x: i64, limit: i64) -> bool {
    x < -limit || limit < x
}

fn wrong_length(p: &Problem, lent: &Lent) -> bool {
    p.coefficients.len() != p.m * p.n
        || p.rights.len() != p.m
        || p.lower.len() != p.n
        || p.upper.len() != p.n
        || p.low.len() != p.n
        || p.high.len() != p.n
        || p.given.len() != p.n
        || p.ideals.len() != p.n
        || lent.tableau.len() != p.n * (p.m + p.n)
        || lent.values.len() != p.n
        || lent.strides.len() != p.n
}

/// Whether the goals of column j break their rule: both 0 or both set, low at most high, in range, and only with a lower bound of 1 or more.
fn pair_outside(p: &Problem, j: usize) -> bool {
    let (low, high) = (p.low[j], p.high[j]);
    let set = low != 0;
    !(0..=MAX_GOAL).contains(&low) || !(low..=MAX_GOAL).contains(&high) || set != (high != 0) || (set && p.lower[j] < 1)
}

/// The first of causes 1 to 6 that holds, 0 if none does.
pub fn first_cause(p: &Problem, lent: &Lent) -> u32 {
    if !(1..=MAX_COLUMNS).contains(&p.n) || p.m > MAX_ROWS {
        return COUNTS_OUTSIDE;
    }
    if wrong_length(p, lent) {
        return WRONG_LENGTH;
    }
    if p.coefficients.iter().any(|&a| outside(a, MAX_COEFFICIENT)) || p.rights.iter().any(|&b| outside(b, MAX_RIGHT)) {
        return ROW_NUMBER_OUTSIDE;
    }
    let mut bounds = p.lower.iter().zip(p.upper);
    if bounds.any(|(&lower, &upper)| outside(lower, MAX_BOUND) || outside(upper, MAX_BOUND) || lower > upper) {
        return BOUND_OUTSIDE;
    }
    if (0..p.n).any(|j| pair_outside(p, j)) {
        return GOAL_OUTSIDE;
    }
    if p.limit > MAX_LIMIT {
        return LIMIT_OUTSIDE;
    }
    0
}

fn goal_ideal(low: i64, high: i64) -> i64 {
    let k = (low * high).isqrt() / 1000;
    if k == 0 {
        1
    } else if k * (k + 1) * 1_000_000 < low * high {
        k + 1
    } else {
        k
    }
}

/// The ideal of column j; where it has no goal, the one handed in, and otherwise its present value.
pub fn ideal(p: &Problem, j: usize, present: i64) -> i64 {
    let wanted = if p.low[j] > 0 {
        goal_ideal(p.low[j], p.high[j])
    } else if p.given[j] != 0 {
        p.ideals[j]
    } else {
        present
    };
    wanted.clamp(p.lower[j], p.upper[j])
}

/// The nearest quotient, a half upwards: how often a vector with lead p is added to move its lead column by d, and how often a row with the entry
/// p is taken from one with the entry d while a column is gathered.
pub fn nearest_quotient(d: i64, p: i64) -> i64 {
    (2 * d + p).div_euclid(2 * p)
}

pub fn divisor(mut a: u64, mut b: u64) -> u64 {
    while b != 0 {
        (a, b) = (b, a % b);
    }
    a
}
