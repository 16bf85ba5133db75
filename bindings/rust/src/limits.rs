//! The limits, as `include/koralimbu.h` names them.

/// The most columns of a problem.
pub const MOST_COLUMNS: usize = 48;
/// The most rows of a problem.
pub const MOST_ROWS: usize = 48;
/// The coefficients of the largest problem.
pub const MOST_COEFFICIENTS: usize = MOST_ROWS * MOST_COLUMNS;
/// The tableau of the largest problem.
pub const MOST_TABLEAU: usize = MOST_COLUMNS * (MOST_ROWS + MOST_COLUMNS);
/// The highest step limit.
pub const MOST_STEPS: u32 = 65_535;
/// The most rounds of an elimination for each column of its problem.
pub const ROUNDS_PER_COLUMN: u32 = 31;

// Another version may take larger problems than decks, so a deck's limits stand by themselves.

/// The most columns of a deck, those that its rows add counted.
pub const DECK_COLUMNS: usize = 48;
/// The most rows of a deck, those that the paths of its volumes add counted.
pub const DECK_ROWS: usize = 48;
/// The coefficients of the largest deck.
pub const DECK_COEFFICIENTS: usize = DECK_ROWS * DECK_COLUMNS;
/// The most bytes of a deck's text.
pub const MOST_TEXT: usize = 32_768;

/// How far a coefficient may lie from 0, to both sides.
pub const RANGE_COEFFICIENT: i64 = 1_000;
/// How far a right side may lie from 0, to both sides.
pub const RANGE_RIGHT: i64 = 1_000_000;
/// How far a bound may lie from 0, to both sides.
pub const RANGE_BOUND: i64 = 1_000_000;
/// The highest goal, low or high, in thousandths of an interval.
pub const RANGE_GOAL: i64 = 1_000_000_000;
/// Document 01's M: how far a number of the elimination and a value may lie from 0, to both sides.
pub const M: i64 = 2_147_483_647;

/// The bytes of stack that are enough for any of the engine's calls.
pub const MOST_STACK: usize = 65_536;
