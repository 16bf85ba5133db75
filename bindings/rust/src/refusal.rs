//! Why a call is turned back.

use std::error::Error;
use std::fmt;

/// Document 01's table "Turned back", with what document 02 adds. The text says what to mend.
#[derive(Clone, Copy, PartialEq, Eq, Hash)]
#[non_exhaustive]
pub enum Refusal {
    /// 1: the count of columns or that of rows is outside its limits, in a text also by the rows that the paths of volumes add, in a join also that
    /// of the joined problem.
    Size,
    /// 2: a list or buffer has not the length that the columns and rows need.
    Length,
    /// 3: a coefficient, a right side or a least half is out of its range.
    Coefficient,
    /// 4: a bound is out of its range, or a lower bound is above its upper bound.
    Bound,
    /// 5: a low or a high goal is out of its range, just one of the two is 0, the low one is above the high one, or they are set with a lower bound
    /// below 1.
    Goal,
    /// 6: the step limit is above [`MOST_STEPS`](crate::MOST_STEPS).
    Limit,
    /// 7: the elimination met a number beyond ±[`M`](crate::M).
    Elimination,
    /// 8: no whole numbers satisfy the rows.
    NoWholeNumbers,
    /// 9: seating met a value beyond ±[`M`](crate::M).
    Seating,
    /// 10: the standing list fails a row, or has a value beyond ±[`M`](crate::M).
    Standing,
    /// 11: the text is not laid out as a deck, or is longer than [`MOST_TEXT`](crate::MOST_TEXT).
    Layout,
    /// 12: a row's kind, its count of terms, an index or a coefficient of 0 is wrong, or a row adds a column too many.
    Term,
    /// 13: the count of swept volumes, a count of paths or of a path's curves, or an index in a path is wrong.
    Volume,
    /// 14: a pair of a join has a column that its part has not, or one that an earlier pair has.
    Pair,
    /// 15: the bounds of a pair of a join leave nothing: the larger lower bound is above the smaller upper bound.
    PairBounds,
    /// The library answered with a number, or where this is 0 with a verdict or a step, that this package does not know: it is of
    /// another version.
    Unknown(u32),
}

use Refusal::*;

impl Refusal {
    /// Every refusal that this package knows, by rising number from 1.
    pub const ALL: &'static [Refusal] = &[
        Size,
        Length,
        Coefficient,
        Bound,
        Goal,
        Limit,
        Elimination,
        NoWholeNumbers,
        Seating,
        Standing,
        Layout,
        Term,
        Volume,
        Pair,
        PairBounds,
    ];

    /// The number that the engine's call returned.
    pub fn number(self) -> u32 {
        match self {
            Size => 1,
            Length => 2,
            Coefficient => 3,
            Bound => 4,
            Goal => 5,
            Limit => 6,
            Elimination => 7,
            NoWholeNumbers => 8,
            Seating => 9,
            Standing => 10,
            Layout => 11,
            Term => 12,
            Volume => 13,
            Pair => 14,
            PairBounds => 15,
            Unknown(number) => number,
        }
    }

    /// What a call's number says: 0 is no refusal.
    pub(crate) fn check(number: u32) -> Result<(), Refusal> {
        match number {
            0 => Ok(()),
            _ => Err(Refusal::ALL.iter().copied().find(|known| known.number() == number).unwrap_or(Unknown(number))),
        }
    }

    fn why(self) -> &'static str {
        match self {
            Size => {
                "the count of columns is not 1 to 48, the count of rows is not 0 to 48, paths of volumes make a 49th row, or two \
                 parts together have a 49th column or row"
            }
            Length => "a list or buffer has not the length that the columns and rows need",
            Coefficient => {
                "a coefficient is beyond ±1,000, a row's number beyond ±1,000,000, or a least half is not 0 to 1,000,000"
            }
            Bound => "a bound is beyond ±1,000,000, or a lower bound is above its upper bound",
            Goal => {
                "a low or a high goal is not 0 to 1,000,000,000, just one of the two is 0, the low one is above the high one, \
                 or they stand on a curve whose lower bound is below 1"
            }
            Limit => "the step limit is above 65,535",
            Elimination => {
                "the rows' coefficients grow beyond 2,147,483,647 in the elimination: scale them down or split the deck"
            }
            NoWholeNumbers => "no whole numbers satisfy the rows",
            Seating => "a goal, an ideal or a bound pulls some column beyond ±2,147,483,647",
            Standing => "the standing list fails a row, or has a value beyond ±2,147,483,647",
            Layout => "a word is no number, a number is missing or one too many, or the text is over 32,768 bytes",
            Term => {
                "a row's kind is not 0 to 3, its count of terms is wrong, an index does not rise or names no curve, \
                 a coefficient is 0, or there is a 49th column"
            }
            Volume => {
                "the count of volumes is below 0, a count of paths or of a path's curves is below 1, or an index in a path \
                 names no curve or stands there twice"
            }
            Pair => "a pair has a column that its part has not, or one that stands in an earlier pair",
            PairBounds => "no number is within both bounds of two columns that are a pair",
            Unknown(_) => "this package does not know that number, since libkoralimbu.a is of another version",
        }
    }
}

impl fmt::Display for Refusal {
    fn fmt(&self, f: &mut fmt::Formatter) -> fmt::Result {
        match self {
            Unknown(0) => f.write_str(
                "a verdict or a step that this package does not know, since libkoralimbu.a is of another version",
            ),
            _ => write!(f, "refused with {}: {}", self.number(), self.why()),
        }
    }
}

/// As it is displayed, since this is what a `main` that returns a refusal prints.
impl fmt::Debug for Refusal {
    fn fmt(&self, f: &mut fmt::Formatter) -> fmt::Result {
        fmt::Display::fmt(self, f)
    }
}

impl Error for Refusal {}

#[cfg(test)]
mod tests {
    use super::*;

    #[test]
    fn a_number_is_a_refusal_or_none() {
        assert_eq!(Refusal::check(0), Ok(()));
        for (number, refusal) in (1..).zip(Refusal::ALL) {
            assert_eq!(Refusal::check(number), Err(*refusal));
        }
    }

    #[test]
    fn an_unknown_number_is_kept() {
        for number in [16, 20, u32::MAX] {
            let refusal = Refusal::check(number).unwrap_err();
            assert_eq!((refusal, refusal.number()), (Unknown(number), number));
            assert!(refusal.to_string().starts_with(&format!("refused with {number}: this package does not know")));
        }
    }
}
