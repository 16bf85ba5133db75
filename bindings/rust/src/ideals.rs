//! Ideals as the engine's calls take them: a mark and a number for each column.

use crate::{DECK_COLUMNS, MOST_COLUMNS};

/// One place more than ever fits.
const ROOM: usize = 1 + if MOST_COLUMNS < DECK_COLUMNS { DECK_COLUMNS } else { MOST_COLUMNS };

/// The marks and numbers of a list of ideals, on the stack: the calls allocate nothing. Of a longer list than ever fits, the first [`ROOM`] ideals
/// are kept, and these do not fit either.
pub struct Handed {
    /// 0 where there is no ideal.
    pub given: [i64; ROOM],
    pub ideals: [i64; ROOM],
    /// How many of the places are lent.
    pub count: usize,
}

impl Handed {
    pub fn of(ideals: &[Option<i64>]) -> Handed {
        let mut handed = Handed { given: [0; ROOM], ideals: [0; ROOM], count: ideals.len().min(ROOM) };
        for (j, ideal) in ideals.iter().take(ROOM).enumerate() {
            if let Some(number) = ideal {
                (handed.given[j], handed.ideals[j]) = (1, *number);
            }
        }
        handed
    }

    /// Fills a list with the ideals that these places now hold.
    pub fn leave(&self, list: &mut [Option<i64>]) {
        for (ideal, (given, number)) in list.iter_mut().zip(self.given.iter().zip(&self.ideals)) {
            *ideal = (*given != 0).then_some(*number);
        }
    }
}

#[cfg(test)]
mod tests {
    use super::*;

    #[test]
    fn marks_and_numbers() {
        let handed = Handed::of(&[Some(7), None, Some(0), Some(i64::MIN), Some(i64::MAX)]);
        assert_eq!(handed.count, 5);
        assert_eq!(handed.given[..6], [1, 0, 1, 1, 1, 0]);
        assert_eq!(handed.ideals[..6], [7, 0, 0, i64::MIN, i64::MAX, 0]);
        assert_eq!(Handed::of(&[]).count, 0);
    }

    #[test]
    fn a_list_too_long_stays_too_long() {
        for length in [MOST_COLUMNS + 1, MOST_COLUMNS + 2, 1000] {
            assert!(Handed::of(&vec![Some(1); length]).count > MOST_COLUMNS);
        }
        assert_eq!(Handed::of(&[None; MOST_COLUMNS]).count, MOST_COLUMNS);
    }

    #[test]
    fn what_is_left() {
        let list = [None, Some(0), Some(-3), None, Some(i64::MAX)];
        let mut left = [Some(9); 5];
        Handed::of(&list).leave(&mut left);
        assert_eq!(left, list);
        // Any mark but 0 stands for an ideal.
        let mut handed = Handed::of(&list);
        (handed.given[0], handed.given[3]) = (i64::MIN, -1);
        handed.leave(&mut left);
        assert_eq!(left, [Some(0), Some(0), Some(-3), Some(0), Some(i64::MAX)]);
    }
}
