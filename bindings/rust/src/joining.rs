//! Two problems that share columns, joined into one.

use crate::lists::Lists;
use crate::{calls, solve, Deck, Problem, Refusal, Solved, MOST_COLUMNS, MOST_ROWS};

/// What a join fills, with a number for each column or row of the joined problem.
///
/// Its columns are those of the first part, and behind them those of the second that stand in no pair, in their order. Its rows are those of the
/// first part, and behind them those of the second, with 0 at the columns of the other part. So for parts with n and k columns it has n + k columns
/// less the number of pairs.
#[derive(Debug)]
pub struct JoinBuffers<'a> {
    /// Afterwards the rows, a number for each column.
    pub coefficients: &'a mut [i64],
    /// Afterwards what each row adds up to.
    pub rights: &'a mut [i64],
    /// Afterwards the lower bounds: of a shared column the larger one.
    pub lower: &'a mut [i64],
    /// Afterwards the upper bounds: of a shared column the smaller one.
    pub upper: &'a mut [i64],
    /// Afterwards the low goals: of a shared column the smaller one, or where one part has no goal for it, the other's.
    pub low: &'a mut [i64],
    /// Afterwards the high goals: of a shared column the larger one, or where one part has no goal for it, the other's.
    pub high: &'a mut [i64],
    /// Afterwards the ideals that are handed in: of a shared column the first part's, or where that has none, the second's.
    pub ideals: &'a mut [Option<i64>],
}

/// How large a joined problem is.
#[derive(Clone, Copy, Debug, PartialEq, Eq, Hash)]
pub struct JoinedSizes {
    /// The columns: the first part's, and those of the second that stand in no pair.
    pub columns: usize,
    /// The rows: the first part's, and the second's.
    pub rows: usize,
}

/// Makes one problem of two. A pair has a column of the first part and the one of the second that is the same, both counted from 0.
///
/// A list satisfies the joined rows and bounds exactly when its share of each part satisfies that part's. The problems' own limits play no part.
/// [`Joined`] does this in buffers of its own, and finds the shares.
///
/// ```
/// use koralimbu::*;
///
/// // v1 = v2 on one side, v1 + v2 = v3 on the other; the first's second column is the second's first.
/// let first = Columns::new(&[1, 1], &[8, 9], &[4000, 4000], &[4000, 4000]);
/// let second = Columns::new(&[2, 1, 1], &[99; 3], &[9000, 0, 0], &[9000, 0, 0]);
/// let first = Problem { columns: first, rows: Rows { coefficients: &[1, -1], rights: &[0] }, limit: 0 };
/// let second = Problem { columns: second, rows: Rows { coefficients: &[1, 1, -1], rights: &[0] }, limit: 0 };
///
/// let (mut coefficients, mut rights, mut ideals) = ([0; 8], [0; 2], [None; 4]);
/// let (mut lower, mut upper, mut low, mut high) = ([0; 4], [0; 4], [0; 4], [0; 4]);
/// let mut buffers = JoinBuffers {
///     coefficients: &mut coefficients,
///     rights: &mut rights,
///     lower: &mut lower,
///     upper: &mut upper,
///     low: &mut low,
///     high: &mut high,
///     ideals: &mut ideals,
/// };
/// assert_eq!(join(&first, &second, &[(1, 0)], &mut buffers)?, JoinedSizes { columns: 4, rows: 2 });
/// assert_eq!(coefficients, [1, -1, 0, 0, 0, 1, 1, -1]);
/// assert_eq!((lower, upper), ([1, 2, 1, 1], [8, 9, 99, 99]));
/// assert_eq!((low, high), ([4000, 4000, 0, 0], [4000, 9000, 0, 0]));
/// # Ok::<(), Refusal>(())
/// ```
pub fn join(
    first: &Problem,
    second: &Problem,
    pairs: &[(usize, usize)],
    buffers: &mut JoinBuffers,
) -> Result<JoinedSizes, Refusal> {
    calls::join(first, second, pairs, buffers)
}

/// One pair more than ever fits.
const ROOM: usize = MOST_COLUMNS + 1;

/// Pairs as the call takes them: two numbers each, counted from 1. They lie on the stack, since the calls allocate nothing. Of more pairs than ever
/// fit the first [`ROOM`] are kept: there are fewer columns, so that one of these is refused, and those behind it are not looked at.
pub(crate) struct Numbered {
    pub numbers: [usize; 2 * ROOM],
    /// How many of the numbers are lent.
    pub count: usize,
}

impl Numbered {
    pub fn of(pairs: &[(usize, usize)]) -> Numbered {
        let mut numbered = Numbered { numbers: [0; 2 * ROOM], count: 2 * pairs.len().min(ROOM) };
        for (numbers, (first, second)) in numbered.numbers.chunks_exact_mut(2).zip(pairs) {
            // The last column of all stays one that no part has.
            numbers.copy_from_slice(&[first.saturating_add(1), second.saturating_add(1)]);
        }
        numbered
    }
}

/// Two problems joined into one, which finds in a list of its columns the share of each.
///
/// ```
/// use koralimbu::Deck;
///
/// // Two blocks, each of a mapped panel. They meet at curve 2 of the first, which is curve 1 of the second.
/// let coarse = Deck::read("2\n1 99 4000 4000\n1 99 4000 4000\n1\n0 0 2 1 1 2 -1\n0\n")?;
/// let fine = Deck::read("2\n1 99 9000 9000\n1 99 9000 9000\n1\n0 0 2 1 1 2 -1\n0\n")?;
/// assert_eq!((coarse.solve(10_000)?.values, fine.solve(10_000)?.values), (vec![4, 4], vec![9, 9]));
///
/// let joined = coarse.join(&fine, &[(1, 0)])?;
/// let solved = joined.solve(10_000)?;
/// assert_eq!(joined.first_share(&solved.values), [6, 6]);
/// assert_eq!(joined.second_share(&solved.values), [6, 6]);
/// # Ok::<(), koralimbu::Refusal>(())
/// ```
#[derive(Clone, Debug, PartialEq, Eq)]
pub struct Joined {
    /// The columns of the first part.
    first: usize,
    /// Where each column of the second stands.
    places: Vec<usize>,
    lists: Lists,
}

impl Joined {
    /// Joins two problems by pairs of a column of the first and the one of the second that is the same, both counted from 0. See [`join`].
    ///
    /// A joined problem can be joined with a third one in turn.
    pub fn new(first: &Problem, second: &Problem, pairs: &[(usize, usize)]) -> Result<Joined, Refusal> {
        let (n, k) = (first.columns.lower.len(), second.columns.lower.len());
        let columns = n.saturating_add(k).saturating_sub(pairs.len());
        let rows = first.rows.rights.len().saturating_add(second.rows.rights.len());
        // A problem too large is refused by its counts, whatever is lent.
        let fits = columns <= MOST_COLUMNS && rows <= MOST_ROWS;
        let mut lists = if fits { Lists::new(columns, rows) } else { Lists::new(0, 0) };
        let mut buffers = JoinBuffers {
            coefficients: &mut lists.coefficients,
            rights: &mut lists.rights,
            lower: &mut lists.lower,
            upper: &mut lists.upper,
            low: &mut lists.low,
            high: &mut lists.high,
            ideals: &mut lists.ideals,
        };
        join(first, second, pairs, &mut buffers)?;
        Ok(Joined { first: n, places: places(n, k, pairs), lists })
    }

    /// The joined problem with a step limit.
    pub fn problem(&self, limit: u32) -> Problem<'_> {
        self.lists.problem(limit)
    }

    /// A whole assignment of the joined problem.
    pub fn solve(&self, limit: u32) -> Result<Solved, Refusal> {
        solve(&self.problem(limit))
    }

    /// The first part's share of a list that has an element for each joined column, such as the values or the strides.
    ///
    /// # Panics
    ///
    /// If the list is shorter than this share.
    pub fn first_share<'a, T>(&self, list: &'a [T]) -> &'a [T] {
        &list[..self.first]
    }

    /// The second part's share of such a list.
    ///
    /// # Panics
    ///
    /// If the place of a column lies beyond the list.
    pub fn second_share<T: Copy>(&self, list: &[T]) -> Vec<T> {
        self.places.iter().map(|place| list[*place]).collect()
    }

    /// The joined column of each column of the second part, counted from 0. Those of the first part are the first ones.
    pub fn places(&self) -> &[usize] {
        &self.places
    }
}

/// Where the columns of the second part stand: those in a pair where the first part has them, the others behind the first part's.
fn places(first: usize, second: usize, pairs: &[(usize, usize)]) -> Vec<usize> {
    let mut behind = first..;
    let partner = |column| pairs.iter().find(|(_, other)| *other == column).map(|(partner, _)| *partner);
    (0..second).filter_map(|column| partner(column).or_else(|| behind.next())).collect()
}

impl Deck {
    /// Joins the problems of two decks, this one as the first part, by pairs of a column of this deck and the one of the other that is the same
    /// curve, both counted from 0.
    ///
    /// The columns behind the curves may be paired, and need not be. The reader's ideals come along; they are made in each deck by itself.
    pub fn join(&self, second: &Deck, pairs: &[(usize, usize)]) -> Result<Joined, Refusal> {
        Joined::new(&self.problem(0), &second.problem(0), pairs)
    }
}

#[cfg(test)]
mod tests {
    use super::*;

    #[test]
    fn pairs_as_numbers() {
        let numbered = Numbered::of(&[(0, 4), (7, usize::MAX)]);
        assert_eq!((numbered.count, &numbered.numbers[..5]), (4, &[1, 5, 8, usize::MAX, 0][..]));
        assert_eq!(Numbered::of(&[]).count, 0);
    }

    #[test]
    fn too_many_pairs_stay_too_many() {
        assert_eq!(Numbered::of(&[(0, 0); MOST_COLUMNS]).count, 2 * MOST_COLUMNS);
        for count in [MOST_COLUMNS + 1, MOST_COLUMNS + 2, 1000] {
            assert_eq!(Numbered::of(&vec![(0, 0); count]).count, 2 * (MOST_COLUMNS + 1));
        }
    }

    #[test]
    fn the_places_of_the_second_part() {
        assert_eq!(places(3, 4, &[]), [3, 4, 5, 6]);
        assert_eq!(places(3, 4, &[(2, 0), (0, 2)]), [2, 3, 0, 4]);
        assert_eq!(places(2, 2, &[(0, 1), (1, 0)]), [1, 0]);
    }
}
