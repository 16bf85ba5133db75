//! How many mesh edges each curve of a model carries, so that neighbouring faces meet.
//!
//! The answers are those of the proved engine in `libkoralimbu.a`; this package only lends it buffers. The usual call:
//!
//! ```
//! let solved = koralimbu::solve_text("1\n3 5 0 0\n0\n0\n", 10_000)?;
//! assert_eq!(solved.values, [3]);
//! # Ok::<(), koralimbu::Refusal>(())
//! ```
//!
//! Rows that are no equations add columns of their own, behind the curves. A [`Deck`] knows how many columns are curves:
//!
//! ```
//! let deck = koralimbu::Deck::read("2\n1 9 3000 3000\n1 9 2000 2000\n1\n3 1 2 1 1 2 1\n0\n")?;
//! let solved = deck.solve(10_000)?;
//! assert_eq!(&solved.values[..deck.curves()], [4, 2]);
//! # Ok::<(), koralimbu::Refusal>(())
//! ```
//!
//! A curve has a low and a high goal. Where it belongs to one part both are the same; where two parts share it, a coarse one that wants 4 intervals
//! and a fine one that wants 9, it is pulled to where both wishes are missed by the same factor:
//!
//! ```
//! let solved = koralimbu::solve_text("2\n1 99 4000 9000\n1 99 4000 4000\n0\n0\n", 10_000)?;
//! assert_eq!(solved.values, [6, 4]); // 6 is 1.5 times 4, and 9 is 1.5 times 6
//! # Ok::<(), koralimbu::Refusal>(())
//! ```
//!
//! The last section of a text names the swept volumes, 0 where there are none. All paths of a volume get equal sums, here curves 1 and 2 on one
//! and curve 3 on the other:
//!
//! ```
//! let solved = koralimbu::solve_text("3\n1 99 4000 4000\n1 99 3000 3000\n1 99 9000 9000\n0\n1\n2\n2 1 2\n1 3\n", 10_000)?;
//! assert_eq!(solved.values, [5, 3, 8]);
//! # Ok::<(), koralimbu::Refusal>(())
//! ```
//!
//! The next step of a list can be seen before it is taken, with the columns that it changes:
//!
//! ```
//! let deck = koralimbu::Deck::read("2\n1 9 0 0\n5 9 0 0\n1\n0 0 2 1 1 2 -1\n0\n")?;
//! let next = koralimbu::next_step(&deck.problem(0), &[1, 1])?.expect("curve 2 lies below its bounds");
//! assert_eq!(next.step.to_string(), "bounds part: +N1 for column 2");
//! assert_eq!(next.after, [2, 2]);
//! # Ok::<(), koralimbu::Refusal>(())
//! ```
//!
//! The ideal of a curve without a goal is the mean of what its neighbours want, the curves with a goal that it shares a row with. The reader hands
//! it in, and a curve that leads a vector of the basis starts from it; any other number can be handed in too, or none:
//!
//! ```
//! use koralimbu::{solve, Columns, Deck, Problem};
//!
//! let deck = Deck::read("3\n1 99 0 0\n1 99 6000 6000\n1 99 9000 9000\n1\n3 2 3 1 1 2 1 3 1\n0\n")?;
//! let problem = deck.problem(10_000);
//! assert_eq!(problem.columns.ideals, [Some(7), None, None, None]);
//! assert_eq!(solve(&problem)?.values, [7, 6, 9, 11]);
//!
//! let columns = Columns { ideals: &[Some(11), None, None, None], ..problem.columns };
//! assert_eq!(solve(&Problem { columns, ..problem })?.values, [11, 6, 9, 13]);
//!
//! let Columns { lower, upper, low, high, .. } = problem.columns;
//! let columns = Columns::new(lower, upper, low, high);
//! assert_eq!(solve(&Problem { columns, ..problem })?.values, [1, 6, 9, 8]);
//! # Ok::<(), koralimbu::Refusal>(())
//! ```
//!
//! Two blocks that share curves are joined into one problem by pairs of a column of the first and the one of the second that is the same curve,
//! counted from 0. Of the values each block then has its share:
//!
//! ```
//! let aft = koralimbu::Deck::read("2\n1 9 4000 4000\n1 9 4000 4000\n1\n0 0 2 1 1 2 -1\n0\n")?;
//! let fore = koralimbu::Deck::read("2\n1 5 9000 9000\n1 9 2000 2000\n0\n0\n")?;
//! let joined = aft.join(&fore, &[(1, 0)])?; // the second curve of aft is the first one of fore
//! let solved = joined.solve(10_000)?;
//! assert_eq!(joined.first_share(&solved.values), [5, 5]); // 4 and 9 meet at 6, and fore has at most 5
//! assert_eq!(joined.second_share(&solved.values), [5, 2]);
//! # Ok::<(), koralimbu::Refusal>(())
//! ```
//!
//! A call tells how many rounds its elimination took, and before it the most that they can be are known. So a progress bar over several decks has an
//! upper end: the rounds of those that are done, and the most of those still to come. It moves from call to call, and its end never rises:
//!
//! ```
//! let texts = ["2\n1 9 0 0\n5 9 0 0\n1\n0 0 2 1 1 2 -1\n0\n", "1\n1 9 0 0\n1\n0 1 1 1 2\n0\n", "1\n3 5 0 0\n0\n0\n"];
//! let decks = texts.map(|text| koralimbu::Deck::read(text).expect("a deck"));
//! let (mut done, mut end) = (0, decks.iter().map(|deck| deck.problem(0).most_rounds()).sum::<u32>());
//! assert_eq!(end, 31 * 4); // four columns in all
//! for deck in &decks {
//!     // A refused deck has no rounds: the second one wants twice its curve to be 1.
//!     let rounds = deck.solve(10_000).map_or(0, |solved| solved.rounds);
//!     done += rounds;
//!     end -= deck.problem(0).most_rounds() - rounds;
//!     println!("{done} of at most {end} rounds");
//! }
//! assert_eq!((done, end), (3, 3));
//! ```
//!
//! [`assign`], [`continue_from`], [`preview`], [`read_deck`] and [`join`] are the engine's own calls, for callers who keep their buffers. They
//! allocate nothing. What a call leaves in each buffer stands in `include/koralimbu.h`.
//!
//! The engine keeps no state of its own, so that any of this may be called in several threads at once.

#![deny(missing_docs)]

mod calls;
#[cfg(test)]
mod header;
mod ideals;
mod joining;
mod limits;
mod lists;
mod refusal;
mod step;
mod version;

use calls::Call;
pub use joining::{join, JoinBuffers, Joined, JoinedSizes};
pub use limits::*;
use lists::Lists;
pub use refusal::Refusal;
pub use step::{basis, Change, Move, NextStep, Part, Seen, Sign, SignedVector, Step};
pub use version::{version, VERSION};

/// The bounds, the goals and the ideal of each column. There are as many columns as lower bounds.
#[derive(Clone, Copy, Debug)]
pub struct Columns<'a> {
    /// The lower bounds.
    pub lower: &'a [i64],
    /// The upper bounds.
    pub upper: &'a [i64],
    /// The low goals, in thousandths of an interval; 0 for none.
    ///
    /// A column that belongs to one part has its goal as its low and its high one, so that the same slice may be lent as both. One that two parts
    /// share has both their wishes, the smaller as its low and the larger as its high goal: its ratio at a value v is the larger of 1000 v by the
    /// low goal and the high goal by 1000 v.
    pub low: &'a [i64],
    /// The high goals: 0 where the low one is 0, and otherwise no less than that.
    pub high: &'a [i64],
    /// What is handed in for each column, any number; `None` for nothing.
    ///
    /// Before its first step a whole assignment seats the columns: it adds each vector of the basis as often as brings its lead, the first column
    /// that it changes, nearest to that column's ideal. A column that leads no vector follows from the rows, and its ideal changes nothing. A column
    /// with a goal has the ideal of its two goals, the number of intervals with the least ratio, of two such the smaller, brought into its bounds;
    /// what is handed in for it is not used. Without a goal it has the number that is handed in, brought into its bounds; where none is, the value
    /// that it has then, brought into its bounds. So `None` is not `Some(0)`. Continue and the preview seat nothing: to them only the length of this
    /// list matters.
    pub ideals: &'a [Option<i64>],
}

/// What [`Columns::new`] hands in.
static NO_IDEALS: [Option<i64>; MOST_COLUMNS] = [None; MOST_COLUMNS];

impl<'a> Columns<'a> {
    /// Columns for which no ideal is handed in.
    pub fn new(lower: &'a [i64], upper: &'a [i64], low: &'a [i64], high: &'a [i64]) -> Columns<'a> {
        // More columns are refused by their count, whatever is handed in.
        let count = lower.len().min(MOST_COLUMNS);
        Columns { lower, upper, low, high, ideals: &NO_IDEALS[..count] }
    }
}

/// The rows: in each, the coefficients times the columns add up to the right side. There are as many rows as right sides.
#[derive(Clone, Copy, Debug)]
pub struct Rows<'a> {
    /// Row after row, a number for each column.
    pub coefficients: &'a [i64],
    /// What each row adds up to.
    pub rights: &'a [i64],
}

/// A problem: find whole numbers that satisfy the rows, in bounds and near the goals.
#[derive(Clone, Copy, Debug)]
pub struct Problem<'a> {
    /// The unknowns.
    pub columns: Columns<'a>,
    /// The equations that tie them.
    pub rows: Rows<'a>,
    /// The most steps of settling, 0 to [`MOST_STEPS`]. No list of values stands twice while one call settles; it may still take many steps.
    pub limit: u32,
}

impl Problem<'_> {
    /// The most rounds that a call takes, [`ROUNDS_PER_COLUMN`] for each column: the upper end of a progress bar before the call is made.
    pub fn most_rounds(&self) -> u32 {
        // More columns are refused by their count.
        ROUNDS_PER_COLUMN * self.columns.lower.len().min(MOST_COLUMNS) as u32
    }
}

/// What a call fills. For n columns and m rows the tableau has n(m + n) numbers, the others n.
#[derive(Debug)]
pub struct Buffers<'a> {
    /// Afterwards the form.
    pub tableau: &'a mut [i64],
    /// Afterwards the value of each column; Continue starts from what it holds.
    pub values: &'a mut [i64],
    /// Afterwards the stride of each column, the step by which it can change at all.
    pub strides: &'a mut [u64],
}

/// Where settling ended. A move adds one vector of the basis to the values or takes it away, once, or does so with each of two.
#[derive(Clone, Copy, Debug, PartialEq, Eq, Hash)]
pub enum Verdict {
    /// All values lie in their bounds, and no move improves. A better list may still exist.
    Fitted,
    /// Some value lies out of its bounds, and no move improves. A list within the bounds may still exist.
    Outside,
    /// The step limit was reached, and some move still improves.
    Spent,
}

/// The steps towards the bounds and those towards the goals.
#[derive(Clone, Copy, Debug, PartialEq, Eq, Hash)]
pub struct Steps {
    /// The steps while some value lay out of its bounds.
    pub bounds: u32,
    /// The steps once all values lay in their bounds.
    pub goals: u32,
}

/// What a call that is not refused returns beside its buffers.
#[derive(Clone, Copy, Debug, PartialEq, Eq, Hash)]
pub struct Answer {
    /// Where settling ended.
    pub verdict: Verdict,
    /// The steps that were taken.
    pub steps: Steps,
    /// The rounds of the elimination, each the choice of a smallest entry: at most [`Problem::most_rounds`]. Rows that are said otherwise, so that
    /// the same lists satisfy them, may take other rounds. A refused call tells none.
    pub rounds: u32,
}

/// A whole assignment.
pub fn assign(problem: &Problem, buffers: &mut Buffers) -> Result<Answer, Refusal> {
    calls::settle(Call::Assign, problem, buffers)
}

/// Document 01's Continue: settles the list that `buffers.values` holds, which must satisfy the rows.
pub fn continue_from(problem: &Problem, buffers: &mut Buffers) -> Result<Answer, Refusal> {
    calls::settle(Call::Continue, problem, buffers)
}

/// What a preview fills. For n columns and m rows the tableau has n(m + n) numbers, the others n.
#[derive(Debug)]
pub struct PreviewBuffers<'a> {
    /// Afterwards the form; [`basis`] finds the vectors of a [`Move`] in it.
    pub tableau: &'a mut [i64],
    /// Afterwards the value of each column after the step; the standing one where no move improves.
    pub after: &'a mut [i64],
    /// Afterwards the stride of each column, the step by which it can change at all.
    pub strides: &'a mut [u64],
}

/// The next step of a standing list, which must satisfy the rows, or that no move improves; and the rounds. The list is only read.
///
/// It is what [`continue_from`] with the limit 1 does on a copy of the list. The problem's own limit plays no part.
///
/// ```
/// use koralimbu::*;
///
/// // v1 + v2 = v3: no single vector lifts the first column to its lower bound and keeps the third at 5.
/// let columns = Columns::new(&[1, 0, 5], &[9, 9, 5], &[0; 3], &[0; 3]);
/// let problem = Problem { columns, rows: Rows { coefficients: &[1, 1, -1], rights: &[0] }, limit: 0 };
/// let (mut tableau, mut after, mut strides) = ([0; 12], [0; 3], [0; 3]);
/// let mut buffers = PreviewBuffers { tableau: &mut tableau, after: &mut after, strides: &mut strides };
/// let Seen { step, rounds } = preview(&problem, &[0, 5, 5], &mut buffers)?;
/// let step = step.expect("the first column lies below its bounds");
/// assert_eq!((step.part, step.column, step.by.to_string()), (Part::Bounds, 0, "+N1 -N2".to_string()));
/// assert_eq!((after, rounds), ([1, 4, 5], 3));
/// assert_eq!(basis(&tableau, 3, 1).collect::<Vec<_>>(), [[1, 0, 1], [0, 1, 1]]);
/// # Ok::<(), Refusal>(())
/// ```
pub fn preview(problem: &Problem, standing: &[i64], buffers: &mut PreviewBuffers) -> Result<Seen, Refusal> {
    calls::preview(problem, standing, buffers)
}

/// What the reader fills.
#[derive(Debug)]
pub struct DeckBuffers<'a> {
    /// [`DECK_COEFFICIENTS`] numbers; afterwards the rows, a number for each column. Behind those of the text stands, for each path of a swept volume
    /// after its first, the row that path 1 less that path equals 0. A curve on both paths has the coefficient 0 there.
    pub coefficients: &'a mut [i64],
    /// [`DECK_ROWS`] numbers; afterwards what each row adds up to.
    pub rights: &'a mut [i64],
    /// [`DECK_COLUMNS`] numbers; afterwards the lower bounds.
    pub lower: &'a mut [i64],
    /// [`DECK_COLUMNS`] numbers; afterwards the upper bounds.
    pub upper: &'a mut [i64],
    /// [`DECK_COLUMNS`] numbers; afterwards the low goals.
    pub low: &'a mut [i64],
    /// [`DECK_COLUMNS`] numbers; afterwards the high goals.
    pub high: &'a mut [i64],
    /// [`DECK_COLUMNS`] places; afterwards the ideals that the reader hands in.
    ///
    /// The neighbours of a curve are the curves with a goal that have a coefficient other than 0 in some row where it has one too. A curve without a
    /// goal gets the mean of their ideals, rounded down, each counted once however many rows it shares; theirs are those of their goals, brought
    /// into their bounds. There is none for a curve without neighbours, for one with a goal, and for the columns behind the curves.
    pub ideals: &'a mut [Option<i64>],
}

/// How large a deck's problem is.
#[derive(Clone, Copy, Debug, PartialEq, Eq, Hash)]
pub struct Sizes {
    /// The columns: the curves, and behind them those that rows added.
    pub columns: usize,
    /// The rows: those of the text, and behind them one for each path of a swept volume after its first.
    pub rows: usize,
    /// How many of the columns are curves, which document 01 calls intervals.
    pub curves: usize,
}

impl Sizes {
    /// How many columns, behind the curves, were added by rows of kinds 1 to 3, in row order.
    pub fn added(self) -> usize {
        self.columns.saturating_sub(self.curves)
    }
}

/// Reads a deck's text. The first numbers of each buffer are then the problem's, the others 0, and no ideals.
pub fn read_deck(text: &[u8], buffers: &mut DeckBuffers) -> Result<Sizes, Refusal> {
    calls::read(text, buffers)
}

/// A deck's problem with the reader's ideals, without its step limit.
#[derive(Clone, Debug, PartialEq, Eq)]
pub struct Deck {
    curves: usize,
    lists: Lists,
}

impl Deck {
    /// The deck of a text.
    pub fn read(text: impl AsRef<[u8]>) -> Result<Deck, Refusal> {
        let mut lists = Lists::new(DECK_COLUMNS, DECK_ROWS);
        let mut buffers = DeckBuffers {
            coefficients: &mut lists.coefficients,
            rights: &mut lists.rights,
            lower: &mut lists.lower,
            upper: &mut lists.upper,
            low: &mut lists.low,
            high: &mut lists.high,
            ideals: &mut lists.ideals,
        };
        let sizes = read_deck(text.as_ref(), &mut buffers)?;
        lists.truncate(sizes.columns, sizes.rows);
        Ok(Deck { curves: sizes.curves, lists })
    }

    /// How many curves the text states. They are the first columns.
    pub fn curves(&self) -> usize {
        self.curves
    }

    /// How many columns, behind the curves, were added by rows of kinds 1 to 3, in row order.
    pub fn added(&self) -> usize {
        self.lists.lower.len() - self.curves
    }

    /// The deck's problem with a step limit.
    pub fn problem(&self, limit: u32) -> Problem<'_> {
        self.lists.problem(limit)
    }

    /// A whole assignment of the deck. The curves' values are the first ones:
    ///
    /// ```
    /// let deck = koralimbu::Deck::read("3\n1 99 3000 3000\n1 99 3000 3000\n1 99 3000 3000\n1\n3 2 3 1 1 2 1 3 1\n0\n")?;
    /// let solved = deck.solve(10_000)?;
    /// let (curves, added) = solved.values.split_at(deck.curves());
    /// assert_eq!(curves, [3, 3, 4]);
    /// assert_eq!(added, [5]); // the half of their sum, since the row says that it is even
    /// # Ok::<(), koralimbu::Refusal>(())
    /// ```
    pub fn solve(&self, limit: u32) -> Result<Solved, Refusal> {
        solve(&self.problem(limit))
    }
}

/// An answer with its lists.
#[derive(Clone, Debug, PartialEq, Eq)]
pub struct Solved {
    /// Where settling ended.
    pub verdict: Verdict,
    /// The steps that were taken.
    pub steps: Steps,
    /// The rounds of the elimination, as in an [`Answer`].
    pub rounds: u32,
    /// The value of each column.
    pub values: Vec<i64>,
    /// The stride of each column, the step by which it can change at all.
    pub strides: Vec<u64>,
}

/// A whole assignment in buffers of its own.
pub fn solve(problem: &Problem) -> Result<Solved, Refusal> {
    in_own_buffers(assign, problem, vec![0; problem.columns.lower.len()])
}

/// Continue from a list, in buffers of its own.
pub fn solve_from(problem: &Problem, values: &[i64]) -> Result<Solved, Refusal> {
    in_own_buffers(continue_from, problem, values.to_vec())
}

/// The next step of a list, in buffers of its own; `None` where no move improves. See [`preview`].
pub fn next_step(problem: &Problem, values: &[i64]) -> Result<Option<NextStep>, Refusal> {
    let n = problem.columns.lower.len();
    let (mut tableau, mut after, mut strides) = (vec![0; room(problem)], vec![0; n], vec![0; n]);
    let mut buffers = PreviewBuffers { tableau: &mut tableau, after: &mut after, strides: &mut strides };
    let Seen { step, rounds } = preview(problem, values, &mut buffers)?;
    Ok(step.map(|step| NextStep { step, changes: step::changes(values, &after), after, rounds }))
}

/// A whole assignment of a deck's text. The curves' values come first; with [`Deck::solve`] the deck tells how many they are.
pub fn solve_text(text: impl AsRef<[u8]>, limit: u32) -> Result<Solved, Refusal> {
    Deck::read(text)?.solve(limit)
}

/// The numbers of a problem's tableau.
fn room(problem: &Problem) -> usize {
    let (n, m) = (problem.columns.lower.len(), problem.rows.rights.len());
    // A problem too large is refused by its counts, whatever it lends.
    if n <= MOST_COLUMNS && m <= MOST_ROWS {
        n * (m + n)
    } else {
        0
    }
}

fn in_own_buffers(
    call: fn(&Problem, &mut Buffers) -> Result<Answer, Refusal>,
    problem: &Problem,
    mut values: Vec<i64>,
) -> Result<Solved, Refusal> {
    let mut tableau = vec![0; room(problem)];
    let mut strides = vec![0; problem.columns.lower.len()];
    let mut buffers = Buffers { tableau: &mut tableau, values: &mut values, strides: &mut strides };
    let Answer { verdict, steps, rounds } = call(problem, &mut buffers)?;
    Ok(Solved { verdict, steps, rounds, values, strides })
}
