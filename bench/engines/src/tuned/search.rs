//! The next step. Along the ranking the measure to beat only falls, so a move that improves a column improves each higher one that it
//! changes: a move is tried only at the highest column that it changes. Two vectors without a common column improve nothing that
//! neither does alone.

use super::basis::{members, Basis, Set};
use super::columns::{Columns, Measure};
use crate::problem::{M, MAX_COLUMNS};

/// a times vector s and b times vector t; b is 0 for a single vector.
#[derive(Clone, Copy)]
pub struct Step {
    pub s: usize,
    pub a: i64,
    pub t: usize,
    pub b: i64,
}

/// A pair whose sum (or difference) changes nothing above some place, with the next of the same place.
#[derive(Clone, Copy)]
struct Late {
    s: u8,
    t: u8,
    differ: bool,
    next: u16,
}

const NOTHING: u16 = u16::MAX;

/// The pairs that wait for a later place, and the last put of each place.
pub struct Waiting {
    pairs: Vec<Late>,
    last: [u16; MAX_COLUMNS],
}

impl Waiting {
    pub fn new() -> Waiting {
        Waiting { pairs: Vec::new(), last: [NOTHING; MAX_COLUMNS] }
    }

    fn clear(&mut self) {
        self.pairs.clear();
        self.last = [NOTHING; MAX_COLUMNS];
    }

    fn put(&mut self, place: usize, s: usize, t: usize, differ: bool) {
        self.pairs.push(Late { s: s as u8, t: t as u8, differ, next: self.last[place] });
        self.last[place] = (self.pairs.len() - 1) as u16;
    }
}

/// Where a search stands: the column of this place and the measure to come below.
struct Search<'a, const GOALS: bool> {
    columns: &'a Columns,
    basis: &'a Basis<'a>,
    place: usize,
    column: usize,
    old: Measure,
}

impl<const GOALS: bool> Search<'_, GOALS> {
    /// Whether column j may come to lie at the value under an improving move that changes it.
    #[inline(always)]
    fn passes(&self, j: usize, value: i64) -> bool {
        let column = &self.columns.all[j];
        if GOALS {
            column.lower <= value && value <= column.upper && (column.low == 0 || column.ratio(value).below(self.old))
        } else {
            column.distance(value) < self.old.top && value.abs() <= M
        }
    }

    #[inline(always)]
    fn value(&self, j: usize) -> i64 {
        self.columns.all[j].value
    }

    fn single_improves(&self, s: usize, a: i64) -> bool {
        let vector = self.basis.vector(s);
        let i = self.column;
        self.passes(i, self.value(i) + a * vector[i])
            && members(self.basis.supports[s] & !(1 << i)).all(|j| self.passes(j, self.value(j) + a * vector[j]))
    }

    fn pair_improves(&self, step: &Step) -> bool {
        let (s, t) = (self.basis.vector(step.s), self.basis.vector(step.t));
        let passes = |j: usize| {
            let change = step.a * s[j] + step.b * t[j];
            change == 0 || self.passes(j, self.value(j) + change)
        };
        let union = self.basis.supports[step.s] | self.basis.supports[step.t];
        passes(self.column) && members(union & !(1 << self.column)).all(passes)
    }

    /// The first of ++, +−, −+, −− that improves, of those that change this column; the others wait for their place.
    fn pair(&self, s: usize, t: usize, waiting: &mut Waiting) -> Option<Step> {
        let (x, y) = (self.basis.vector(s)[self.column], self.basis.vector(t)[self.column]);
        let (sum, difference) = (x + y != 0, x - y != 0);
        if !sum {
            self.wait(s, t, false, waiting);
        }
        if !difference {
            self.wait(s, t, true, waiting);
        }
        let signs = [(1, 1, sum), (1, -1, difference), (-1, 1, difference), (-1, -1, sum)];
        signs.into_iter().find_map(|(a, b, changes)| {
            let step = Step { s, a, t, b };
            (changes && self.pair_improves(&step)).then_some(step)
        })
    }

    /// Puts a sum or difference that changes nothing here to the next place that it changes, if there is one.
    fn wait(&self, s: usize, t: usize, differ: bool, waiting: &mut Waiting) {
        let (x, y) = (self.basis.vector(s), self.basis.vector(t));
        let sign = if differ { -1 } else { 1 };
        let order = self.columns.order();
        let changed = |place: &usize| {
            let j = order[*place] as usize;
            x[j] + sign * y[j] != 0
        };
        if let Some(place) = (self.place + 1..order.len()).find(changed) {
            waiting.put(place, s, t, differ);
        }
    }

    /// The first improving pair of vectors that this place is the highest of, both or one of them.
    fn fresh_pairs(&self, fresh: Set, seen: Set, waiting: &mut Waiting) -> Option<Step> {
        let near = members(fresh).fold(0, |set, s| set | self.basis.neighbours[s]) & !seen;
        for s in members(near) {
            let others = if fresh >> s & 1 == 1 { !seen } else { fresh };
            for t in members(self.basis.neighbours[s] & others & (!1 << s)) {
                let step = self.pair(s, t, waiting);
                if step.is_some() {
                    return step;
                }
            }
        }
        None
    }

    /// The first improving pair among those that waited for this place.
    fn late_pairs(&self, waiting: &Waiting) -> Option<Step> {
        let mut best: Option<Step> = None;
        let mut at = waiting.last[self.place];
        while at != NOTHING {
            let late = waiting.pairs[at as usize];
            let sign = if late.differ { -1 } else { 1 };
            for a in [1, -1] {
                let step = Step { s: late.s as usize, a, t: late.t as usize, b: a * sign };
                if best.is_none_or(|found| key(&step) < key(&found)) && self.pair_improves(&step) {
                    best = Some(step);
                }
            }
            at = late.next;
        }
        best
    }

    /// The first improving move that this place is the highest of.
    fn at_place(&self, fresh: Set, seen: Set, waiting: &mut Waiting) -> Option<Step> {
        for s in members(fresh) {
            for a in [1, -1] {
                if self.single_improves(s, a) {
                    return Some(Step { s, a, t: s, b: 0 });
                }
            }
        }
        let found = self.fresh_pairs(fresh, seen, waiting);
        let late = self.late_pairs(waiting);
        match (found, late) {
            (Some(x), Some(y)) => Some(if key(&x) < key(&y) { x } else { y }),
            (found, late) => found.or(late),
        }
    }
}

/// The place of a pair's move in the order of moves.
fn key(step: &Step) -> (usize, usize, i64, i64) {
    (step.s, step.t, -step.a, -step.b)
}

/// The first improving move of the first column that has one; GOALS says which part.
pub fn search<const GOALS: bool>(columns: &Columns, basis: &Basis, waiting: &mut Waiting) -> Option<Step> {
    waiting.clear();
    let mut seen = 0;
    for (place, &column) in columns.order().iter().enumerate() {
        let column = column as usize;
        let fresh = basis.holders[column] & !seen;
        if fresh == 0 && waiting.last[place] == NOTHING {
            continue;
        }
        let here = Search::<GOALS> { columns, basis, place, column, old: columns.measures[column] };
        let step = here.at_place(fresh, seen, waiting);
        if step.is_some() {
            return step;
        }
        seen |= fresh;
    }
    None
}
