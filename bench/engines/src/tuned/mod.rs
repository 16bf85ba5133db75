//! Documents 01 and 02 for speed: the form in place, no list of moves, and each move tried once in a step.

mod basis;
mod columns;
mod form;
mod search;

pub use form::form;

use crate::problem::*;
use basis::Basis;
use columns::Columns;
use form::{counted_form, reduce};
use search::{search, Waiting};

/// The first entry of a row other than 0, from a place on.
fn lead_from(row: &[i64], from: usize) -> usize {
    from + row[from..].iter().position(|&entry| entry != 0).unwrap()
}

/// Reduces the right side by each row of the form. The number of rows with a lead among the first m numbers, or the refusal.
fn right_side(p: &Problem, tableau: &[i64], list: &mut [i64]) -> Result<usize, u32> {
    let w = p.m + p.n;
    let mut heads = 0;
    let mut next = 0;
    for (k, row) in tableau.chunks_exact(w).enumerate() {
        let lead = lead_from(row, next);
        next = lead + 1;
        if lead < p.m {
            heads = k + 1;
        } else if k == heads && list[..p.m].iter().any(|&number| number != 0) {
            return Err(NO_WHOLE_NUMBERS);
        }
        if !reduce(&mut list[lead..w], &row[lead..]) {
            return Err(ELIMINATION_BEYOND);
        }
    }
    if heads == p.n && list[..p.m].iter().any(|&number| number != 0) {
        return Err(NO_WHOLE_NUMBERS);
    }
    Ok(heads)
}

/// Seats the values, vector by vector; false where one comes to lie beyond M.
fn seat(p: &Problem, basis: &Basis, values: &mut [i64]) -> bool {
    let mut next = 0;
    for s in 0..basis.count {
        let vector = basis.vector(s);
        let c = lead_from(vector, next);
        next = c + 1;
        let times = nearest_quotient(ideal(p, c, values[c]) - values[c], vector[c]);
        if times == 0 {
            continue;
        }
        let mut within = true;
        for (value, entry) in values[c..].iter_mut().zip(&vector[c..]) {
            *value += times * entry;
            within &= value.abs() <= M;
        }
        if !within {
            return false;
        }
    }
    true
}

/// Takes steps until no move improves or the limit is reached.
fn settle(p: &Problem, basis: &Basis, values: &mut [i64], rounds: u32) -> Settled {
    let mut columns = Columns::new(p, values);
    let mut waiting = Waiting::new();
    let mut steps = [0, 0];
    let verdict = loop {
        let outside = columns.rank();
        let step = if outside { search::<false>(&columns, basis, &mut waiting) } else { search::<true>(&columns, basis, &mut waiting) };
        let Some(step) = step else {
            break if outside { Verdict::Outside } else { Verdict::Fitted };
        };
        if steps[0] + steps[1] == p.limit {
            break Verdict::Spent;
        }
        columns.take(basis, &step);
        steps[usize::from(!outside)] += 1;
    };
    columns.write(values);
    Settled { verdict, bounds_steps: steps[0], goals_steps: steps[1], rounds }
}

pub fn assign(p: &Problem, lent: &mut Lent) -> Result<Settled, u32> {
    let rounds = counted_form(p.n, p.m, p.coefficients, lent.tableau).ok_or(ELIMINATION_BEYOND)?;
    let w = p.m + p.n;
    let mut list = [0; MAX_WIDTH];
    for (to, b) in list.iter_mut().zip(p.rights) {
        *to = -b;
    }
    let heads = right_side(p, lent.tableau, &mut list[..w]).inspect_err(|&refusal| {
        if refusal == ELIMINATION_BEYOND {
            lent.tableau.fill(0);
        }
    })?;
    let values = &mut list[p.m..w];
    let basis = Basis::new(lent.tableau, heads, p.n, p.m);
    if !seat(p, &basis, values) {
        return Err(SEATING_BEYOND);
    }
    basis.strides(lent.strides);
    let settled = settle(p, &basis, values, rounds);
    lent.values.copy_from_slice(values);
    Ok(settled)
}
