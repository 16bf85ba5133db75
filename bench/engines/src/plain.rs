//! Documents 01 and 02 as a careful programmer writes them down: the rules in their order, the moves in a list.

use crate::problem::*;
use std::cmp::Ordering;

type Row = Vec<i64>;

/// A subtraction left a number beyond M.
struct Beyond;

/// What a move does: (column, change) for each column that it changes.
type Changes = Vec<(usize, i64)>;

// ------------------------------------------------------------------ the tableau

fn fill(n: usize, m: usize, coefficients: &[i64]) -> Vec<Row> {
    (0..n)
        .map(|j| {
            let mut row: Row = (0..m).map(|i| coefficients[i * n + j]).collect();
            row.extend((0..n).map(|k| i64::from(k == j)));
            row
        })
        .collect()
}

fn subtract(row: &mut [i64], quotient: i64, pivot: &[i64]) -> Result<(), Beyond> {
    for (a, b) in row.iter_mut().zip(pivot) {
        *a -= quotient * b;
        if a.abs() > M {
            return Err(Beyond);
        }
    }
    Ok(())
}

/// Takes the rounded-down quotient at c times the pivot from a row.
fn reduce(row: &mut [i64], pivot: &[i64], c: usize) -> Result<(), Beyond> {
    subtract(row, row[c].div_euclid(pivot[c]), pivot)
}

/// The row from k on with the smallest magnitude other than 0 at c; the upper one of equals.
fn choose(table: &[Row], k: usize, c: usize) -> Option<usize> {
    (k..table.len()).filter(|&j| table[j][c] != 0).min_by_key(|&j| table[j][c].abs())
}

/// Gathers column c into row k by the nearest quotients; the rounds, 0 if all entries there are 0.
fn gather(table: &mut [Row], k: usize, c: usize) -> Result<u32, Beyond> {
    let mut rounds = 0;
    while let Some(j) = choose(table, k, c) {
        if rounds > 0 && table[k + 1..].iter().all(|row| row[c] == 0) {
            break;
        }
        table.swap(k, j);
        if table[k][c] < 0 {
            table[k].iter_mut().for_each(|a| *a = -*a);
        }
        let (upper, lower) = table.split_at_mut(k + 1);
        let pivot = &upper[k];
        for row in lower.iter_mut().filter(|row| row[c] != 0) {
            let quotient = nearest_quotient(row[c], pivot[c]);
            subtract(row, quotient, pivot)?;
        }
        rounds += 1;
    }
    Ok(rounds)
}

fn reduce_above(table: &mut [Row], k: usize, c: usize) -> Result<(), Beyond> {
    let (upper, rest) = table.split_at_mut(k);
    let pivot = &rest[0];
    for row in upper {
        reduce(row, pivot, c)?;
    }
    Ok(())
}

/// Brings the table to its form; returns the lead column of each row, and the rounds.
fn bring_to_form(table: &mut [Row], width: usize) -> Result<(Vec<usize>, u32), Beyond> {
    let mut leads = Vec::new();
    let mut rounds = 0;
    for c in 0..width {
        let k = leads.len();
        if k == table.len() {
            break;
        }
        let gathered = gather(table, k, c)?;
        if gathered > 0 {
            reduce_above(table, k, c)?;
            leads.push(c);
            rounds += gathered;
        }
    }
    Ok((leads, rounds))
}

fn write_out(tableau: &mut [i64], table: &[Row]) {
    for (to, row) in tableau.chunks_exact_mut(table[0].len()).zip(table) {
        to.copy_from_slice(row);
    }
}

// --------------------------------------------------- right side, basis, strides

/// The starting list, or nothing where no whole numbers satisfy the rows.
fn starting_list(table: &[Row], leads: &[usize], rights: &[i64]) -> Result<Option<Vec<i64>>, Beyond> {
    let m = rights.len();
    let mut rest: Vec<i64> = rights.iter().map(|b| -b).collect();
    rest.resize(m + table.len(), 0);
    let heads = leads.iter().filter(|&&lead| lead < m).count();
    for (row, &lead) in table.iter().zip(leads).take(heads) {
        reduce(&mut rest, row, lead)?;
    }
    if rest[..m].iter().any(|&number| number != 0) {
        return Ok(None);
    }
    for (row, &lead) in table.iter().zip(leads).skip(heads) {
        reduce(&mut rest, row, lead)?;
    }
    Ok(Some(rest.split_off(m)))
}

fn basis_of(table: &[Row], leads: &[usize], m: usize) -> Vec<Row> {
    let rows = table.iter().zip(leads);
    rows.filter(|&(_, &lead)| lead >= m).map(|(row, _)| row[m..].to_vec()).collect()
}

fn write_strides(strides: &mut [u64], basis: &[Row]) {
    for (j, stride) in strides.iter_mut().enumerate() {
        *stride = basis.iter().fold(0, |d, vector| divisor(d, vector[j].unsigned_abs()));
    }
}

// --------------------------------------------------------------------- seating

fn seat(p: &Problem, basis: &[Row], values: &mut [i64]) -> bool {
    for vector in basis {
        let c = vector.iter().position(|&entry| entry != 0).unwrap();
        let times = nearest_quotient(ideal(p, c, values[c]) - values[c], vector[c]);
        for (value, entry) in values.iter_mut().zip(vector) {
            *value += times * entry;
        }
        if values.iter().any(|value| value.abs() > M) {
            return false;
        }
    }
    true
}

// ----------------------------------------------------------- moves and settling

fn changes_of(entries: impl Iterator<Item = i64>) -> Changes {
    entries.enumerate().filter(|&(_, change)| change != 0).collect()
}

fn moves_in_order(basis: &[Row]) -> Vec<Changes> {
    let mut moves = Vec::new();
    for vector in basis {
        for sign in [1, -1] {
            moves.push(changes_of(vector.iter().map(|entry| sign * entry)));
        }
    }
    for s in 0..basis.len() {
        for t in s + 1..basis.len() {
            for (a, b) in [(1, 1), (1, -1), (-1, 1), (-1, -1)] {
                moves.push(changes_of(basis[s].iter().zip(&basis[t]).map(|(x, y)| a * x + b * y)));
            }
        }
    }
    moves
}

/// For each column the moves that change it, in order.
fn moves_by_column(moves: &[Changes], n: usize) -> Vec<Vec<&Changes>> {
    let mut by_column = vec![Vec::new(); n];
    for changes in moves {
        for &(j, _) in changes {
            by_column[j].push(changes);
        }
    }
    by_column
}

fn distance(p: &Problem, j: usize, value: i64) -> i64 {
    (p.lower[j] - value).max(value - p.upper[j]).max(0)
}

/// Numerator and denominator of a ratio.
type Ratio = (i64, i64);

fn compare(a: Ratio, b: Ratio) -> Ordering {
    (a.0 * b.1).cmp(&(b.0 * a.1))
}

/// The larger of the ratios to both goals of column j.
fn ratio(p: &Problem, j: usize, value: i64) -> Ratio {
    let (over, short) = ((1000 * value, p.low[j]), (p.high[j], 1000 * value));
    if compare(over, short).is_lt() {
        short
    } else {
        over
    }
}

fn rank_by_distance(p: &Problem, values: &[i64]) -> Vec<usize> {
    let mut far: Vec<usize> = (0..p.n).filter(|&j| distance(p, j, values[j]) > 0).collect();
    far.sort_by_key(|&j| -distance(p, j, values[j]));
    far
}

fn rank_by_ratio(p: &Problem, values: &[i64]) -> Vec<usize> {
    let mut wanted: Vec<usize> = (0..p.n).filter(|&j| p.low[j] > 0).collect();
    wanted.sort_by(|&i, &j| compare(ratio(p, j, values[j]), ratio(p, i, values[i])));
    wanted
}

fn improves_bounds(p: &Problem, values: &[i64], changes: &Changes, old: i64) -> bool {
    changes.iter().all(|&(j, change)| {
        let value = values[j] + change;
        distance(p, j, value) < old && value.abs() <= M
    })
}

fn improves_goals(p: &Problem, values: &[i64], changes: &Changes, old: Ratio) -> bool {
    changes.iter().all(|&(j, change)| {
        let value = values[j] + change;
        let inside = p.lower[j] <= value && value <= p.upper[j];
        inside && (p.low[j] == 0 || compare(ratio(p, j, value), old).is_lt())
    })
}

fn bounds_step<'a>(p: &Problem, by_column: &[Vec<&'a Changes>], values: &[i64]) -> Option<&'a Changes> {
    rank_by_distance(p, values).into_iter().find_map(|i| {
        let old = distance(p, i, values[i]);
        by_column[i].iter().copied().find(|changes| improves_bounds(p, values, changes, old))
    })
}

fn goals_step<'a>(p: &Problem, by_column: &[Vec<&'a Changes>], values: &[i64]) -> Option<&'a Changes> {
    rank_by_ratio(p, values).into_iter().find_map(|i| {
        let old = ratio(p, i, values[i]);
        by_column[i].iter().copied().find(|changes| improves_goals(p, values, changes, old))
    })
}

fn settle(p: &Problem, basis: &[Row], values: &mut [i64], rounds: u32) -> Settled {
    let moves = moves_in_order(basis);
    let by_column = moves_by_column(&moves, p.n);
    let (mut bounds_steps, mut goals_steps) = (0, 0);
    let verdict = loop {
        let outside = (0..p.n).any(|j| distance(p, j, values[j]) > 0);
        let step = if outside { bounds_step(p, &by_column, values) } else { goals_step(p, &by_column, values) };
        let Some(changes) = step else {
            break if outside { Verdict::Outside } else { Verdict::Fitted };
        };
        if bounds_steps + goals_steps == p.limit {
            break Verdict::Spent;
        }
        changes.iter().for_each(|&(j, change)| values[j] += change);
        *(if outside { &mut bounds_steps } else { &mut goals_steps }) += 1;
    };
    Settled { verdict, bounds_steps, goals_steps, rounds }
}

// ------------------------------------------------------------------- the calls

pub fn form(n: usize, m: usize, coefficients: &[i64], tableau: &mut [i64]) -> bool {
    let mut table = fill(n, m, coefficients);
    let formed = bring_to_form(&mut table, m + n).is_ok();
    if formed {
        write_out(tableau, &table);
    } else {
        tableau.fill(0);
    }
    formed
}

pub fn assign(p: &Problem, lent: &mut Lent) -> Result<Settled, u32> {
    let mut table = fill(p.n, p.m, p.coefficients);
    let formed = bring_to_form(&mut table, p.m + p.n)
        .and_then(|(leads, rounds)| starting_list(&table, &leads, p.rights).map(|start| (leads, rounds, start)));
    let Ok((leads, rounds, start)) = formed else {
        lent.tableau.fill(0);
        return Err(ELIMINATION_BEYOND);
    };
    write_out(lent.tableau, &table);
    let mut values = start.ok_or(NO_WHOLE_NUMBERS)?;
    let basis = basis_of(&table, &leads, p.m);
    if !seat(p, &basis, &mut values) {
        return Err(SEATING_BEYOND);
    }
    let settled = settle(p, &basis, &mut values, rounds);
    lent.values.copy_from_slice(&values);
    write_strides(lent.strides, &basis);
    Ok(settled)
}
