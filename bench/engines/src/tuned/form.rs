//! The tableau, in place. Left of column c the rows that are not done have only 0, so that no step touches it.

use crate::problem::{nearest_quotient, M};

/// Has a bit above the 32nd where x lies beyond M, of either sign.
fn beyond_bits(x: i64) -> u64 {
    (x + M) as u64 | (x + M + 1) as u64
}

/// Takes the quotient times the pivot from the row; false where a number beyond M is left.
fn subtract(row: &mut [i64], pivot: &[i64], quotient: i64) -> bool {
    let mut bits = 0;
    // Most quotients are 1 or −1, and a difference without a product is done several numbers at a time.
    match quotient {
        1 => row.iter_mut().zip(pivot).for_each(|(a, b)| {
            *a -= b;
            bits |= beyond_bits(*a);
        }),
        -1 => row.iter_mut().zip(pivot).for_each(|(a, b)| {
            *a += b;
            bits |= beyond_bits(*a);
        }),
        _ => row.iter_mut().zip(pivot).for_each(|(a, b)| {
            *a -= quotient * b;
            bits |= beyond_bits(*a);
        }),
    }
    bits >> 32 == 0
}

/// The rounded-down quotient of an entry by a pivot, which is most often 1.
fn quotient(entry: i64, p: i64) -> i64 {
    if p == 1 {
        entry
    } else {
        entry.div_euclid(p)
    }
}

/// Brings the row's first number, which is not below the pivot's, to at most half of it.
fn lower(row: &mut [i64], pivot: &[i64]) -> bool {
    let q = if pivot[0] == 1 { row[0] } else { nearest_quotient(row[0], pivot[0]) };
    subtract(row, pivot, q)
}

/// Brings the row's first number below the pivot's, where it is not already.
pub fn reduce(row: &mut [i64], pivot: &[i64]) -> bool {
    let q = quotient(row[0], pivot[0]);
    q == 0 || subtract(row, pivot, q)
}

/// The row from k on with the smallest magnitude other than 0 at c, and whether it is the only one other than 0.
fn choose(table: &[i64], w: usize, k: usize, c: usize) -> Option<(usize, bool)> {
    let mut best = u64::MAX;
    let mut chosen = None;
    let mut alone = true;
    let mut at = k * w + c;
    let mut j = k;
    while at < table.len() {
        let size = table[at].unsigned_abs();
        if size != 0 {
            alone = chosen.is_none();
            if size < best {
                best = size;
                chosen = Some(j);
            }
        }
        at += w;
        j += 1;
    }
    chosen.map(|j| (j, alone))
}

/// Brings row j to place k and makes its entry at c positive.
fn lift(table: &mut [i64], w: usize, k: usize, j: usize, c: usize) {
    if j != k {
        let (upper, lower) = table.split_at_mut(j * w);
        upper[k * w + c..k * w + w].swap_with_slice(&mut lower[c..w]);
    }
    if table[k * w + c] < 0 {
        table[k * w + c..k * w + w].iter_mut().for_each(|a| *a = -*a);
    }
}

/// Gathers column c into row k, from the chosen row on; the rounds.
fn gather(table: &mut [i64], w: usize, k: usize, c: usize, mut chosen: (usize, bool)) -> Option<u32> {
    let mut rounds = 0;
    loop {
        let (j, alone) = chosen;
        // Row k alone is the last choice, which found only zeros below.
        if alone && rounds > 0 {
            return Some(rounds);
        }
        lift(table, w, k, j, c);
        rounds += 1;
        if alone {
            return Some(rounds);
        }
        let (upper, rest) = table.split_at_mut((k + 1) * w);
        let pivot = &upper[k * w + c..];
        let done = pivot[0] == 1;
        for row in rest.chunks_exact_mut(w) {
            if row[c] != 0 && !lower(&mut row[c..], pivot) {
                return None;
            }
        }
        // A pivot of 1 leaves nothing below it.
        if done {
            return Some(rounds);
        }
        chosen = choose(table, w, k, c).unwrap();
    }
}

fn reduce_above(table: &mut [i64], w: usize, k: usize, c: usize) -> bool {
    let (upper, rest) = table.split_at_mut(k * w);
    let pivot = &rest[c..w];
    upper.chunks_exact_mut(w).all(|row| row[c] == 0 || reduce(&mut row[c..], pivot))
}

fn fill(n: usize, m: usize, coefficients: &[i64], table: &mut [i64]) {
    table.fill(0);
    for (j, row) in table.chunks_exact_mut(m + n).enumerate() {
        for (i, to) in row[..m].iter_mut().enumerate() {
            *to = coefficients[i * n + j];
        }
        row[m + j] = 1;
    }
}

fn eliminate(table: &mut [i64], n: usize, w: usize) -> Option<u32> {
    let mut k = 0;
    let mut rounds = 0;
    for c in 0..w {
        if k == n {
            break;
        }
        let Some(chosen) = choose(table, w, k, c) else {
            continue;
        };
        rounds += gather(table, w, k, c, chosen)?;
        if !reduce_above(table, w, k, c) {
            return None;
        }
        k += 1;
    }
    Some(rounds)
}

/// The form in the table, and the rounds; where the elimination goes beyond M, nothing, and the table all 0.
pub fn counted_form(n: usize, m: usize, coefficients: &[i64], table: &mut [i64]) -> Option<u32> {
    fill(n, m, coefficients, table);
    let rounds = eliminate(table, n, m + n);
    if rounds.is_none() {
        table.fill(0);
    }
    rounds
}

/// The same without the rounds: whether there is a form.
pub fn form(n: usize, m: usize, coefficients: &[i64], table: &mut [i64]) -> bool {
    counted_form(n, m, coefficients, table).is_some()
}
