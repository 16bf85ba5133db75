//! Two unverified engines, to compare the proved one with: `plain` is written straight from documents 01 and 02, `tuned` for speed.
//! Both are called like `koralimbu_assign` and leave the same numbers; a `_form` call leaves the tableau alone.

mod plain;
mod problem;
mod tuned;

use problem::{first_cause, Lent, Problem, Settled, ELIMINATION_BEYOND, WRONG_LENGTH};
use std::slice::{from_raw_parts, from_raw_parts_mut};

/// A whole assignment between the checks and the report.
fn call(assign: fn(&Problem, &mut Lent) -> Result<Settled, u32>, problem: &Problem, lent: &mut Lent, report: &mut [u32]) -> u32 {
    if report.len() != 4 {
        return WRONG_LENGTH;
    }
    let answer = match first_cause(problem, lent) {
        0 => assign(problem, lent),
        cause => Err(cause),
    };
    match answer {
        Ok(settled) => {
            report.copy_from_slice(&[settled.verdict as u32, settled.bounds_steps, settled.goals_steps, settled.rounds]);
            0
        }
        Err(refusal) => {
            report.fill(0);
            refusal
        }
    }
}

/// The two C calls of an engine.
macro_rules! engine {
    ($engine:ident, $assign:ident, $form:ident) => {
/// # Safety
        /// Each pointer has as many numbers behind it as its count says, and no two buffers overlap.
        #[no_mangle]
        #[rustfmt::skip]
        pub unsafe extern "C" fn $assign(
            n: usize, m: usize, limit: u32,
            coefficients: *const i64, coefficients_count: usize,
            rights: *const i64, rights_count: usize,
            lower: *const i64, lower_count: usize,
            upper: *const i64, upper_count: usize,
            low: *const i64, low_count: usize,
            high: *const i64, high_count: usize,
            given: *const i64, given_count: usize,
            ideals: *const i64, ideals_count: usize,
            tableau: *mut i64, tableau_count: usize,
            values: *mut i64, values_count: usize,
            strides: *mut u64, strides_count: usize,
            report: *mut u32, report_count: usize,
        ) -> u32 {
            let problem = Problem {
                n, m, limit,
                coefficients: from_raw_parts(coefficients, coefficients_count),
                rights: from_raw_parts(rights, rights_count),
                lower: from_raw_parts(lower, lower_count),
                upper: from_raw_parts(upper, upper_count),
                low: from_raw_parts(low, low_count),
                high: from_raw_parts(high, high_count),
                given: from_raw_parts(given, given_count),
                ideals: from_raw_parts(ideals, ideals_count),
            };
            let mut lent = Lent {
                tableau: from_raw_parts_mut(tableau, tableau_count),
                values: from_raw_parts_mut(values, values_count),
                strides: from_raw_parts_mut(strides, strides_count),
            };
            call($engine::assign, &problem, &mut lent, from_raw_parts_mut(report, report_count))
        }

        /// The tableau alone, of a problem within the limits: 0, or 7 and the tableau all 0.
        ///
        /// # Safety
        /// The coefficients are m times n numbers, the tableau n times m + n, and they do not overlap.
        #[no_mangle]
        pub unsafe extern "C" fn $form(n: usize, m: usize, coefficients: *const i64, tableau: *mut i64) -> u32 {
            let coefficients = from_raw_parts(coefficients, m * n);
            let tableau = from_raw_parts_mut(tableau, n * (m + n));
            if $engine::form(n, m, coefficients, tableau) {
                0
            } else {
                ELIMINATION_BEYOND
            }
        }
    };
}

engine!(plain, plain_assign, plain_form);
engine!(tuned, tuned_assign, tuned_form);
