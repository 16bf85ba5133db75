//! The calls of `include/koralimbu.h`, each behind a safe function.

use crate::ideals::Handed;
use crate::joining::Numbered;
use crate::step::{step_of, Seen, PREVIEW_COUNT};
use crate::{
    Answer, Buffers, DeckBuffers, JoinBuffers, JoinedSizes, PreviewBuffers, Problem, Refusal, Sizes, Steps, Verdict,
};

// Line for line the header's.
#[rustfmt::skip]
extern "C" {
    fn koralimbu_version() -> u32;

    fn koralimbu_assign(
        n: usize, m: usize, limit: u32,
        coefficients: *const i64, coefficients_count: usize,
        rights: *const i64, rights_count: usize,
        lower: *const i64, lower_count: usize,
        upper: *const i64, upper_count: usize,
        low: *const i64, low_count: usize,
        high: *const i64, high_count: usize,
        given: *const i64, given_count: usize,
        ideals: *const i64, ideals_count: usize,
        tableau: *mut i64, tableau_count: usize,
        values: *mut i64, values_count: usize,
        strides: *mut u64, strides_count: usize,
        report: *mut u32, report_count: usize,
    ) -> u32;

    fn koralimbu_continue(
        n: usize, m: usize, limit: u32,
        coefficients: *const i64, coefficients_count: usize,
        rights: *const i64, rights_count: usize,
        lower: *const i64, lower_count: usize,
        upper: *const i64, upper_count: usize,
        low: *const i64, low_count: usize,
        high: *const i64, high_count: usize,
        given: *const i64, given_count: usize,
        ideals: *const i64, ideals_count: usize,
        tableau: *mut i64, tableau_count: usize,
        values: *mut i64, values_count: usize,
        strides: *mut u64, strides_count: usize,
        report: *mut u32, report_count: usize,
    ) -> u32;

    fn koralimbu_preview(
        n: usize, m: usize,
        coefficients: *const i64, coefficients_count: usize,
        rights: *const i64, rights_count: usize,
        lower: *const i64, lower_count: usize,
        upper: *const i64, upper_count: usize,
        low: *const i64, low_count: usize,
        high: *const i64, high_count: usize,
        given: *const i64, given_count: usize,
        ideals: *const i64, ideals_count: usize,
        standing: *const i64, standing_count: usize,
        tableau: *mut i64, tableau_count: usize,
        after: *mut i64, after_count: usize,
        strides: *mut u64, strides_count: usize,
        report: *mut u32, report_count: usize,
    ) -> u32;

    fn koralimbu_read(
        text: *const u8, text_count: usize,
        coefficients: *mut i64, coefficients_count: usize,
        rights: *mut i64, rights_count: usize,
        lower: *mut i64, lower_count: usize,
        upper: *mut i64, upper_count: usize,
        low: *mut i64, low_count: usize,
        high: *mut i64, high_count: usize,
        given: *mut i64, given_count: usize,
        ideals: *mut i64, ideals_count: usize,
        sizes: *mut usize, sizes_count: usize,
    ) -> u32;

    fn koralimbu_join(
        first_n: usize, first_m: usize,
        first_coefficients: *const i64, first_coefficients_count: usize,
        first_rights: *const i64, first_rights_count: usize,
        first_lower: *const i64, first_lower_count: usize,
        first_upper: *const i64, first_upper_count: usize,
        first_low: *const i64, first_low_count: usize,
        first_high: *const i64, first_high_count: usize,
        first_given: *const i64, first_given_count: usize,
        first_ideals: *const i64, first_ideals_count: usize,
        second_n: usize, second_m: usize,
        second_coefficients: *const i64, second_coefficients_count: usize,
        second_rights: *const i64, second_rights_count: usize,
        second_lower: *const i64, second_lower_count: usize,
        second_upper: *const i64, second_upper_count: usize,
        second_low: *const i64, second_low_count: usize,
        second_high: *const i64, second_high_count: usize,
        second_given: *const i64, second_given_count: usize,
        second_ideals: *const i64, second_ideals_count: usize,
        pairs: *const usize, pairs_count: usize,
        coefficients: *mut i64, coefficients_count: usize,
        rights: *mut i64, rights_count: usize,
        lower: *mut i64, lower_count: usize,
        upper: *mut i64, upper_count: usize,
        low: *mut i64, low_count: usize,
        high: *mut i64, high_count: usize,
        given: *mut i64, given_count: usize,
        ideals: *mut i64, ideals_count: usize,
        sizes: *mut usize, sizes_count: usize,
    ) -> u32;
}

/// The counts of a report, of the reader's sizes and of the join's.
pub const REPORT_COUNT: usize = 4;
pub const SIZES_COUNT: usize = 3;
pub const JOINED_COUNT: usize = 2;

pub fn version() -> u32 {
    // Sound: it takes nothing and touches no memory.
    unsafe { koralimbu_version() }
}

pub enum Call {
    Assign,
    Continue,
}

pub fn settle(call: Call, problem: &Problem, buffers: &mut Buffers) -> Result<Answer, Refusal> {
    let function = match call {
        Call::Assign => koralimbu_assign,
        Call::Continue => koralimbu_continue,
    };
    let Problem { columns, rows, limit } = problem;
    let (n, m) = (columns.lower.len(), rows.rights.len());
    let handed = Handed::of(columns.ideals);
    let mut report = [0; REPORT_COUNT];
    // Sound: a slice's pointer is never null, each count is its slice's, or no more than its array has, and no `&mut` slice overlaps
    // another. The shared slices may overlap each other, and are only read.
    #[rustfmt::skip]
    let number = unsafe {
        function(
            n, m, *limit,
            rows.coefficients.as_ptr(), rows.coefficients.len(),
            rows.rights.as_ptr(), rows.rights.len(),
            columns.lower.as_ptr(), columns.lower.len(),
            columns.upper.as_ptr(), columns.upper.len(),
            columns.low.as_ptr(), columns.low.len(),
            columns.high.as_ptr(), columns.high.len(),
            handed.given.as_ptr(), handed.count,
            handed.ideals.as_ptr(), handed.count,
            buffers.tableau.as_mut_ptr(), buffers.tableau.len(),
            buffers.values.as_mut_ptr(), buffers.values.len(),
            buffers.strides.as_mut_ptr(), buffers.strides.len(),
            report.as_mut_ptr(), report.len(),
        )
    };
    Refusal::check(number)?;
    let [verdict, bounds, goals, rounds] = report;
    Ok(Answer { verdict: verdict_of(verdict)?, steps: Steps { bounds, goals }, rounds })
}

/// A report's verdict. Only a library of another version has others.
pub fn verdict_of(number: u32) -> Result<Verdict, Refusal> {
    match number {
        1 => Ok(Verdict::Fitted),
        2 => Ok(Verdict::Outside),
        3 => Ok(Verdict::Spent),
        _ => Err(Refusal::Unknown(0)),
    }
}

pub fn preview(problem: &Problem, standing: &[i64], buffers: &mut PreviewBuffers) -> Result<Seen, Refusal> {
    let Problem { columns, rows, limit: _ } = problem;
    let (n, m) = (columns.lower.len(), rows.rights.len());
    let handed = Handed::of(columns.ideals);
    let mut report = [0; PREVIEW_COUNT];
    // Sound for the reasons above.
    #[rustfmt::skip]
    let number = unsafe {
        koralimbu_preview(
            n, m,
            rows.coefficients.as_ptr(), rows.coefficients.len(),
            rows.rights.as_ptr(), rows.rights.len(),
            columns.lower.as_ptr(), columns.lower.len(),
            columns.upper.as_ptr(), columns.upper.len(),
            columns.low.as_ptr(), columns.low.len(),
            columns.high.as_ptr(), columns.high.len(),
            handed.given.as_ptr(), handed.count,
            handed.ideals.as_ptr(), handed.count,
            standing.as_ptr(), standing.len(),
            buffers.tableau.as_mut_ptr(), buffers.tableau.len(),
            buffers.after.as_mut_ptr(), buffers.after.len(),
            buffers.strides.as_mut_ptr(), buffers.strides.len(),
            report.as_mut_ptr(), report.len(),
        )
    };
    Refusal::check(number)?;
    let [step @ .., rounds] = report;
    Ok(Seen { step: step_of(step, n)?, rounds })
}

pub fn read(text: &[u8], buffers: &mut DeckBuffers) -> Result<Sizes, Refusal> {
    let mut handed = Handed::of(buffers.ideals);
    let mut sizes = [0; SIZES_COUNT];
    // Sound for the reasons above.
    #[rustfmt::skip]
    let number = unsafe {
        koralimbu_read(
            text.as_ptr(), text.len(),
            buffers.coefficients.as_mut_ptr(), buffers.coefficients.len(),
            buffers.rights.as_mut_ptr(), buffers.rights.len(),
            buffers.lower.as_mut_ptr(), buffers.lower.len(),
            buffers.upper.as_mut_ptr(), buffers.upper.len(),
            buffers.low.as_mut_ptr(), buffers.low.len(),
            buffers.high.as_mut_ptr(), buffers.high.len(),
            handed.given.as_mut_ptr(), handed.count,
            handed.ideals.as_mut_ptr(), handed.count,
            sizes.as_mut_ptr(), sizes.len(),
        )
    };
    Refusal::check(number)?;
    handed.leave(buffers.ideals);
    let [columns, rows, curves] = sizes;
    Ok(Sizes { columns, rows, curves })
}

pub fn join(
    first: &Problem,
    second: &Problem,
    pairs: &[(usize, usize)],
    buffers: &mut JoinBuffers,
) -> Result<JoinedSizes, Refusal> {
    let handed = [first, second].map(|part| Handed::of(part.columns.ideals));
    let mut left = Handed::of(buffers.ideals);
    let numbered = Numbered::of(pairs);
    let mut sizes = [0; JOINED_COUNT];
    // Sound for the reasons above.
    #[rustfmt::skip]
    let number = unsafe {
        koralimbu_join(
            first.columns.lower.len(), first.rows.rights.len(),
            first.rows.coefficients.as_ptr(), first.rows.coefficients.len(), first.rows.rights.as_ptr(), first.rows.rights.len(),
            first.columns.lower.as_ptr(), first.columns.lower.len(), first.columns.upper.as_ptr(), first.columns.upper.len(),
            first.columns.low.as_ptr(), first.columns.low.len(), first.columns.high.as_ptr(), first.columns.high.len(),
            handed[0].given.as_ptr(), handed[0].count, handed[0].ideals.as_ptr(), handed[0].count,
            second.columns.lower.len(), second.rows.rights.len(),
            second.rows.coefficients.as_ptr(), second.rows.coefficients.len(), second.rows.rights.as_ptr(), second.rows.rights.len(),
            second.columns.lower.as_ptr(), second.columns.lower.len(), second.columns.upper.as_ptr(), second.columns.upper.len(),
            second.columns.low.as_ptr(), second.columns.low.len(), second.columns.high.as_ptr(), second.columns.high.len(),
            handed[1].given.as_ptr(), handed[1].count, handed[1].ideals.as_ptr(), handed[1].count,
            numbered.numbers.as_ptr(), numbered.count,
            buffers.coefficients.as_mut_ptr(), buffers.coefficients.len(), buffers.rights.as_mut_ptr(), buffers.rights.len(),
            buffers.lower.as_mut_ptr(), buffers.lower.len(), buffers.upper.as_mut_ptr(), buffers.upper.len(),
            buffers.low.as_mut_ptr(), buffers.low.len(), buffers.high.as_mut_ptr(), buffers.high.len(),
            left.given.as_mut_ptr(), left.count, left.ideals.as_mut_ptr(), left.count,
            sizes.as_mut_ptr(), sizes.len(),
        )
    };
    Refusal::check(number)?;
    left.leave(buffers.ideals);
    let [columns, rows] = sizes;
    Ok(JoinedSizes { columns, rows })
}

#[cfg(test)]
mod tests {
    use super::*;

    #[test]
    fn an_unknown_verdict_is_told() {
        for number in [0, 4, u32::MAX] {
            let refusal = verdict_of(number).unwrap_err();
            assert_eq!((refusal, refusal.number()), (Refusal::Unknown(0), 0));
            assert!(refusal.to_string().starts_with("a verdict or a step that this package does not know"));
        }
    }
}
