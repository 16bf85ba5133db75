//! Every answer and every refusal that a call can give, and what is left in the buffers.

use koralimbu::*;

const LIMIT: u32 = 10_000;
/// What a lent buffer holds before a call.
const MARK: i64 = -77;

/// A problem with its lists, all columns with the same bounds, no goal and no ideal until a test changes one.
#[derive(Clone)]
struct Posed {
    coefficients: Vec<i64>,
    rights: Vec<i64>,
    lower: Vec<i64>,
    upper: Vec<i64>,
    low: Vec<i64>,
    high: Vec<i64>,
    ideals: Vec<Option<i64>>,
    limit: u32,
}

impl Posed {
    fn new(rows: &[&[i64]], rights: &[i64], n: usize, lower: i64, upper: i64) -> Posed {
        Posed {
            coefficients: rows.concat(),
            rights: rights.to_vec(),
            lower: vec![lower; n],
            upper: vec![upper; n],
            low: vec![0; n],
            high: vec![0; n],
            ideals: vec![None; n],
            limit: LIMIT,
        }
    }

    /// The same with these goals, each as a low and as a high one.
    fn wanting(self, goals: &[i64]) -> Posed {
        self.between(goals, goals)
    }

    /// The same with these low and high goals.
    fn between(self, low: &[i64], high: &[i64]) -> Posed {
        Posed { low: low.to_vec(), high: high.to_vec(), ..self }
    }

    fn problem(&self) -> Problem<'_> {
        Problem {
            columns: Columns {
                lower: &self.lower,
                upper: &self.upper,
                low: &self.low,
                high: &self.high,
                ideals: &self.ideals,
            },
            rows: Rows { coefficients: &self.coefficients, rights: &self.rights },
            limit: self.limit,
        }
    }

    /// v1 = v2, bounds 1..10 and 5..10.
    fn tied() -> Posed {
        let mut posed = Posed::new(&[&[1, -1]], &[0], 2, 1, 10);
        posed.lower[1] = 5;
        posed
    }

    /// 1000 v(k) = v(k + 1) for n columns.
    fn chain(n: usize, lower: i64, upper: i64) -> Posed {
        let mut posed = Posed::new(&[], &vec![0; n - 1], n, lower, upper);
        posed.coefficients = vec![0; (n - 1) * n];
        for k in 0..n - 1 {
            posed.coefficients[k * n + k] = 1000;
            posed.coefficients[k * n + k + 1] = -1;
        }
        posed
    }
}

/// The lent buffers of a problem.
#[derive(Clone, Debug, PartialEq)]
struct Lent {
    tableau: Vec<i64>,
    values: Vec<i64>,
    strides: Vec<u64>,
}

impl Lent {
    fn marked(posed: &Posed) -> Lent {
        let (n, m) = (posed.lower.len(), posed.rights.len());
        Lent { tableau: vec![MARK; n * (m + n)], values: vec![MARK; n], strides: vec![77; n] }
    }

    fn buffers(&mut self) -> Buffers<'_> {
        Buffers { tableau: &mut self.tableau, values: &mut self.values, strides: &mut self.strides }
    }

    /// The same for a preview, whose list after the step is the values.
    fn preview_buffers(&mut self) -> PreviewBuffers<'_> {
        PreviewBuffers { tableau: &mut self.tableau, after: &mut self.values, strides: &mut self.strides }
    }
}

/// Both calls refuse the problem and leave the buffers as they were.
fn both_refuse(posed: &Posed, lent: &Lent, refusal: Refusal) {
    for call in [assign, continue_from] {
        let mut after = lent.clone();
        assert_eq!(call(&posed.problem(), &mut after.buffers()), Err(refusal));
        assert_eq!(&after, lent);
    }
}

/// The preview refuses the standing list and leaves the buffers as given.
fn preview_refuses(posed: &Posed, standing: &[i64], lent: &Lent, refusal: Refusal, left: &Lent) {
    let mut after = lent.clone();
    assert_eq!(preview(&posed.problem(), standing, &mut after.preview_buffers()), Err(refusal));
    assert_eq!(&after, left);
}

/// All three calls refuse the problem and leave the buffers as they were.
fn all_refuse(posed: &Posed, lent: &Lent, refusal: Refusal) {
    both_refuse(posed, lent, refusal);
    preview_refuses(posed, &vec![MARK; posed.lower.len()], lent, refusal, lent);
}

/// A whole assignment is refused with the tableau as given and the lists as they were.
fn assign_refuses(posed: &Posed, refusal: Refusal, tableau: &[i64]) {
    let before = Lent::marked(posed);
    let mut after = before.clone();
    assert_eq!(assign(&posed.problem(), &mut after.buffers()), Err(refusal));
    assert_eq!(after, Lent { tableau: tableau.to_vec(), ..before });
}

fn answer(verdict: Verdict, bounds: u32, goals: u32, rounds: u32) -> Result<Answer, Refusal> {
    Ok(Answer { verdict, steps: Steps { bounds, goals }, rounds })
}

// ---------------------------------------------------------------- verdicts

#[test]
fn fitted_with_every_buffer() {
    let posed = Posed::tied();
    let mut lent = Lent::marked(&posed);
    assert_eq!(assign(&posed.problem(), &mut lent.buffers()), answer(Verdict::Fitted, 4, 0, 2));
    assert_eq!(lent, Lent { tableau: vec![1, 0, -1, 0, 1, 1], values: vec![5, 5], strides: vec![1, 1] });
}

#[test]
fn fitted_towards_the_goals() {
    let posed = Posed::new(&[&[3, -2]], &[0], 2, 1, 100).wanting(&[2500, 4000]);
    let solved = solve(&posed.problem()).unwrap();
    assert_eq!((solved.verdict, solved.steps), (Verdict::Fitted, Steps { bounds: 0, goals: 1 }));
    assert_eq!((solved.values, solved.strides), (vec![2, 3], vec![2, 3]));
}

#[test]
fn outside() {
    let mut posed = Posed::new(&[&[1, -2]], &[0], 2, 1, 10);
    posed.upper[0] = 1;
    let solved = solve(&posed.problem()).unwrap();
    assert_eq!((solved.verdict, solved.values), (Verdict::Outside, vec![2, 1]));
}

#[test]
fn spent() {
    let posed = Posed { limit: 3, ..Posed::tied() };
    let solved = solve(&posed.problem()).unwrap();
    assert_eq!((solved.verdict, solved.steps), (Verdict::Spent, Steps { bounds: 3, goals: 0 }));
    assert_eq!(solved.values, [4, 4]);
}

#[test]
fn no_rows() {
    let posed = Posed::new(&[], &[], 1, 3, 5);
    assert_eq!(solve(&posed.problem()).unwrap().values, [3]);
}

#[test]
fn one_list_as_both_bounds_and_one_as_both_goals() {
    let (fixed, goals) = ([4, 4], [9000, 0]);
    let columns = Columns::new(&fixed, &fixed, &goals, &goals);
    let problem = Problem { columns, rows: Rows { coefficients: &[1, -1], rights: &[0] }, limit: LIMIT };
    assert_eq!(solve(&problem).unwrap().values, [4, 4]);
}

#[test]
fn the_largest_problem() {
    let mut posed = Posed::chain(MOST_COLUMNS, 0, 10);
    posed.coefficients.iter_mut().for_each(|a| *a = a.signum());
    posed.coefficients.resize(MOST_COEFFICIENTS, 0);
    posed.rights.resize(MOST_ROWS, 0);
    posed.limit = MOST_STEPS;
    let mut lent = Lent::marked(&posed);
    assert_eq!(lent.tableau.len(), MOST_TABLEAU);
    assert_eq!(assign(&posed.problem(), &mut lent.buffers()), answer(Verdict::Fitted, 0, 0, MOST_COLUMNS as u32));
    assert_eq!((lent.values, lent.strides), (vec![0; MOST_COLUMNS], vec![1; MOST_COLUMNS]));
}

// ---------------------------------------------------------------- goals

/// The value of one column in wide bounds, by its ideal.
fn wanted(low: i64, high: i64) -> i64 {
    let solved = solve(&Posed::new(&[], &[], 1, 1, RANGE_BOUND).between(&[low], &[high]).problem()).unwrap();
    assert_eq!((solved.verdict, solved.steps), (Verdict::Fitted, Steps { bounds: 0, goals: 0 }));
    solved.values[0]
}

#[test]
fn the_ideal_of_two_goals() {
    // Not 4, not 9 and not 6.5, rounded up or down.
    assert_eq!((wanted(4000, 9000), wanted(1000, 9000), wanted(9000, 24_000)), (6, 3, 15));
    // From one number of intervals to the next at k(k + 1).
    for (low, high, ideal) in [(1000, 2000, 1), (1000, 2001, 2), (2000, 3000, 2), (2000, 3001, 3), (1, 2_000_001, 2)] {
        assert_eq!(wanted(low, high), ideal);
    }
    assert_eq!((wanted(1, 1), wanted(1, 999_999), wanted(1, RANGE_GOAL)), (1, 1, 32));
    assert_eq!((wanted(RANGE_GOAL - 1, RANGE_GOAL), wanted(RANGE_GOAL, RANGE_GOAL)), (RANGE_BOUND, RANGE_BOUND));
    // Document 01's, of one goal.
    for (goal, ideal) in [(400, 1), (1414, 1), (1415, 2), (2449, 2), (2450, 3)] {
        assert_eq!(wanted(goal, goal), ideal);
    }
}

/// v1 = v2, where v1 wants 4 to 9 and is seated at 6.
#[test]
fn the_ratio_to_two_goals() {
    for (other, value, steps) in [(6000, 6, 0), (8000, 6, 0), (12_000, 7, 1), (3000, 5, 1), (30_000, 11, 5)] {
        let posed = Posed::new(&[&[1, -1]], &[0], 2, 1, 99).between(&[4000, other], &[9000, other]);
        let solved = solve(&posed.problem()).unwrap();
        assert_eq!((solved.values, solved.steps), (vec![value; 2], Steps { bounds: 0, goals: steps }));
        assert_eq!(run(&posed, &[6, 6]).1, [value; 2]);
    }
}

// ---------------------------------------------------------------- ideals

/// One column with bounds 3 and 7, no rows, and this goal and ideal: its value in a whole assignment.
fn seated(goal: i64, ideal: Option<i64>) -> i64 {
    let posed = Posed { ideals: vec![ideal], ..Posed::new(&[], &[], 1, 3, 7).wanting(&[goal]) };
    let solved = solve(&posed.problem()).unwrap();
    assert_eq!((solved.verdict, solved.steps), (Verdict::Fitted, Steps { bounds: 0, goals: 0 }));
    solved.values[0]
}

#[test]
fn an_ideal_is_used_without_a_goal() {
    for number in 3..=7 {
        assert_eq!(seated(0, Some(number)), number);
    }
    // Without one the column is pulled to the bound that is nearest to its 0.
    assert_eq!(seated(0, None), 3);
}

#[test]
fn an_ideal_is_brought_into_the_bounds() {
    for number in [i64::MIN, i64::MIN + 1, -M, -1, 0, 2] {
        assert_eq!(seated(0, Some(number)), 3);
    }
    for number in [8, M, i64::MAX - 1, i64::MAX] {
        assert_eq!(seated(0, Some(number)), 7);
    }
}

#[test]
fn an_ideal_is_not_used_with_a_goal() {
    for ideal in [None, Some(i64::MIN), Some(0), Some(3), Some(7), Some(i64::MAX)] {
        assert_eq!(seated(5000, ideal), 5);
        assert_eq!(seated(1, ideal), 3);
        assert_eq!(seated(RANGE_GOAL, ideal), 7);
    }
}

/// v1 + v2 = 2 v3, where v1 wants 5. That leaves 5 for v2, which can only change by 2.
fn halved(ideal: Option<i64>) -> Vec<i64> {
    let mut posed = Posed::new(&[&[1, 1, -2]], &[0], 3, -9, 9).wanting(&[5000, 0, 0]);
    posed.lower[0] = 1;
    posed.ideals[1] = ideal;
    solve(&posed.problem()).unwrap().values
}

#[test]
fn no_ideal_is_not_the_ideal_0() {
    assert_eq!(halved(None), [5, 5, 5]);
    assert_eq!(halved(Some(0)), [5, 1, 3]);
    assert_eq!(halved(Some(5)), [5, 5, 5]);
    assert_eq!(halved(Some(-9)), [5, -9, -2]);
}

/// A column that leads in no vector gets what the rows leave for it.
#[test]
fn the_ideal_of_a_column_that_the_others_fix() {
    let mut posed = Posed::new(&[&[1, -1]], &[0], 2, 1, 10);
    posed.ideals = vec![Some(4), Some(9)];
    assert_eq!(solve(&posed.problem()).unwrap().values, [4, 4]);
    posed.ideals[0] = None;
    assert_eq!(solve(&posed.problem()).unwrap().values, [1, 1]);
}

/// Each column has the ideal of its own place.
#[test]
fn the_largest_problem_with_ideals() {
    let mut posed = Posed::new(&[], &[], MOST_COLUMNS, -RANGE_BOUND, RANGE_BOUND);
    let number = |j: usize| j as i64 * 1000 - 20_000;
    posed.ideals = (0..MOST_COLUMNS).map(|j| (j % 3 > 0).then_some(number(j))).collect();
    let wanted: Vec<i64> = (0..MOST_COLUMNS).map(|j| if j % 3 > 0 { number(j) } else { 0 }).collect();
    assert_eq!(solve(&posed.problem()).unwrap().values, wanted);
}

#[test]
fn columns_without_ideals() {
    let posed = Posed::tied();
    let columns = Columns::new(&posed.lower, &posed.upper, &posed.low, &posed.high);
    assert_eq!(columns.ideals, [None, None]);
    assert_eq!(solve(&Problem { columns, ..posed.problem() }), solve(&posed.problem()));
    let list = [1; 1000];
    let most = &list[..MOST_COLUMNS];
    assert_eq!(Columns::new(most, most, most, most).ideals, [None; MOST_COLUMNS]);
    for n in [0, MOST_COLUMNS + 1, 1000] {
        let columns = Columns::new(&list[..n], &list[..n], &list[..n], &list[..n]);
        assert_eq!(solve(&Problem { columns, ..Posed::new(&[], &[], n, 1, 1).problem() }), Err(Refusal::Size));
    }
}

/// Continue and the preview seat nothing: their answers and buffers are those of the same problem without ideals.
#[test]
fn ideals_leave_continue_and_the_preview_alone() {
    let posed = Posed::tied().wanting(&[0, 8000]);
    let wanted = run(&posed, &[1, 1]);
    assert_eq!((wanted.0.len(), &wanted.1), (7, &vec![8, 8]));
    let settled = solve_from(&posed.problem(), &[1, 1]);
    for ideal in [Some(i64::MIN), Some(0), Some(3), Some(9), Some(i64::MAX)] {
        let with = Posed { ideals: vec![ideal; 2], ..posed.clone() };
        assert_eq!(run(&with, &[1, 1]), wanted);
        assert_eq!(solve_from(&with.problem(), &[1, 1]), settled);
        let (mut here, mut there) = (Lent::marked(&posed), Lent::marked(&posed));
        let step = preview(&posed.problem(), &[3, 3], &mut there.preview_buffers());
        assert_eq!(preview(&with.problem(), &[3, 3], &mut here.preview_buffers()), step);
        assert_eq!(here, there);
        assert_eq!(previewed(&with, &[1, 2]), Err(Refusal::Standing));
    }
}

// ---------------------------------------------------------------- Continue

#[test]
fn continue_from_a_list() {
    let posed = Posed::tied();
    let mut lent = Lent::marked(&posed);
    lent.values = vec![9, 9];
    assert_eq!(continue_from(&posed.problem(), &mut lent.buffers()), answer(Verdict::Fitted, 0, 0, 2));
    assert_eq!(lent, Lent { tableau: vec![1, 0, -1, 0, 1, 1], values: vec![9, 9], strides: vec![1, 1] });
}

#[test]
fn continue_where_the_limit_stopped() {
    let posed = Posed { limit: 3, ..Posed::tied() };
    let stopped = solve(&posed.problem()).unwrap();
    let settled = solve_from(&posed.problem(), &stopped.values).unwrap();
    assert_eq!((settled.verdict, settled.steps), (Verdict::Fitted, Steps { bounds: 1, goals: 0 }));
    assert_eq!(settled.values, [5, 5]);
}

// ---------------------------------------------------------------- the preview

fn plus(vector: usize) -> SignedVector {
    SignedVector { sign: Sign::Plus, vector }
}

fn minus(vector: usize) -> SignedVector {
    SignedVector { sign: Sign::Minus, vector }
}

/// The preview equals Continue with the limit 1 on a copy of the list: its refusals, its rounds, and every buffer. The list after, and the step.
fn previewed(posed: &Posed, standing: &[i64]) -> Result<(Vec<i64>, Option<Step>), Refusal> {
    let marked = Lent::marked(posed);
    let mut seen = marked.clone();
    let told = preview(&posed.problem(), standing, &mut seen.preview_buffers());
    let once = Posed { limit: 1, ..posed.clone() };
    let mut copy = Lent { values: standing.to_vec(), ..marked.clone() };
    match continue_from(&once.problem(), &mut copy.buffers()) {
        Err(refusal) => {
            assert_eq!(told, Err(refusal));
            // Continue starts from its list, so that it is left as that; the preview's is left as it was lent.
            assert_eq!(seen, Lent { values: marked.values, ..copy });
        }
        Ok(answer) => {
            assert_eq!(seen, copy);
            assert_eq!(told?.rounds, answer.rounds);
            let part = told?.step.map(|step| step.part);
            let taken = |wanted| u32::from(part == Some(wanted));
            assert_eq!(answer.steps, Steps { bounds: taken(Part::Bounds), goals: taken(Part::Goals) });
        }
    }
    let step = told?.step;
    if let Some(step) = step {
        adds_up(posed, standing, &seen, step);
    }
    Ok((seen.values, step))
}

/// The list after is the standing one and the vectors of the move, and the step changes its column.
fn adds_up(posed: &Posed, standing: &[i64], seen: &Lent, step: Step) {
    let vectors: Vec<&[i64]> = basis(&seen.tableau, posed.lower.len(), posed.rights.len()).collect();
    let mut sum = standing.to_vec();
    for SignedVector { sign, vector } in [Some(step.by.first), step.by.second].into_iter().flatten() {
        for (value, entry) in sum.iter_mut().zip(vectors[vector]) {
            *value += if sign == Sign::Plus { *entry } else { -entry };
        }
    }
    assert_eq!(seen.values, sum);
    assert_ne!(standing[step.column], sum[step.column]);
}

/// The steps of a list up to its last list.
fn run(posed: &Posed, standing: &[i64]) -> (Vec<Step>, Vec<i64>) {
    let (mut steps, mut values) = (vec![], standing.to_vec());
    while let (after, Some(step)) = previewed(posed, &values).unwrap() {
        steps.push(step);
        values = after;
        assert!(steps.len() < LIMIT as usize);
    }
    (steps, values)
}

#[test]
fn a_step_by_one_vector_with_every_buffer() {
    let posed = Posed::tied();
    let mut lent = Lent::marked(&posed);
    let step = Step { part: Part::Bounds, column: 1, by: Move { first: plus(0), second: None } };
    let told = Seen { step: Some(step), rounds: 2 };
    assert_eq!(preview(&posed.problem(), &[1, 1], &mut lent.preview_buffers()), Ok(told));
    assert_eq!(lent, Lent { tableau: vec![1, 0, -1, 0, 1, 1], values: vec![2, 2], strides: vec![1, 1] });
}

#[test]
fn a_step_by_two_vectors() {
    // v1 + v2 = v3, where v3 is held and v1 lies below its bounds.
    let mut posed = Posed::new(&[&[1, 1, -1]], &[0], 3, 1, 9);
    (posed.lower[2], posed.upper[2]) = (5, 5);
    let step = Step { part: Part::Bounds, column: 0, by: Move { first: plus(0), second: Some(minus(1)) } };
    assert_eq!(previewed(&posed, &[0, 5, 5]), Ok((vec![1, 4, 5], Some(step))));
}

#[test]
fn a_step_towards_the_goals() {
    let posed = Posed::new(&[&[3, -2]], &[0], 2, 1, 100).wanting(&[2500, 4000]);
    let step = Step { part: Part::Goals, column: 0, by: Move { first: minus(0), second: None } };
    assert_eq!(previewed(&posed, &[4, 6]), Ok((vec![2, 3], Some(step))));
}

#[test]
fn no_move_improves() {
    assert_eq!(previewed(&Posed::tied(), &[9, 9]), Ok((vec![9, 9], None)));
    let mut outside = Posed::new(&[&[1, -2]], &[0], 2, 1, 10);
    outside.upper[0] = 1;
    assert_eq!(previewed(&outside, &[2, 1]), Ok((vec![2, 1], None)));
    assert_eq!(next_step(&outside.problem(), &[2, 1]), Ok(None));
}

/// Previews taken one after the other are the run: the bounds part first, then the goals part.
#[test]
fn a_run_of_both_parts() {
    let posed = Posed::tied().wanting(&[8000, 8000]);
    let (steps, values) = run(&posed, &[1, 1]);
    let parts: Vec<Part> = steps.iter().map(|step| step.part).collect();
    assert_eq!(parts, [vec![Part::Bounds; 4], vec![Part::Goals; 3]].concat());
    assert_eq!(values, [8, 8]);
    let settled = solve_from(&posed.problem(), &[1, 1]).unwrap();
    assert_eq!((settled.values, settled.steps), (values, Steps { bounds: 4, goals: 3 }));
}

#[test]
fn the_limit_plays_no_part() {
    for limit in [0, 1, MOST_STEPS + 1, u32::MAX] {
        let posed = Posed { limit, ..Posed::tied() };
        assert_eq!(next_step(&posed.problem(), &[1, 1]).unwrap().unwrap().after, [2, 2]);
    }
}

#[test]
fn the_next_step_in_its_own_buffers() {
    let next = next_step(&Posed::tied().problem(), &[3, 3]).unwrap().unwrap();
    assert_eq!(next.step.to_string(), "bounds part: +N1 for column 2");
    assert_eq!(next.changes, [Change { column: 0, from: 3, to: 4 }, Change { column: 1, from: 3, to: 4 }]);
    assert_eq!((next.after, next.rounds), (vec![4, 4], 2));
}

/// A standing list may lie at M, and not beyond it.
#[test]
fn a_standing_list_at_m() {
    let posed = Posed::new(&[], &[], 1, 1, 10);
    let step = Step { part: Part::Bounds, column: 0, by: Move { first: minus(0), second: None } };
    assert_eq!(previewed(&posed, &[M]), Ok((vec![M - 1], Some(step))));
    assert_eq!(previewed(&posed, &[M + 1]), Err(Refusal::Standing));
}

// ---------------------------------------------------------------- rounds

/// Rows that add up to 0, and the rounds that all three calls tell. The last two differ by a half that goes up.
#[test]
fn rounds_of_a_row() {
    let rows: [(&[i64], u32); 10] = [
        (&[0], 1),
        (&[2], 1),
        (&[1, -1], 2),
        (&[3, -2], 3),
        (&[5, 12], 4),
        (&[12, 29], 5),
        (&[987, 610], 9),
        (&[1, 1, 1], 3),
        (&[4, 5, 6], 5),
        (&[4, 5, -6], 4),
    ];
    for (row, rounds) in rows {
        let posed = Posed::new(&[row], &[0], row.len(), -9, 9);
        let zeros = vec![0; row.len()];
        assert_eq!(solve(&posed.problem()).unwrap().rounds, rounds, "{row:?}");
        assert_eq!(solve_from(&posed.problem(), &zeros).unwrap().rounds, rounds, "{row:?}");
        let told = preview(&posed.problem(), &zeros, &mut Lent::marked(&posed).preview_buffers());
        assert_eq!(told, Ok(Seen { step: None, rounds }), "{row:?}");
        assert!(rounds <= posed.problem().most_rounds());
    }
}

/// The same lists by other rows: other rounds, and nothing else.
#[test]
fn rows_said_otherwise_take_other_rounds() {
    let plain = solve(&Posed::new(&[&[1, 0], &[0, 1]], &[3, 4], 2, 1, 9).problem()).unwrap();
    let other = solve(&Posed::new(&[&[5, 2], &[2, 1]], &[23, 10], 2, 1, 9).problem()).unwrap();
    assert_eq!((plain.rounds, other.rounds), (2, 3));
    assert_eq!(Solved { rounds: 2, ..other }, plain);
}

#[test]
fn the_most_rounds() {
    for (n, most) in [(0, 0), (1, 31), (MOST_COLUMNS, 1488), (MOST_COLUMNS + 1, 1488), (1000, 1488)] {
        assert_eq!(Posed::new(&[], &[], n, 1, 1).problem().most_rounds(), most);
    }
}

// ---------------------------------------------------------------- refusals

#[test]
fn refusal_1_no_columns_or_too_many() {
    for n in [0, MOST_COLUMNS + 1] {
        let posed = Posed::new(&[], &[], n, 1, 10);
        all_refuse(&posed, &Lent::marked(&posed), Refusal::Size);
        assert_eq!(solve(&posed.problem()), Err(Refusal::Size));
        assert_eq!(next_step(&posed.problem(), &vec![1; n]), Err(Refusal::Size));
    }
    let posed = Posed::new(&[&[0; MOST_ROWS + 1]], &[0; MOST_ROWS + 1], 1, 1, 10);
    all_refuse(&posed, &Lent::marked(&posed), Refusal::Size);
}

#[test]
fn refusal_2_a_wrong_length() {
    let posed = Posed::tied();
    let lent = Lent::marked(&posed);
    all_refuse(&posed, &Lent { tableau: vec![MARK; 7], ..lent.clone() }, Refusal::Length);
    all_refuse(&posed, &Lent { values: vec![MARK; 1], ..lent.clone() }, Refusal::Length);
    all_refuse(&posed, &Lent { strides: vec![], ..lent.clone() }, Refusal::Length);
    all_refuse(&Posed { coefficients: vec![1], ..posed.clone() }, &lent, Refusal::Length);
    all_refuse(&Posed { upper: vec![10; 3], ..posed.clone() }, &lent, Refusal::Length);
    all_refuse(&Posed { low: vec![], ..posed.clone() }, &lent, Refusal::Length);
    all_refuse(&Posed { high: vec![], ..posed.clone() }, &lent, Refusal::Length);
    // As many numbers together as there must be.
    all_refuse(&posed.clone().between(&[0], &[0; 3]), &lent, Refusal::Length);
    all_refuse(&posed.clone().between(&[0; 3], &[0]), &lent, Refusal::Length);
    for length in [0, 1, 3, MOST_COLUMNS, MOST_COLUMNS + 1, 1000] {
        all_refuse(&Posed { ideals: vec![None; length], ..posed.clone() }, &lent, Refusal::Length);
        all_refuse(&Posed { ideals: vec![Some(i64::MAX); length], ..posed.clone() }, &lent, Refusal::Length);
    }
    assert_eq!(solve_from(&posed.problem(), &[9]), Err(Refusal::Length));
    for standing in [vec![], vec![9], vec![9; 3]] {
        preview_refuses(&posed, &standing, &lent, Refusal::Length, &lent);
        assert_eq!(next_step(&posed.problem(), &standing), Err(Refusal::Length));
    }
}

/// A list of ideals whose length does not fit is told after a count of columns that does not, and before all else.
#[test]
fn refusal_2_comes_after_1_and_before_the_others() {
    let posed = Posed { ideals: vec![Some(1); 3], ..Posed::tied() };
    let lent = Lent::marked(&posed);
    for worse in [
        Posed { coefficients: vec![1, RANGE_COEFFICIENT + 1], ..posed.clone() },
        Posed { lower: vec![1, 11], ..posed.clone() },
        posed.clone().wanting(&[0, -1]),
        Posed { limit: MOST_STEPS + 1, ..posed.clone() },
        Posed { rights: vec![1], ..posed.clone() },
    ] {
        all_refuse(&worse, &lent, Refusal::Length);
    }
    // Before a list that fails a row, too.
    preview_refuses(&posed, &[1, 2], &lent, Refusal::Length, &lent);
    assert_eq!(solve_from(&posed.problem(), &[1, 2]), Err(Refusal::Length));
    for n in [0, MOST_COLUMNS + 1] {
        for length in [0, 1, MOST_COLUMNS, MOST_COLUMNS + 1, 1000] {
            let large = Posed { ideals: vec![None; length], ..Posed::new(&[], &[], n, 1, 10) };
            all_refuse(&large, &Lent::marked(&large), Refusal::Size);
        }
    }
}

#[test]
fn refusal_3_a_coefficient_or_right_side() {
    let lent = Lent::marked(&Posed::tied());
    all_refuse(&Posed { coefficients: vec![1, -RANGE_COEFFICIENT - 1], ..Posed::tied() }, &lent, Refusal::Coefficient);
    all_refuse(&Posed { rights: vec![RANGE_RIGHT + 1], ..Posed::tied() }, &lent, Refusal::Coefficient);
}

#[test]
fn refusal_4_a_bound() {
    let lent = Lent::marked(&Posed::tied());
    all_refuse(&Posed { lower: vec![1, 11], ..Posed::tied() }, &lent, Refusal::Bound);
    all_refuse(&Posed { upper: vec![10, i64::MAX], ..Posed::tied() }, &lent, Refusal::Bound);
}

#[test]
fn refusal_5_a_goal() {
    let lent = Lent::marked(&Posed::tied());
    let beyond = RANGE_GOAL + 1;
    let outside = [(-1, -1), (-1, 0), (0, -1), (-1, 1), (1, -1), (1, beyond), (beyond, beyond), (i64::MIN, i64::MAX)];
    let alone = [(0, 1), (1, 0), (0, RANGE_GOAL), (RANGE_GOAL, 0)];
    let above = [(2, 1), (RANGE_GOAL, RANGE_GOAL - 1), (i64::MAX, 1)];
    for (low, high) in outside.into_iter().chain(alone).chain(above) {
        all_refuse(&Posed::tied().between(&[0, low], &[0, high]), &lent, Refusal::Goal);
        all_refuse(&Posed::tied().between(&[low, 4000], &[high, 9000]), &lent, Refusal::Goal);
    }
    // They are set with a lower bound below 1.
    for (lower, high) in [(0, 1), (0, 9000), (-3, 1), (-3, 9000)] {
        let posed = Posed::tied().between(&[1, 0], &[high, 0]);
        all_refuse(&Posed { lower: vec![lower, 5], ..posed }, &lent, Refusal::Goal);
    }
    for (low, high) in [(0, 0), (1, 1), (1, RANGE_GOAL), (RANGE_GOAL, RANGE_GOAL)] {
        assert!(solve(&Posed::tied().between(&[0, low], &[0, high]).problem()).is_ok());
    }
}

#[test]
fn refusal_6_the_limit() {
    let lent = Lent::marked(&Posed::tied());
    both_refuse(&Posed { limit: MOST_STEPS + 1, ..Posed::tied() }, &lent, Refusal::Limit);
}

#[test]
fn refusal_7_the_elimination() {
    let posed = Posed::chain(5, 0, 10);
    assign_refuses(&posed, Refusal::Elimination, &[0; 45]);
    assert_eq!(solve_from(&posed.problem(), &[0; 5]), Err(Refusal::Elimination));
    let lent = Lent::marked(&posed);
    preview_refuses(&posed, &[0; 5], &lent, Refusal::Elimination, &Lent { tableau: vec![0; 45], ..lent.clone() });
    assert_eq!(previewed(&posed, &[0; 5]), Err(Refusal::Elimination));
    // A list that fails a row is told first.
    preview_refuses(&posed, &[1; 5], &lent, Refusal::Standing, &lent);
}

#[test]
fn refusal_8_no_whole_numbers() {
    assign_refuses(&Posed::new(&[&[2]], &[1], 1, 1, 9), Refusal::NoWholeNumbers, &[2, 1]);
}

#[test]
fn refusal_9_seating() {
    let mut posed = Posed::chain(3, 1, 1_000_000).wanting(&[RANGE_GOAL, 0, 0]);
    let form = [1, 0, 0, -1, -1000, 0, 1, 0, 0, -1, 0, 0, 1, 1000, 1_000_000];
    assign_refuses(&posed, Refusal::Seating, &form);
    // An ideal can do the same, though the bounds hold it back.
    posed = posed.wanting(&[0; 3]);
    posed.ideals[0] = Some(i64::MAX);
    assign_refuses(&posed, Refusal::Seating, &form);
    posed.ideals[0] = Some(2);
    assert_eq!(solve(&posed.problem()).unwrap().values, [1, 1000, 1_000_000]);
}

#[test]
fn refusal_10_the_list() {
    let posed = Posed::tied();
    for values in [vec![1, 2], vec![M + 1, M + 1], vec![-M - 1, -M - 1], vec![i64::MIN, i64::MIN]] {
        preview_refuses(&posed, &values, &Lent::marked(&posed), Refusal::Standing, &Lent::marked(&posed));
        assert_eq!(previewed(&posed, &values), Err(Refusal::Standing));
        let before = Lent { values, ..Lent::marked(&posed) };
        let mut after = before.clone();
        assert_eq!(continue_from(&posed.problem(), &mut after.buffers()), Err(Refusal::Standing));
        assert_eq!(after, before);
    }
}

#[test]
fn each_refusal_has_its_number_and_text() {
    for (number, refusal) in (1..).zip(Refusal::ALL) {
        assert_eq!(refusal.number(), number);
        let text = refusal.to_string();
        assert!(text.starts_with(&format!("refused with {number}: ")) && text.len() > 40, "{text}");
    }
}

/// A `main` that returns the refusal prints it so.
#[test]
fn a_refusal_is_debugged_as_it_is_displayed() {
    for refusal in Refusal::ALL.iter().copied().chain([Refusal::Unknown(0), Refusal::Unknown(16)]) {
        assert_eq!(format!("{refusal:?}"), refusal.to_string());
    }
    let error: Box<dyn std::error::Error> = Refusal::Layout.into();
    assert!(format!("Error: {error:?}").starts_with("Error: refused with 11: a word is no number, "));
}

// ---------------------------------------------------------------- the library

#[test]
fn the_librarys_version() {
    assert_eq!(version(), VERSION);
}

#[test]
fn threads_share_a_problem() {
    let posed = Posed::tied();
    let wanted = solve(&posed.problem());
    std::thread::scope(|scope| {
        for thread in [(); 8].map(|()| scope.spawn(|| solve(&posed.problem()))) {
            assert_eq!(thread.join().unwrap(), wanted);
        }
    });
}
