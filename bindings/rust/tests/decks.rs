//! The reader's call, and decks solved from their text.

use koralimbu::*;

const LIMIT: u32 = 10_000;
const PAVING: &str = include_str!("../../../decks/paving.txt");
const PLAIN: &str = include_str!("../../../decks/plain-curves.txt");
const TWO_PARTS: &str = include_str!("../../../decks/two-parts.txt");

/// The reader's buffers, as they are before a call.
#[derive(Clone, Debug, PartialEq)]
struct Lent {
    coefficients: Vec<i64>,
    rights: Vec<i64>,
    lower: Vec<i64>,
    upper: Vec<i64>,
    low: Vec<i64>,
    high: Vec<i64>,
    ideals: Vec<Option<i64>>,
}

impl Lent {
    fn marked() -> Lent {
        let [lower, upper, low, high] = [-3, -4, -5, -7].map(|mark| vec![mark; DECK_COLUMNS]);
        let ideals = vec![Some(-6); DECK_COLUMNS];
        Lent { coefficients: vec![-1; DECK_COEFFICIENTS], rights: vec![-2; DECK_ROWS], lower, upper, low, high, ideals }
    }

    fn read(&mut self, text: &[u8]) -> Result<Sizes, Refusal> {
        let mut buffers = DeckBuffers {
            coefficients: &mut self.coefficients,
            rights: &mut self.rights,
            lower: &mut self.lower,
            upper: &mut self.upper,
            low: &mut self.low,
            high: &mut self.high,
            ideals: &mut self.ideals,
        };
        read_deck(text, &mut buffers)
    }
}

/// The text is refused and every buffer left as it was.
fn refuses(text: impl AsRef<[u8]>, refusal: Refusal) {
    let mut after = Lent::marked();
    assert_eq!(after.read(text.as_ref()), Err(refusal));
    assert_eq!(after, Lent::marked());
    assert_eq!(solve_text(text, LIMIT), Err(refusal));
}

/// The numbers, and zeros up to a count.
fn filled(numbers: &[i64], count: usize) -> Vec<i64> {
    let mut list = numbers.to_vec();
    list.resize(count, 0);
    list
}

#[test]
fn paving_is_read() {
    let mut lent = Lent::marked();
    assert_eq!(lent.read(PAVING.as_bytes()), Ok(Sizes { columns: 4, rows: 1, curves: 3 }));
    let wanted = Lent {
        coefficients: filled(&[1, 1, 1, -2], DECK_COEFFICIENTS),
        rights: filled(&[], DECK_ROWS),
        lower: filled(&[1, 1, 1, 2], DECK_COLUMNS),
        upper: filled(&[1_000_000; 4], DECK_COLUMNS),
        low: filled(&[3000; 3], DECK_COLUMNS),
        high: filled(&[3000; 3], DECK_COLUMNS),
        ideals: vec![None; DECK_COLUMNS],
    };
    assert_eq!(lent, wanted);
}

#[test]
fn paving_is_solved() {
    let solved = solve_text(PAVING, LIMIT).unwrap();
    assert_eq!((solved.verdict, solved.steps), (Verdict::Fitted, Steps { bounds: 0, goals: 0 }));
    assert_eq!((solved.values, solved.strides), (vec![3, 3, 4, 5], vec![1, 1, 1, 1]));
}

/// Two curves; a row of each kind, of which those of kinds 1 to 3 add a column.
const KINDS: &str = "2\n1 9 2000 2000\n1 9 3000 3000\n4\n0 5 2 1 1 2 1\n1 2 1 2 1\n2 8 1 1 1\n3 1 1 1 1\n0\n";

#[test]
fn the_sizes_of_a_deck_with_added_columns() {
    let sizes = Lent::marked().read(KINDS.as_bytes()).unwrap();
    assert_eq!(sizes, Sizes { columns: 5, rows: 4, curves: 2 });
    assert_eq!(sizes.added(), 3);
    let plain = Lent::marked().read(b"1\n3 5 0 0\n0\n0\n").unwrap();
    assert_eq!((plain.curves, plain.added()), (1, 0));
}

#[test]
fn the_values_of_the_curves_and_of_the_added_columns() {
    let deck = Deck::read(KINDS).unwrap();
    assert_eq!((deck.curves(), deck.added()), (2, 3));
    let solved = deck.solve(LIMIT).unwrap();
    assert_eq!(solved.verdict, Verdict::Fitted);
    assert_eq!(&solved.values[..deck.curves()], [2, 3]);
    // 3 − y = 2, 2 + y = 8, 2 − 2y = 0.
    assert_eq!(&solved.values[deck.curves()..], [1, 6, 1]);
    assert_eq!(Ok(solved), solve_text(KINDS, LIMIT));
}

// ---------------------------------------------------------------- the reader's ideals

/// The ideals of a text, those of the added columns too. What lies behind them is none.
fn ideals(text: &str) -> Vec<Option<i64>> {
    let mut lent = Lent::marked();
    let columns = lent.read(text.as_bytes()).unwrap().columns;
    assert_eq!(lent.ideals[columns..], vec![None; DECK_COLUMNS - columns]);
    lent.ideals.truncate(columns);
    assert_eq!(Deck::read(text).unwrap().problem(LIMIT).columns.ideals, lent.ideals);
    lent.ideals
}

/// Curve 1 is plain, beside curve 2 in two rows and curve 3 in one: counted once each, 4 and 9 have the mean 6.5; were curve 2 counted twice,
/// it would be 5.67. Curve 4 shares no row with it.
#[test]
fn the_mean_of_the_neighbours() {
    let curves = "4\n1 99 0 0\n1 99 4000 4000\n1 99 9000 9000\n1 99 80000 80000\n";
    assert_eq!(ideals(&format!("{curves}2\n0 0 2 1 1 2 -1\n0 0 3 1 1 2 1 3 -1\n0\n")), [Some(6), None, None, None]);
    // The same through all of its rows, of which one has a slack, and each with other coefficients.
    let rows = "3\n1 -7 2 1 -3 2 1\n0 0 2 1 5 3 1000\n0 0 2 2 1 4 -1\n";
    assert_eq!(ideals(&format!("{curves}{rows}0\n")), [Some(6), None, None, None, None]);
}

#[test]
fn a_curve_without_neighbours_has_no_ideal() {
    // No row; a row alone; beside a plain curve; and curve 2, which has a goal.
    assert_eq!(ideals("2\n1 99 0 0\n1 99 4000 4000\n0\n0\n"), [None; 2]);
    assert_eq!(ideals("2\n1 99 0 0\n1 99 4000 4000\n1\n0 5 1 1 1\n0\n"), [None; 2]);
    assert_eq!(ideals("3\n1 99 0 0\n1 99 4000 4000\n1 99 0 0\n1\n0 0 2 1 1 3 -1\n0\n"), [None; 3]);
    assert_eq!(ideals("3\n1 99 4000 4000\n1 99 4000 4000\n1 99 0 0\n1\n0 0 2 1 1 2 -1\n0\n"), [None; 3]);
}

/// A neighbour of a neighbour is none: curves 1 and 3 share no row.
#[test]
fn a_row_of_its_own_is_needed() {
    let text = "3\n1 99 0 0\n1 99 0 0\n1 99 7000 7000\n2\n0 0 2 1 1 2 -1\n0 0 2 2 1 3 -1\n0\n";
    assert_eq!(ideals(text), [None, Some(7), None]);
}

/// Each kind but the first adds a column, whose ideal is never set.
#[test]
fn an_added_column_has_no_ideal() {
    let rows = "4\n0 5 2 1 1 2 1\n1 2 2 1 1 2 1\n2 80 2 1 1 2 1\n3 1 2 1 1 2 1\n0\n";
    assert_eq!(ideals(&format!("2\n1 99 0 0\n1 99 3000 3000\n{rows}")), [Some(3), None, None, None, None]);
    assert_eq!(ideals(&format!("2\n1 99 2000 2000\n1 99 3000 3000\n{rows}")), [None; 5]);
}

/// A neighbour's ideal lies in the neighbour's bounds. The mean need not lie in those of the curve: only seating brings it there.
#[test]
fn the_bounds_of_the_neighbours_and_of_the_curve() {
    let curves = "5 6 1000 1000\n20 30 90000 90000";
    let deck = |plain: &str| format!("3\n{plain} 0 0\n{curves}\n1\n0 0 3 1 1 2 -1 3 -1\n0\n");
    for plain in ["1 99", "-9 -3", "50 60"] {
        assert_eq!(ideals(&deck(plain)), [Some(17), None, None]);
    }
    // Even over their half, with the ideals 5 and 30: curve 1 is seated first.
    let even = |plain: &str| deck(plain).replace("0 0 3 1 1 2 -1 3 -1", "3 0 3 1 1 2 1 3 1");
    for (plain, first) in [("1 99", 17), ("-9 -3", -3), ("50 60", 50)] {
        assert_eq!(solve_text(even(plain), 0).unwrap().values[0], first);
    }
}

/// The ideals of a low and a high goal, by one neighbour each; document 01's where both are the same.
#[test]
fn the_ideals_of_goals() {
    let ideal = |low, high| ideals(&format!("2\n-9 9 0 0\n1 99 {low} {high}\n1\n0 0 2 1 1 2 1\n0\n"));
    for (goal, number) in [(1, 1), (400, 1), (1414, 1), (1415, 2), (2449, 2), (2450, 3), (3000, 3)] {
        assert_eq!(ideal(goal, goal), [Some(number), None]);
    }
    for (low, high, number) in [(4000, 9000, 6), (1, 999_999, 1), (2000, 3000, 2), (2000, 3001, 3)] {
        assert_eq!(ideal(low, high), [Some(number), None]);
    }
}

/// Curve 1 is plain, beside all others of the largest deck.
#[test]
fn the_most_neighbours() {
    let goals: String = (2..=DECK_COLUMNS).map(|k| format!("1 1000000 {k}000 {k}000\n")).collect();
    let terms: String = (1..=DECK_COLUMNS).map(|k| format!(" {k} 1")).collect();
    let text = format!("{DECK_COLUMNS}\n1 1000000 0 0\n{goals}1\n0 100 {DECK_COLUMNS}{terms}\n0\n");
    // 2 to 48 have the sum 1175, 47 times 25.
    assert_eq!(ideals(&text)[0], Some(25));
    let most = text.replace("1000000 48000 48000\n", "1000000 1000000000 1000000000\n");
    assert_eq!(ideals(&most)[0], Some((1175 - 48 + 1_000_000) / 47));
}

/// The sample deck with plain curves; without the reader's ideals they start from their bounds, far from their neighbours.
#[test]
fn plain_curves_start_from_their_neighbours() {
    let deck = Deck::read(PLAIN).unwrap();
    let problem = deck.problem(LIMIT);
    let mut wanted = vec![None; 10];
    (wanted[0], wanted[1], wanted[7]) = (Some(11), Some(11), Some(10));
    assert_eq!(problem.columns.ideals, wanted);
    let solved = deck.solve(LIMIT).unwrap();
    assert_eq!((solved.verdict, solved.steps), (Verdict::Fitted, Steps { bounds: 0, goals: 1 }));
    assert_eq!(solved.values, [12, 11, 10, 13, 8, 8, 10, 10, 12, 20]);
    let Columns { lower, upper, low, high, .. } = problem.columns;
    let columns = Columns::new(lower, upper, low, high);
    let without = solve(&Problem { columns, ..problem }).unwrap();
    assert_eq!((without.verdict, without.steps), (Verdict::Fitted, Steps { bounds: 9, goals: 13 }));
    assert_eq!(without.values, [22, 1, 10, 13, 8, 8, 9, 1, 12, 15]);
    assert_eq!(without.strides, solved.strides);
}

// ---------------------------------------------------------------- two goals

/// Two curves of the sample deck belong to both parts; by one of their goals alone they would have other intervals.
#[test]
fn curves_that_two_parts_share() {
    let deck = Deck::read(TWO_PARTS).unwrap();
    let problem = deck.problem(LIMIT);
    let Columns { lower, upper, low, high, .. } = problem.columns;
    assert_eq!((&low[..3], &high[..3]), (&[9000, 6000, 6500][..], &[24_000, 16_000, 6500][..]));
    let solved = deck.solve(LIMIT).unwrap();
    assert_eq!((solved.verdict, solved.steps), (Verdict::Fitted, Steps { bounds: 0, goals: 1 }));
    assert_eq!(solved.values, [15, 10, 7, 15, 7, 12, 37, 12, 27, 43]);
    for (goals, first) in [(low, [9, 6]), (high, [23, 16])] {
        let columns = Columns::new(lower, upper, goals, goals);
        assert_eq!(solve(&Problem { columns, ..problem }).unwrap().values[..2], first);
    }
}

#[test]
fn the_goals_that_are_read() {
    let mut lent = Lent::marked();
    lent.read(b"4\n1 9 4000 9000\n0 9 0 0\n1 9 1 1000000000\n2 9 7000 7000\n1\n1 0 1 1 1\n0\n").unwrap();
    assert_eq!(lent.low, filled(&[4000, 0, 1, 7000], DECK_COLUMNS));
    assert_eq!(lent.high, filled(&[9000, 0, 1_000_000_000, 7000], DECK_COLUMNS));
}

// ---------------------------------------------------------------- swept volumes

/// Four curves, of which the first is plain, and a row that equals 7.
const FOUR: &str = "4\n1 9 0 0\n1 9 2000 2000\n1 9 3000 3000\n1 9 4000 4000\n1\n0 7 2 1 5 4 -1\n";

/// The third section adds these rows behind those of the deck, each equal to 0, and changes no bound and no goal.
fn adds_rows(deck: &str, section: &str, rows: &[&[i64]]) {
    let (mut plain, mut with) = (Lent::marked(), Lent::marked());
    let sizes = plain.read(format!("{deck}0\n").as_bytes()).unwrap();
    let enlarged = with.read(format!("{deck}{section}").as_bytes()).unwrap();
    assert_eq!(enlarged, Sizes { rows: sizes.rows + rows.len(), ..sizes });
    let n = sizes.columns;
    for (at, row) in (sizes.rows..).zip(rows) {
        plain.coefficients[at * n..(at + 1) * n].copy_from_slice(row);
    }
    // Ideals are looked at by themselves.
    plain.ideals.clone_from(&with.ideals);
    assert_eq!(with, plain);
}

#[test]
fn path_1_less_each_later_path() {
    adds_rows(FOUR, "1\n2\n1 1\n1 2\n", &[&[1, -1, 0, 0]]);
    adds_rows(FOUR, "1\n2\n1 4\n1 1\n", &[&[-1, 0, 0, 1]]);
    adds_rows(FOUR, "1\n2\n2 4 1\n2 3 2\n", &[&[1, -1, -1, 1]]);
    adds_rows(FOUR, "1\n3\n1 1\n1 2\n2 3 4\n", &[&[1, -1, 0, 0], &[1, 0, -1, -1]]);
    adds_rows(FOUR, "2\n2\n1 1\n1 2\n2\n1 3\n1 4\n", &[&[1, -1, 0, 0], &[0, 0, 1, -1]]);
}

#[test]
fn a_curve_on_both_paths_cancels() {
    adds_rows(FOUR, "1\n2\n2 1 2\n2 2 3\n", &[&[1, 0, -1, 0]]);
    adds_rows(FOUR, "1\n2\n4 3 1 4 2\n3 3 4 2\n", &[&[1, 0, 0, 0]]);
}

#[test]
fn two_equal_paths_add_a_row_of_zeros() {
    adds_rows(FOUR, "1\n2\n2 3 1\n2 1 3\n", &[&[0; 4]]);
    adds_rows(FOUR, "1\n4\n1 2\n1 2\n1 3\n1 2\n", &[&[0; 4], &[0, 1, -1, 0], &[0; 4]]);
}

#[test]
fn a_volume_of_one_path_adds_no_row() {
    adds_rows(FOUR, "1\n1\n4 1 2 3 4\n", &[]);
    adds_rows(FOUR, "3\n1\n1 2\n2\n1 1\n1 3\n1\n2 2 1\n", &[&[1, 0, -1, 0]]);
}

/// Paths name curves: the columns that rows added have no term in the rows of paths.
#[test]
fn the_rows_of_paths_beside_added_columns() {
    let kinds = KINDS.strip_suffix("0\n").unwrap();
    adds_rows(kinds, "1\n2\n1 2\n1 1\n", &[&[-1, 1, 0, 0, 0]]);
    let sizes = Lent::marked().read(format!("{kinds}1\n2\n1 2\n1 1\n").as_bytes()).unwrap();
    assert_eq!((sizes, sizes.added()), (Sizes { columns: 5, rows: 5, curves: 2 }, 3));
}

/// A row of paths is an equal row like any other: the deck is the one whose rows are typed.
#[test]
fn volumes_and_rows_that_say_the_same() {
    let curves = "4\n1 99 9000 9000\n1 99 4000 4000\n1 99 4000 4000\n1 99 0 0\n";
    let swept = Deck::read(format!("{curves}0\n1\n3\n1 1\n2 3 2\n1 4\n")).unwrap();
    let typed = Deck::read(format!("{curves}2\n0 0 3 1 1 2 -1 3 -1\n0 0 2 1 1 4 -1\n0\n")).unwrap();
    assert_eq!(swept, typed);
    let solved = swept.solve(LIMIT).unwrap();
    assert_eq!((solved.verdict, solved.steps), (Verdict::Fitted, Steps { bounds: 0, goals: 1 }));
    assert_eq!(solved.values, [8, 4, 4, 8]);
}

/// The loop round curves 2, 3 and 4 is even, and the paths 1, 2 with 3, and 4 have equal sums.
#[test]
fn all_paths_of_a_volume_have_equal_sums() {
    let rows = "1\n3 2 3 2 1 3 1 4 1\n";
    let text = format!("4\n1 99 12000 12000\n1 99 5000 5000\n1 99 6000 6000\n1 99 0 0\n{rows}1\n3\n1 1\n2 2 3\n1 4\n");
    let solved = solve_text(text, LIMIT).unwrap();
    assert_eq!(solved.verdict, Verdict::Fitted);
    assert_eq!(solved.values, [11, 5, 6, 11, 11]);
}

#[test]
fn paths_that_nothing_satisfies() {
    // v1 + v2 = 1 and v1 = v2; then v1 = 2 and v1 = v2 + v3, which is at least 3 in bounds.
    let none = "2\n1 9 0 0\n1 9 0 0\n1\n0 1 2 1 1 2 1\n1\n2\n1 1\n1 2\n";
    assert_eq!(solve_text(none, LIMIT), Err(Refusal::NoWholeNumbers));
    let outside = solve_text("3\n2 2 0 0\n1 9 0 0\n2 9 0 0\n0\n1\n2\n1 1\n2 2 3\n", LIMIT).unwrap();
    assert_eq!(outside.verdict, Verdict::Outside);
}

/// The rows of paths make neighbours, but for a curve that cancels.
#[test]
fn neighbours_along_paths() {
    let plain = "3\n1 99 0 0\n1 99 4000 4000\n1 99 9000 9000\n0\n";
    assert_eq!(ideals(&format!("{plain}1\n2\n2 1 2\n1 3\n")), [Some(6), None, None]);
    assert_eq!(ideals(&format!("{plain}1\n3\n1 1\n1 2\n1 3\n")), [Some(6), None, None]);
    assert_eq!(ideals(&format!("{plain}1\n2\n2 1 2\n2 3 1\n")), [None; 3]);
    assert_eq!(ideals(&format!("{plain}1\n2\n2 1 2\n1 2\n")), [None; 3]);
    // Paths 2 and 3 share no row.
    assert_eq!(ideals("3\n1 99 0 0\n1 99 0 0\n1 99 9000 9000\n0\n1\n3\n1 1\n1 2\n1 3\n"), [Some(9), None, None]);
}

// ---------------------------------------------------------------- decks continued

#[test]
fn a_deck_continues_from_its_own_answer() {
    let deck = Deck::read(include_bytes!("../../../decks/shell-strip.txt")).unwrap();
    let stopped = solve(&deck.problem(50)).unwrap();
    assert_eq!(stopped.verdict, Verdict::Spent);
    let settled = solve_from(&deck.problem(LIMIT), &stopped.values).unwrap();
    assert_eq!(settled.values, solve(&deck.problem(LIMIT)).unwrap().values);
}

/// The steps of a deck, each seen before it is taken, lead from the seated list to the deck's answer.
#[test]
fn a_deck_step_by_step() {
    for text in [
        include_str!("../../../decks/paved-bulkhead.txt"),
        include_str!("../../../decks/bounds-conflict.txt"),
        include_str!("../../../decks/mapped-panels.txt"),
        PLAIN,
        TWO_PARTS,
    ] {
        let deck = Deck::read(text).unwrap();
        let solved = deck.solve(LIMIT).unwrap();
        let mut values = deck.solve(0).unwrap().values;
        let mut steps = Steps { bounds: 0, goals: 0 };
        while let Some(next) = next_step(&deck.problem(LIMIT), &values).unwrap() {
            match next.step.part {
                Part::Bounds => steps.bounds += 1,
                Part::Goals => steps.goals += 1,
            }
            assert!(next.changes.iter().any(|change| change.column == next.step.column));
            values = next.after;
        }
        assert_eq!((values, steps), (solved.values, solved.steps));
    }
}

// ---------------------------------------------------------------- refusals

/// The number behind these words is refused at its place: what follows it is not looked at, and what stands there instead is.
fn refuses_at(before: &str, number: &str, refusal: Refusal) {
    refuses(format!("{before} {number}"), refusal);
    refuses(format!("{before}\n{number} x"), refusal);
    refuses(format!("{before} x {number}"), Refusal::Layout);
    refuses(before, Refusal::Layout);
}

#[test]
fn refusal_1_a_count() {
    refuses("0\n0\n0\n", Refusal::Size);
    refuses("1\n3 5 0 0\n49\n", Refusal::Size);
}

/// One curve with so many rows, then a volume of so many paths along it, and the second volume up to its count of paths.
fn up_to_the_second_volume(rows: usize, paths: usize) -> String {
    format!("1 1 9 0 0 {rows}{} 2 {paths}{}", " 0 0 0".repeat(rows), " 1 1".repeat(paths))
}

#[test]
fn refusal_1_a_row_too_many_by_paths() {
    let most = DECK_ROWS;
    for (rows, first, second) in
        [(0, 1, most + 1), (0, 25, most - 23), (most - 8, 5, 5), (most - 1, 2, 1), (most, 1, 1)]
    {
        let before = up_to_the_second_volume(rows, first);
        let sizes = Lent::marked().read(format!("{before} {second}{}", " 1 1".repeat(second)).as_bytes());
        assert_eq!(sizes, Ok(Sizes { columns: 1, rows: most, curves: 1 }));
        for paths in [second + 1, most + 2, 9_999_999_999] {
            refuses_at(&before, &paths.to_string(), Refusal::Size);
        }
        // A count below 1 is told as such, however many rows there are.
        refuses_at(&before, "0", Refusal::Volume);
    }
}

#[test]
fn refusal_2_a_wrong_length() {
    for lent in [
        Lent { coefficients: vec![-1; DECK_COEFFICIENTS - 1], ..Lent::marked() },
        Lent { rights: vec![-2; DECK_ROWS + 1], ..Lent::marked() },
        Lent { lower: vec![], ..Lent::marked() },
        Lent { upper: vec![-4; 1], ..Lent::marked() },
        Lent { low: vec![-5; DECK_COLUMNS - 1], ..Lent::marked() },
        Lent { high: vec![-7; DECK_COLUMNS + 1], ..Lent::marked() },
        // As many numbers together as there must be.
        Lent { low: vec![-5; DECK_COLUMNS + 1], high: vec![-7; DECK_COLUMNS - 1], ..Lent::marked() },
        Lent { ideals: vec![], ..Lent::marked() },
        Lent { ideals: vec![Some(-6); DECK_COLUMNS - 1], ..Lent::marked() },
        Lent { ideals: vec![None; DECK_COLUMNS + 1], ..Lent::marked() },
        Lent { ideals: vec![Some(-6); 1000], ..Lent::marked() },
    ] {
        // A wrong length is told before the text is looked at.
        for text in [PAVING, PLAIN, "no deck", ""] {
            let mut after = lent.clone();
            assert_eq!(after.read(text.as_bytes()), Err(Refusal::Length));
            assert_eq!(after, lent);
        }
    }
}

#[test]
fn refusal_3_a_number_of_a_row() {
    refuses("1\n3 5 0 0\n1\n0 0 1 1 1001\n0\n", Refusal::Coefficient);
    refuses("1\n3 5 0 0\n1\n0 1000001 0\n0\n", Refusal::Coefficient);
    refuses("1\n3 5 0 0\n1\n3 -1 0\n0\n", Refusal::Coefficient);
}

#[test]
fn refusal_4_a_bound() {
    refuses("1\n5 3 0 0\n0\n0\n", Refusal::Bound);
}

#[test]
fn refusal_5_a_goal() {
    refuses("1\n0 5 1000 1000\n0\n0\n", Refusal::Goal);
    // A low goal at its place: its range, and the lower bound.
    for number in ["-1", "1000000001", "-9999999999", "9999999999"] {
        refuses_at("1 1 9", number, Refusal::Goal);
        refuses_at("2 1 9 4000 9000 1 9", number, Refusal::Goal);
    }
    for lower in ["0", "-3"] {
        refuses_at(&format!("1 {lower} 9"), "1", Refusal::Goal);
        refuses_at(&format!("1 {lower} 9 0"), "1", Refusal::Goal);
    }
    // A high goal at its place: its range, both or none, and no less than the low one.
    for number in ["-1", "0", "1", "3999", "1000000001", "9999999999"] {
        refuses_at("1 1 9 4000", number, Refusal::Goal);
    }
    for number in ["-1", "1", "4000", "1000000000"] {
        refuses_at("1 1 9 0", number, Refusal::Goal);
        refuses_at("2 1 9 4000 9000 1 9 0", number, Refusal::Goal);
    }
}

#[test]
fn refusal_11_the_layout() {
    refuses("", Refusal::Layout);
    refuses("1\n3 5 O 0\n0\n0\n", Refusal::Layout);
    refuses("1\n3 5 0 O\n0\n0\n", Refusal::Layout);
    refuses("1\n3 5 0 0\n0\n0\n7\n", Refusal::Layout);
    refuses(b"1\n3 5 0 0\n0\n0\n\xff", Refusal::Layout);
    refuses(format!("1\n3 5 0 0\n0\n0\n{}", " ".repeat(MOST_TEXT)), Refusal::Layout);
}

#[test]
fn refusal_12_a_term() {
    refuses("1\n3 5 0 0\n1\n4 0 0\n0\n", Refusal::Term);
    refuses("1\n3 5 0 0\n1\n0 0 2 1 1 1 1\n0\n", Refusal::Term);
    refuses("1\n3 5 0 0\n1\n0 0 1 2 1\n0\n", Refusal::Term);
    refuses("1\n3 5 0 0\n1\n0 0 1 1 0\n0\n", Refusal::Term);
    refuses(format!("{DECK_COLUMNS}\n{}1\n1 0 0\n0\n", "3 5 0 0\n".repeat(DECK_COLUMNS)), Refusal::Term);
}

#[test]
fn refusal_13_a_count() {
    refuses_at("1 1 9 0 0 0", "-1", Refusal::Volume);
    for number in ["0", "-1", "-9999999999"] {
        refuses_at("1 1 9 0 0 0 1", number, Refusal::Volume);
        refuses_at("2 1 9 0 0 1 9 0 0 0 2 2 1 1 1 2", number, Refusal::Volume);
        refuses_at("1 1 9 0 0 0 1 1", number, Refusal::Volume);
        refuses_at("1 1 9 0 0 0 1 3 1 1 1 1", number, Refusal::Volume);
    }
}

#[test]
fn refusal_13_an_index() {
    for index in ["0", "-1", "5", "9999999999"] {
        refuses_at(&format!("{FOUR}1\n1\n1"), index, Refusal::Volume);
        refuses_at(&format!("{FOUR}1\n2\n1 1\n4 4 2"), index, Refusal::Volume);
    }
    // A column that a row added, and a curve that stands in its path already.
    refuses_at("1 1 9 0 0 1 3 0 1 1 1 1 1 1", "2", Refusal::Volume);
    refuses_at(&format!("{FOUR}1\n1\n2 2"), "2", Refusal::Volume);
    refuses_at(&format!("{FOUR}1\n2\n1 1\n4 3 1 4"), "3", Refusal::Volume);
}

/// Counts that are too large are no places that break a rule; with them the text ends, or an index repeats.
#[test]
fn too_many_volumes_or_curves_of_a_path() {
    refuses("1 1 9 0 0 0 9999999999 1 1 1", Refusal::Layout);
    refuses("2 1 9 0 0 1 9 0 0 0 1 1 9999999999 1 2", Refusal::Layout);
    refuses("2 1 9 0 0 1 9 0 0 0 1 1 9999999999 1 2 1", Refusal::Volume);
    let many = format!("1 1 9 0 0 0 4000{}", " 1 1 1".repeat(4000));
    assert_eq!(Lent::marked().read(many.as_bytes()), Ok(Sizes { columns: 1, rows: 0, curves: 1 }));
}

/// A deck from before version 0.5.0 has no third section.
#[test]
fn an_older_deck_gains_a_closing_0() {
    let older = PAVING.strip_suffix("0\n").unwrap();
    refuses(older, Refusal::Layout);
    assert_eq!(solve_text(format!("{older}0"), LIMIT), solve_text(PAVING, LIMIT));
}

/// One from before version 0.6.0 has one goal a curve; what stands behind it is read as the high one.
#[test]
fn an_older_deck_gains_its_goals_again() {
    let older = PAVING.replace("3000 3000", "3000");
    refuses(&older, Refusal::Goal);
    assert_eq!(solve_text(older.replace("3000", "3000 3000"), LIMIT), solve_text(PAVING, LIMIT));
}

#[test]
fn what_a_deck_can_state_and_the_engine_refuses() {
    let chain = |n: usize| {
        let rows: String = (1..n).map(|k| format!("0 0 2 {k} 1000 {} -1\n", k + 1)).collect();
        format!("{}{}\n{rows}0\n", "0 10 0 0\n".repeat(n - 1), n - 1)
    };
    assert_eq!(solve_text("1\n1 9 0 0\n1\n0 1 1 1 2\n0\n", LIMIT), Err(Refusal::NoWholeNumbers));
    assert_eq!(solve_text(format!("5\n0 10 0 0\n{}", chain(5)), LIMIT), Err(Refusal::Elimination));
    let pulled = format!("3\n1 1000000 1000000000 1000000000\n{}", chain(3));
    assert_eq!(solve_text(pulled, LIMIT), Err(Refusal::Seating));
    assert_eq!(solve_text(PAVING, MOST_STEPS + 1), Err(Refusal::Limit));
}
