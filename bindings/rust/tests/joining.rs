//! Two problems joined into one: what each list then holds, every refusal and their order, and the shares of decks.

use koralimbu::*;

const LIMIT: u32 = 10_000;
const AFT: &str = include_str!("../../../decks/aft-block.txt");
const FORE: &str = include_str!("../../../decks/fore-block.txt");
/// The curves that the two blocks share, as decks/README.md names them.
const SHARED: [(usize, usize); 3] = [(0, 1), (1, 2), (5, 0)];

/// A problem with its lists, all columns with the bounds 1 and 9, no goal and no ideal until a test changes one.
#[derive(Clone, Debug, PartialEq)]
struct Posed {
    coefficients: Vec<i64>,
    rights: Vec<i64>,
    lower: Vec<i64>,
    upper: Vec<i64>,
    low: Vec<i64>,
    high: Vec<i64>,
    ideals: Vec<Option<i64>>,
}

impl Posed {
    fn new(n: usize, rows: &[&[i64]], rights: &[i64]) -> Posed {
        let [lower, upper, low, high] = [1, 9, 0, 0].map(|number| vec![number; n]);
        Posed { coefficients: rows.concat(), rights: rights.to_vec(), lower, upper, low, high, ideals: vec![None; n] }
    }

    /// One column without rows.
    fn column(bounds: (i64, i64), goals: (i64, i64), ideal: Option<i64>) -> Posed {
        let mut posed = Posed::new(1, &[], &[]);
        (posed.lower[0], posed.upper[0]) = bounds;
        (posed.low[0], posed.high[0]) = goals;
        posed.ideals[0] = ideal;
        posed
    }

    /// So many columns and rows of zeros.
    fn zeros(n: usize, m: usize) -> Posed {
        Posed::new(n, &[&vec![0; m * n]], &vec![0; m])
    }

    /// What a joined problem's lists are before a call.
    fn marked(n: usize, m: usize) -> Posed {
        let [lower, upper, low, high] = [-3, -4, -5, -7].map(|mark| vec![mark; n]);
        Posed { coefficients: vec![-1; m * n], rights: vec![-2; m], lower, upper, low, high, ideals: vec![Some(-6); n] }
    }

    fn problem(&self) -> Problem<'_> {
        let Posed { lower, upper, low, high, ideals, coefficients, rights } = self;
        Problem {
            columns: Columns { lower, upper, low, high, ideals },
            rows: Rows { coefficients, rights },
            limit: LIMIT,
        }
    }

    fn buffers(&mut self) -> JoinBuffers<'_> {
        JoinBuffers {
            coefficients: &mut self.coefficients,
            rights: &mut self.rights,
            lower: &mut self.lower,
            upper: &mut self.upper,
            low: &mut self.low,
            high: &mut self.high,
            ideals: &mut self.ideals,
        }
    }
}

/// The joined lists, which [`Joined`] has too.
fn joined(first: &Posed, second: &Posed, pairs: &[(usize, usize)]) -> Posed {
    let columns = first.lower.len() + second.lower.len() - pairs.len();
    let rows = first.rights.len() + second.rights.len();
    let mut lent = Posed::marked(columns, rows);
    let sizes = join(&first.problem(), &second.problem(), pairs, &mut lent.buffers());
    assert_eq!(sizes, Ok(JoinedSizes { columns, rows }));
    let own = Joined::new(&first.problem(), &second.problem(), pairs).unwrap();
    assert_eq!(format!("{:?}", own.problem(LIMIT)), format!("{:?}", lent.problem()));
    lent
}

/// The join is refused, and the lent lists are left as they were.
fn refuses_into(lent: &Posed, first: &Posed, second: &Posed, pairs: &[(usize, usize)], refusal: Refusal) {
    let mut after = lent.clone();
    assert_eq!(join(&first.problem(), &second.problem(), pairs, &mut after.buffers()), Err(refusal));
    assert_eq!(&after, lent);
}

/// The same into lists that fit, or into some where nothing fits, and in buffers of its own.
fn refuses(first: &Posed, second: &Posed, pairs: &[(usize, usize)], refusal: Refusal) {
    let columns = (first.lower.len() + second.lower.len()).saturating_sub(pairs.len());
    let rows = first.rights.len() + second.rights.len();
    refuses_into(&Posed::marked(columns, rows), first, second, pairs, refusal);
    assert_eq!(Joined::new(&first.problem(), &second.problem(), pairs), Err(refusal));
}

// ---------------------------------------------------------------- what is joined

/// v1 + 2 v2 = 3 and v2 = 4; 5 v1 + 6 v2 + 7 v3 = 8.
fn two_parts() -> (Posed, Posed) {
    let mut first = Posed::new(2, &[&[1, 2], &[0, 1]], &[3, 4]);
    first.lower = vec![1, 2];
    first.upper = vec![11, 12];
    let mut second = Posed::new(3, &[&[5, 6, 7]], &[8]);
    second.lower = vec![3, 4, 5];
    second.upper = vec![13, 14, 15];
    (first, second)
}

#[test]
fn side_by_side_with_every_list() {
    let (mut first, mut second) = two_parts();
    (first.low, first.high) = (vec![0, 1000], vec![0, 2000]);
    (second.low, second.high) = (vec![3000, 0, 5000], vec![4000, 0, 6000]);
    first.ideals = vec![Some(i64::MIN), None];
    second.ideals = vec![None, Some(0), Some(i64::MAX)];
    let wanted = Posed {
        coefficients: vec![1, 2, 0, 0, 0, 0, 1, 0, 0, 0, 0, 0, 5, 6, 7],
        rights: vec![3, 4, 8],
        lower: vec![1, 2, 3, 4, 5],
        upper: vec![11, 12, 13, 14, 15],
        low: vec![0, 1000, 3000, 0, 5000],
        high: vec![0, 2000, 4000, 0, 6000],
        ideals: vec![Some(i64::MIN), None, None, Some(0), Some(i64::MAX)],
    };
    assert_eq!(joined(&first, &second, &[]), wanted);
}

/// A shared column stands where the first part has it; the second's others stand behind, in their order.
#[test]
fn the_places_of_columns_and_rows() {
    let (first, second) = two_parts();
    for (pairs, last, lower, upper) in [
        (&[(0, 0)][..], &[5, 0, 6, 7][..], &[3, 2, 4, 5][..], &[11, 12, 14, 15][..]),
        (&[(1, 0)], &[0, 5, 6, 7], &[1, 3, 4, 5], &[11, 12, 14, 15]),
        (&[(0, 1)], &[6, 0, 5, 7], &[4, 2, 3, 5], &[11, 12, 13, 15]),
        (&[(1, 2)], &[0, 7, 5, 6], &[1, 5, 3, 4], &[11, 12, 13, 14]),
        (&[(0, 2), (1, 0)], &[7, 5, 6], &[5, 3, 4], &[11, 12, 14]),
        (&[(1, 0), (0, 2)], &[7, 5, 6], &[5, 3, 4], &[11, 12, 14]),
        (&[(1, 1), (0, 2)], &[7, 6, 5], &[5, 4, 3], &[11, 12, 13]),
    ] {
        let made = joined(&first, &second, pairs);
        let n = lower.len();
        assert_eq!((&made.coefficients[..2], &made.coefficients[n..n + 2]), (&[1, 2][..], &[0, 1][..]));
        assert!(made.coefficients[2..n].iter().chain(&made.coefficients[n + 2..2 * n]).all(|zero| *zero == 0));
        assert_eq!((&made.coefficients[2 * n..], made.rights), (last, vec![3, 4, 8]));
        assert_eq!((&made.lower[..], &made.upper[..]), (lower, upper));
    }
}

/// One column each, which are the same: what the joined one has, whichever part is the first.
fn shared(one: &Posed, other: &Posed) -> Posed {
    let made = joined(one, other, &[(0, 0)]);
    assert_eq!(made, joined(other, one, &[(0, 0)]));
    made
}

#[test]
fn the_bounds_of_a_shared_column() {
    for (one, other, both) in
        [((1, 9), (3, 12), (3, 9)), ((1, 9), (3, 7), (3, 7)), ((2, 5), (5, 8), (5, 5)), ((-9, -4), (-5, 0), (-5, -4))]
    {
        let made = shared(&Posed::column(one, (0, 0), None), &Posed::column(other, (0, 0), None));
        assert_eq!((made.lower[0], made.upper[0]), both);
    }
}

#[test]
fn the_goals_of_a_shared_column() {
    let wide = (1, RANGE_BOUND);
    for (one, other, both) in [
        ((0, 0), (0, 0), (0, 0)),
        ((4000, 4000), (9000, 9000), (4000, 9000)),
        ((4000, 9000), (5000, 6000), (4000, 9000)),
        ((4000, 6000), (5000, 9000), (4000, 9000)),
        ((1, 1), (RANGE_GOAL, RANGE_GOAL), (1, RANGE_GOAL)),
        // Where one has none, not its 0.
        ((0, 0), (4000, 9000), (4000, 9000)),
    ] {
        let made = shared(&Posed::column(wide, one, None), &Posed::column(wide, other, None));
        assert_eq!((made.low[0], made.high[0]), both);
    }
    // A goal that comes from one part is allowed by that part's lower bound.
    let made = shared(&Posed::column((-3, 9), (0, 0), None), &Posed::column((1, 9), (4000, 4000), None));
    assert_eq!((made.lower[0], made.low[0]), (1, 4000));
    assert_eq!(solve(&made.problem()).unwrap().values, [4]);
}

/// The first part's where it has one, with a goal or without.
#[test]
fn the_ideal_of_a_shared_column() {
    for goals in [(0, 0), (4000, 4000)] {
        for (one, other, both) in [
            (None, None, None),
            (Some(7), None, Some(7)),
            (None, Some(5), Some(5)),
            (Some(7), Some(5), Some(7)),
            (Some(0), Some(5), Some(0)),
            (Some(i64::MIN), Some(i64::MAX), Some(i64::MIN)),
        ] {
            let parts = [Posed::column((1, 9), goals, one), Posed::column((1, 9), (0, 0), other)];
            assert_eq!(joined(&parts[0], &parts[1], &[(0, 0)]).ideals, [both]);
        }
    }
}

/// Whether a list satisfies a problem's rows and bounds.
fn satisfies(posed: &Posed, list: &[i64]) -> bool {
    let rows = posed.coefficients.chunks_exact(list.len()).zip(&posed.rights);
    let sums = |row: &[i64]| row.iter().zip(list).map(|(a, v)| a * v).sum::<i64>();
    let mut bounds = posed.lower.iter().zip(&posed.upper).zip(list);
    rows.into_iter().all(|(row, right)| sums(row) == *right)
        && bounds.all(|((lower, upper), v)| lower <= v && v <= upper)
}

/// A list satisfies the joined rows and bounds exactly when its two shares satisfy their own: tried on all lists from 0 to 4.
#[test]
fn a_list_and_its_shares() {
    let mut first = Posed::new(2, &[&[1, 1]], &[3]);
    first.upper = vec![3, 2];
    let second = Posed::new(3, &[&[1, -1, 0], &[2, 0, -1]], &[0, 0]);
    for pairs in [&[][..], &[(1, 0)], &[(0, 2)], &[(1, 2), (0, 0)]] {
        let made = joined(&first, &second, pairs);
        let own = Joined::new(&first.problem(), &second.problem(), pairs).unwrap();
        let n = made.lower.len();
        let lists = (0..5_i64.pow(n as u32)).map(|number| (0..n).map(|j| number / 5_i64.pow(j as u32) % 5).collect());
        let found = lists.filter(|list: &Vec<i64>| {
            let both = satisfies(&first, own.first_share(list)) && satisfies(&second, &own.second_share(list));
            assert_eq!(satisfies(&made, list), both);
            both
        });
        assert!(found.count() > 0);
    }
}

#[test]
fn the_shares_of_any_list() {
    let (first, second) = two_parts();
    let own = Joined::new(&first.problem(), &second.problem(), &[(1, 2)]).unwrap();
    assert_eq!(own.places(), [2, 3, 1]);
    assert_eq!((own.first_share(&[1, 2, 3, 4]), own.second_share(&[1, 2, 3, 4])), (&[1, 2][..], vec![3, 4, 2]));
    assert_eq!(
        (own.first_share(&["a", "b", "c", "d"]), own.second_share(&['a', 'b', 'c', 'd'])),
        (&["a", "b"][..], vec!['c', 'd', 'b'])
    );
}

/// The same problem as both parts, and the same list as both goals.
#[test]
fn a_problem_joined_with_itself() {
    let posed = Posed::new(2, &[&[1, -1]], &[0]);
    let doubled = joined(&posed, &posed, &[(1, 0)]);
    assert_eq!((doubled.coefficients, doubled.lower), (vec![1, -1, 0, 0, 1, -1], vec![1; 3]));
    let whole = joined(&posed, &posed, &[(0, 0), (1, 1)]);
    assert_eq!((whole.coefficients, whole.lower), (vec![1, -1, 1, -1], vec![1; 2]));
}

/// No step limit is looked at, and nothing is solved: 2 v = 1 is joined like any other.
#[test]
fn limits_and_rows_that_nothing_satisfies() {
    let none = Posed::new(1, &[&[2]], &[1]);
    let first = Problem { limit: u32::MAX, ..none.problem() };
    let own = Joined::new(&first, &none.problem(), &[(0, 0)]).unwrap();
    assert_eq!(own.solve(LIMIT), Err(Refusal::NoWholeNumbers));
    assert_eq!(own.solve(MOST_STEPS + 1), Err(Refusal::Limit));
}

#[test]
fn the_largest_join() {
    let half = Posed::zeros(MOST_COLUMNS / 2, MOST_ROWS / 2);
    let made = joined(&half, &half, &[]);
    assert_eq!((made.lower.len(), made.coefficients.len()), (MOST_COLUMNS, MOST_COEFFICIENTS));
    assert!(solve(&made.problem()).is_ok());
    let (most, all) = (Posed::zeros(MOST_COLUMNS, 1), (0..MOST_COLUMNS).map(|j| (j, MOST_COLUMNS - 1 - j)));
    assert_eq!(joined(&most, &most, &all.collect::<Vec<_>>()).lower.len(), MOST_COLUMNS);
    assert_eq!(joined(&Posed::zeros(1, MOST_ROWS), &Posed::zeros(1, 0), &[]).rights.len(), MOST_ROWS);
}

// ---------------------------------------------------------------- refusals

/// A part for each of the refusals 1 to 5, each wrong in what is refused later too.
fn wrong_parts() -> Vec<(Refusal, Posed)> {
    let goal = Posed { low: vec![2, 0], high: vec![1, 0], ..Posed::new(2, &[&[1, -1]], &[0]) };
    let bound = Posed { lower: vec![1, 10], ..goal.clone() };
    let right = Posed { rights: vec![RANGE_RIGHT + 1], ..bound.clone() };
    let coefficient = Posed { coefficients: vec![1, -RANGE_COEFFICIENT - 1], ..bound.clone() };
    let mut parts = vec![
        (Refusal::Goal, goal),
        (Refusal::Bound, bound),
        (Refusal::Coefficient, right),
        (Refusal::Coefficient, coefficient.clone()),
        (Refusal::Size, Posed { ideals: vec![], ..Posed::zeros(0, 0) }),
        (Refusal::Size, Posed { low: vec![], ..Posed::zeros(MOST_COLUMNS + 1, 0) }),
        (Refusal::Size, Posed { high: vec![], ..Posed::zeros(1, MOST_ROWS + 1) }),
    ];
    let worse = coefficient;
    parts.push((Refusal::Length, Posed { coefficients: vec![9999], ..worse.clone() }));
    parts.push((Refusal::Length, Posed { upper: vec![9; 3], ..worse.clone() }));
    parts.push((Refusal::Length, Posed { low: vec![], ..worse.clone() }));
    parts.push((Refusal::Length, Posed { high: vec![0; 3], ..worse.clone() }));
    for length in [0, 1, 3, MOST_COLUMNS + 1, 1000] {
        parts.push((Refusal::Length, Posed { ideals: vec![Some(1); length], ..worse.clone() }));
    }
    parts
}

/// 1 to 5 of the first part come before those of the second, and these before what the pairs and the joined lists are.
#[test]
fn refusals_1_to_5_of_the_first_part_then_of_the_second() {
    let good = Posed::new(2, &[&[1, -1]], &[0]);
    for (refusal, wrong) in wrong_parts() {
        for pairs in [&[][..], &[(0, 0)], &[(7, 7)]] {
            refuses(&wrong, &good, pairs, refusal);
            refuses(&good, &wrong, pairs, refusal);
            for (_, second) in wrong_parts() {
                refuses(&wrong, &second, pairs, refusal);
            }
        }
    }
}

#[test]
fn refusal_14_a_column_outside() {
    let (first, second) = two_parts();
    for (one, other) in [(2, 0), (0, 3), (2, 3), (usize::MAX, 0), (0, usize::MAX), (usize::MAX - 1, usize::MAX - 1)] {
        refuses(&first, &second, &[(one, other)], Refusal::Pair);
        refuses(&first, &second, &[(1, 2), (one, other)], Refusal::Pair);
    }
}

#[test]
fn refusal_14_a_column_used_before() {
    let (first, second) = two_parts();
    for last in [(0, 1), (1, 0), (0, 0)] {
        refuses(&first, &second, &[(0, 0), last], Refusal::Pair);
    }
    refuses(&first, &second, &[(0, 0), (1, 1), (0, 2)], Refusal::Pair);
    // The same number may stand on both sides.
    joined(&first, &second, &[(0, 1), (1, 0)]);
}

#[test]
fn refusal_14_more_pairs_than_columns() {
    let most = Posed::zeros(MOST_COLUMNS, 0);
    let all: Vec<(usize, usize)> = (0..MOST_COLUMNS).map(|j| (j, j)).collect();
    for more in [1, 2, 50, 1000] {
        refuses(&most, &most, &[all.clone(), vec![(0, 0); more]].concat(), Refusal::Pair);
    }
    let small = Posed::zeros(1, 0);
    refuses(&small, &small, &[(0, 0); 1000], Refusal::Pair);
}

#[test]
fn refusal_15_bounds_that_leave_nothing() {
    for (one, other) in [((1, 4), (5, 9)), ((5, 9), (1, 4)), ((-9, -9), (9, 9))] {
        let parts = [one, other].map(|bounds| Posed::column(bounds, (0, 0), None));
        refuses(&parts[0], &parts[1], &[(0, 0)], Refusal::PairBounds);
        joined(&parts[0], &parts[1], &[]);
    }
}

/// Pair by pair, and 14 first within one. Columns of bounds 1 to 4 and of 5 to 9 are no pair.
#[test]
fn refusals_14_and_15_in_the_order_of_the_pairs() {
    let mut first = Posed::new(3, &[], &[]);
    first.upper = vec![4, 9, 9];
    let mut second = first.clone();
    second.lower = vec![5, 1, 1];
    second.upper = vec![9, 9, 9];
    refuses(&first, &second, &[(0, 0)], Refusal::PairBounds);
    refuses(&first, &second, &[(0, 0), (3, 0)], Refusal::PairBounds);
    refuses(&first, &second, &[(3, 0), (0, 0)], Refusal::Pair);
    refuses(&first, &second, &[(1, 1), (0, 0), (2, 1)], Refusal::PairBounds);
    // The last pair is refused by both.
    refuses(&first, &second, &[(0, 1), (0, 0)], Refusal::Pair);
    refuses(&first, &second, &[(1, 0), (0, 0)], Refusal::Pair);
}

/// A joined size beyond the limit is told after the pairs, and before the joined lists.
#[test]
fn refusal_1_a_joined_size() {
    let (most, one) = (Posed::zeros(MOST_COLUMNS, 0), Posed::zeros(1, 0));
    let rows = [Posed::zeros(1, MOST_ROWS), Posed::zeros(1, 1)];
    for (first, second) in [(&most, &one), (&one, &most), (&most, &most), (&rows[0], &rows[1]), (&rows[1], &rows[0])] {
        refuses(first, second, &[], Refusal::Size);
        refuses(first, second, &[(9999, 0)], Refusal::Pair);
        refuses_into(&Posed::marked(0, 0), first, second, &[], Refusal::Size);
    }
    refuses(&rows[0], &rows[1], &[(0, 0)], Refusal::Size);
    let above = Posed { lower: vec![10], upper: vec![12], ..one.clone() };
    refuses(&most, &above, &[(0, 0)], Refusal::PairBounds);
    joined(&most, &one, &[(47, 0)]);
}

#[test]
fn refusal_2_the_joined_lists() {
    let (first, second) = two_parts();
    let lent = Posed::marked(4, 3);
    for wrong in [
        Posed { coefficients: vec![-1; 11], ..lent.clone() },
        Posed { coefficients: vec![-1; 13], ..lent.clone() },
        Posed { rights: vec![-2; 2], ..lent.clone() },
        Posed { lower: vec![-3; 5], ..lent.clone() },
        Posed { upper: vec![], ..lent.clone() },
        Posed { low: vec![-5; 3], high: vec![-7; 5], ..lent.clone() },
        Posed { high: vec![-7; 3], ..lent.clone() },
        Posed { ideals: vec![None; 3], ..lent.clone() },
        Posed { ideals: vec![Some(-6); 1000], ..lent.clone() },
        // As for no pair, and as for two.
        Posed::marked(5, 3),
        Posed::marked(3, 3),
    ] {
        refuses_into(&wrong, &first, &second, &[(1, 1)], Refusal::Length);
        // Told last.
        refuses_into(&wrong, &first, &second, &[(1, 3)], Refusal::Pair);
        refuses_into(&wrong, &Posed { lower: vec![1, 13], ..first.clone() }, &second, &[(1, 1)], Refusal::Bound);
    }
}

// ---------------------------------------------------------------- decks

/// The curves of two blocks, by themselves and joined.
struct Blocks {
    alone: [Vec<i64>; 2],
    shares: [Vec<i64>; 2],
}

fn sample() -> Blocks {
    let decks = [AFT, FORE].map(|text| Deck::read(text).unwrap());
    let curves = |share: &[i64], deck: &Deck| share[..deck.curves()].to_vec();
    let alone = [0, 1].map(|block| curves(&decks[block].solve(LIMIT).unwrap().values, &decks[block]));
    let joined = decks[0].join(&decks[1], &SHARED).unwrap();
    let solved = joined.solve(LIMIT).unwrap();
    assert_eq!((solved.verdict, solved.steps), (Verdict::Fitted, Steps { bounds: 0, goals: 1 }));
    assert_eq!(joined.first_share(&solved.strides), [1; 9]);
    let (first, second) = (joined.first_share(&solved.values), joined.second_share(&solved.values));
    Blocks { alone, shares: [curves(first, &decks[0]), curves(&second, &decks[1])] }
}

#[test]
fn two_blocks() {
    let Blocks { alone, shares } = sample();
    assert_eq!(alone, [vec![6, 8, 14, 12, 12, 5, 8, 3], vec![11, 16, 20, 36, 20, 20, 23]]);
    assert_eq!(shares, [vec![8, 13, 21, 12, 12, 10, 8, 3], vec![10, 8, 13, 21, 20, 20, 22]]);
    for (first, second) in SHARED {
        assert_ne!(alone[0][first], alone[1][second]);
        assert_eq!(shares[0][first], shares[1][second]);
    }
}

/// decks/README.md names in the paragraph of each block its intervals alone, then those in the join.
#[test]
fn what_the_page_says_of_the_blocks() {
    let page = include_str!("../../../decks/README.md").replace('\n', " ");
    let Blocks { alone, shares } = sample();
    for (name, lists) in [("aft-block", [&alone[0], &shares[0]]), ("fore-block", [&alone[1], &shares[1]])] {
        let (_, behind) = page.split_once(&format!("**{name}** ")).unwrap();
        let paragraph = behind.split("  ").next().unwrap();
        let words = lists.map(|list| list.iter().map(i64::to_string).collect::<Vec<_>>().join(" "));
        let named: Vec<&str> = paragraph.split('`').skip(1).step_by(2).collect();
        assert_eq!(named[..2], words, "{name}");
    }
}

/// What the joined columns of the three pairs have: the smaller upper bound of one, both goals of another, one block's goal for the last.
#[test]
fn the_shared_curves_of_the_blocks() {
    let [aft, fore] = [AFT, FORE].map(|text| Deck::read(text).unwrap());
    let joined = aft.join(&fore, &SHARED).unwrap();
    let columns = joined.problem(LIMIT).columns;
    let column = |j: usize| (columns.lower[j], columns.upper[j], columns.low[j], columns.high[j], columns.ideals[j]);
    assert_eq!(column(0), (7, 8, 6000, 16_000, None));
    assert_eq!(column(1), (10, 1_000_000, 8000, 21_333, None));
    // The ideal that the reader hands in for curve 6 of aft-block comes along, and is not used.
    assert_eq!(column(5), (1, 1_000_000, 10_667, 10_667, Some(6)));
    assert_eq!(aft.join(&fore, &[(0, 2)]), Err(Refusal::PairBounds));
    assert_eq!(aft.join(&fore, &[(9, 0)]), Err(Refusal::Pair));
}

/// The columns behind the curves, here of two rows that say the same, may be paired.
#[test]
fn added_columns_in_a_pair() {
    let deck = Deck::read("2\n1 9 3000 3000\n1 9 4000 4000\n1\n3 2 2 1 1 2 1\n0\n").unwrap();
    let apart = deck.join(&deck, &[(0, 0), (1, 1)]).unwrap().solve(LIMIT).unwrap();
    let paired = deck.join(&deck, &[(0, 0), (1, 1), (2, 2)]).unwrap().solve(LIMIT).unwrap();
    assert_eq!((apart.values.len(), paired.values.len()), (4, 3));
    assert_eq!((&apart.values[..3], apart.values[3]), (&paired.values[..], paired.values[2]));
    assert_eq!(paired.values, deck.solve(LIMIT).unwrap().values);
}

/// A chain of three panels: a joined problem is the first part of a further join.
#[test]
fn three_blocks() {
    let panel =
        |goal: i64| Deck::read(format!("2\n1 99 {goal} {goal}\n1 99 {goal} {goal}\n1\n0 0 2 1 1 2 -1\n0\n")).unwrap();
    let (aft, middle, fore) = (panel(4000), panel(6000), panel(25_000));
    let two = aft.join(&middle, &[(1, 0)]).unwrap();
    let three = Joined::new(&two.problem(0), &fore.problem(0), &[(2, 0)]).unwrap();
    let solved = three.solve(LIMIT).unwrap();
    assert_eq!((solved.verdict, &solved.values), (Verdict::Fitted, &vec![10; 4]));
    assert_eq!(three.second_share(&solved.values), [10, 10]);
    assert_eq!(two.second_share(three.first_share(&solved.values)), [10, 10]);
}
