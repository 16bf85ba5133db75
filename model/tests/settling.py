"""Seating and settling: close readings, the order of moves, the ranking, and
settling word by word.
"""

import random
from fractions import Fraction

import engine
import generate
from engine import FITTED, M, OUTSIDE, SPENT
from pairs import two_wishes
from tests.tools import check, check_case, make, random_problems, solve, test


@test
def seating_at_m():
    """A seated value of M is not beyond, M + 1 is."""
    rows = [[2, -1, 0, 0, 0], [147, 1000, -1, 0, 0], [483, 0, 1000, -1, 0],
            [647, 0, 0, 1000, -1]]
    bounds = [(1, 1000000)] + [(-1000000, 1000000)] * 4
    for right, answer in ((1, SPENT), (0, SPENT), (-1, 9), (-2, 9)):
        problem = make(5, rows, [0, 0, 0, right], bounds, limit=0)
        got, lent = solve(problem)
        check("seated at M %+d" % -right, got, (answer, 0, 0))
        if answer == SPENT:
            check("its value", lent.values, [1, 2, 2147, 2147483, M - right])
    for row in rows:
        row[0] = -row[0]
    for right, answer in ((-1, SPENT), (0, SPENT), (1, 9), (2, 9)):
        problem = make(5, rows, [0, 0, 0, right], bounds, limit=0)
        check("seated at -M %+d" % -right, solve(problem)[0], (answer, 0, 0))


@test
def reading_present_value_in_seating():
    """The ideal of a column without a goal is the value at its vector's turn."""
    # v1 - v2 + 2 v3 = 0: N1 = (1, 1, 0), N2 = (0, 2, 1)
    problem = make(3, [[1, -1, 2]], [0], [(5, 9), (0, 9), (-99, 99)])
    table = engine.fill(problem)
    leads, _ = engine.bring_to_form(table)
    basis = engine.basis_of(table, leads, 1)
    check("basis", basis, [[1, 1, 0], [0, 2, 1]])
    check("N1 takes column 2 to 5, where it may stay",
          engine.seat(problem, basis, [0, 0, 0]), [5, 5, 0])
    problem.upper[1] = 2
    check("column 2 is brought back from 5 to 3, rounded half up",
          engine.seat(problem, basis, [0, 0, 0]), [5, 3, -1])


@test
def seating_rounds_half_up():
    problem = make(2, [[1, -2]], [0], [(-9, 9), (-9, 9)])
    for low, wanted in ((3, [4, 2]), (-3, [-2, -1]), (4, [4, 2]), (-5, [-4, -2])):
        problem.lower[0] = problem.upper[0] = low
        check("v1 near %d in steps of 2" % low,
              engine.seat(problem, [[2, 1]], [0, 0]), wanted)


@test
def reading_refusal_9_after_each_addition():
    """v3 = 1000 (v1 - v2), v4 = 1000 v3: N1 takes v4 beyond M, N2 would bring it back."""
    rows = [[1000, -1000, -1, 0], [0, 0, 1000, -1]]
    bounds = [(1, 1000000)] * 2 + [(-1000000, 1000000)] * 2
    check_case("there and back", make(4, rows, [0, 0], bounds, [3000000, 3000000, 0, 0]),
               (9, 0, 0))
    check_case("not so far", make(4, rows, [0, 0], bounds, [2147000, 2147000, 0, 0]),
               (FITTED, 0, 0), [2147, 2147, 0, 0])
    check_case("just beyond", make(4, rows, [0, 0], bounds, [2148000, 2148000, 0, 0]),
               (9, 0, 0))


@test
def reading_spent():
    """SPENT needs a move that still improves, by the goals part once in bounds."""
    bounds = [(1, 10), (5, 10)]
    for limit, answer in ((0, (SPENT, 0, 0)), (3, (SPENT, 3, 0)), (4, (FITTED, 4, 0)),
                          (5, (FITTED, 4, 0))):
        check("limit %d without goals" % limit,
              solve(make(2, [[1, -1]], [0], bounds, limit=limit))[0], answer)
    for limit, answer in ((3, (SPENT, 3, 0)), (4, (SPENT, 4, 0)), (5, (SPENT, 4, 1)),
                          (6, (FITTED, 4, 2))):
        problem = make(3, [[1, -1, 0], [0, 1, -1]], [0, 0], [(1, 10), (5, 10), (1, 10)],
                       [0, 0, 7000], limit)
        check("limit %d with a goal" % limit, solve(problem)[0], answer)
    problem = make(2, [[3, -2]], [0], (1, 100), [2500, 4000], 0)
    check_case("3v1 = 2v2, limit 0", problem, (SPENT, 0, 0), [4, 6], [2, 3])
    problem = make(2, [[1, -2]], [0], [(1, 1), (1, 10)], limit=0)
    check_case("OUTSIDE, limit 0", problem, (OUTSIDE, 0, 0), [2, 1])


@test
def reading_changed_columns_only():
    """In the bounds part only changed columns are compared; in the goals part all
    values are in bounds and only changed columns with a goal are compared."""
    problem = make(3, [], [], [(5, 9), (50, 90), (0, 9)])
    check("column 2 is far out and not changed",
          engine.improves_bounds(problem, [4, 0, 3], [(0, 1)], 1), True)
    check("column 3 is changed and stays in bounds",
          engine.improves_bounds(problem, [4, 0, 3], [(0, 1), (2, -3)], 1), True)
    check("column 3 is changed and leaves its bounds as far",
          engine.improves_bounds(problem, [4, 0, 3], [(0, 1), (2, -4)], 1), False)
    problem = make(3, [], [], (1, 90), [9000, 90000, 0])
    check("column 2 has a larger ratio and is not changed",
          engine.improves_goals(problem, [8, 1, 5], [(0, 1), (2, 7)], (9, 8)), True)
    check("a changed column without a goal must stay in bounds",
          engine.improves_goals(problem, [8, 1, 5], [(0, 1), (2, -5)], (9, 8)), False)


@test
def reading_strict_comparisons():
    problem = make(2, [], [], [(5, 9), (0, 3)])
    check("equal distance", engine.improves_bounds(problem, [3, 4], [(0, 1), (1, 1)], 2),
          False)
    check("smaller distance", engine.improves_bounds(problem, [2, 4], [(0, 1), (1, 1)], 3),
          True)
    # goal 6000: 4 and 9 have the ratio 3/2
    problem = make(1, [], [], (1, 99), [6000])
    old = engine.ratio(6000, 6000, 4)
    check("equal ratio", engine.improves_goals(problem, [4], [(0, 5)], old), False)
    check("smaller ratio", engine.improves_goals(problem, [4], [(0, 4)], old), True)


@test
def reading_no_moves():
    check_case("r = 0, in bounds", make(2, [[1, 0], [0, 1]], [3, 4], (1, 9), limit=0),
               (FITTED, 0, 0), [3, 4], [0, 0])
    check_case("r = 0, out of bounds", make(2, [[1, 0], [0, 1]], [3, 14], (1, 9), limit=0),
               (OUTSIDE, 0, 0), [3, 14], [0, 0])


@test
def order_of_moves():
    moves = list(engine.moves_in_order([[1, 0, 0], [0, 1, 0], [0, 0, 1]]))
    check("moves of three vectors", moves,
          [[1, 0, 0], [-1, 0, 0], [0, 1, 0], [0, -1, 0], [0, 0, 1], [0, 0, -1],
           [1, 1, 0], [1, -1, 0], [-1, 1, 0], [-1, -1, 0],
           [1, 0, 1], [1, 0, -1], [-1, 0, 1], [-1, 0, -1],
           [0, 1, 1], [0, 1, -1], [0, -1, 1], [0, -1, -1]])
    check("a move that does not change a column is not among its moves",
          engine.moves_by_column([[1, 1], [1, -1]], 2)[0],
          [[(0, 1), (1, 1)], [(0, -1), (1, -1)], [(0, 1), (1, -1)], [(0, -1), (1, 1)],
           [(0, 2)], [(0, -2)]])


@test
def ranking():
    problem = make(4, [], [], (10, 20))
    check("by distance, ties to the lower column",
          engine.rank_by_distance(problem, [8, 25, 15, 5]), [1, 3, 0])
    problem = make(5, [], [], (1, 99), [6000, 6000, 0, 3000, 5000])
    check("by ratio, ties to the lower column",
          engine.rank_by_ratio(problem, [9, 4, 50, 1, 5]), [3, 0, 1, 4])
    near = 10 ** 9
    problem = make(2, [], [], (1, 1000000), [near, near - 1])
    check("ratios that differ in the ninth place",
          engine.rank_by_ratio(problem, [999999, 999999]), [0, 1])


def plain_distance(problem, j, v):
    if v < problem.lower[j]:
        return problem.lower[j] - v
    return v - problem.upper[j] if v > problem.upper[j] else 0


def plain_ratio(low, high, v):
    return max(Fraction(1000 * v, low), Fraction(high, 1000 * v))


def plain_improves(problem, values, move, i, ratio=plain_ratio):
    """The two sentences on improving moves, word by word, over all columns. Wrong answers
    have another ratio."""
    new = [v + change for v, change in zip(values, move)]
    columns = range(problem.n)
    changed = [j for j in columns if move[j] != 0]
    if i not in changed:
        return False
    if any(plain_distance(problem, j, values[j]) > 0 for j in columns):
        old = plain_distance(problem, i, values[i])
        return (all(plain_distance(problem, j, new[j]) < old for j in changed)
                and all(-M <= v <= M for v in new))
    if any(plain_distance(problem, j, new[j]) > 0 for j in columns):
        return False
    old = ratio(problem.low[i], problem.high[i], values[i])
    return all(ratio(problem.low[j], problem.high[j], new[j]) < old
               for j in changed if problem.low[j] != 0)


def plain_settle(problem, basis, values, ratio=plain_ratio):
    """Settling word by word, without any short cut."""
    moves = list(engine.moves_in_order(basis))
    counts = [0, 0]
    while True:
        distances = [plain_distance(problem, j, v) for j, v in enumerate(values)]
        part = 0 if any(distances) else 1
        if part == 0:
            ranked = [(-d, j) for j, d in enumerate(distances) if d > 0]
        else:
            ranked = [(-ratio(low, high, v), j) for j, (low, high, v)
                      in enumerate(zip(problem.low, problem.high, values)) if low != 0]
        step = next((move for _, i in sorted(ranked) for move in moves
                     if plain_improves(problem, values, move, i, ratio)), None)
        if step is None:
            return OUTSIDE if part == 0 else FITTED, counts[0], counts[1], values
        if sum(counts) == problem.limit:
            return SPENT, counts[0], counts[1], values
        values = [v + change for v, change in zip(values, step)]
        counts[part] += 1


@test
def property_settling_word_by_word():
    families = [generate.small_problem, generate.small_problem, generate.middle_problem]
    for rng, problem, hidden in random_problems(15, 400, families):
        problem.limit = min(problem.limit, 25)
        table = engine.fill(problem)
        try:
            leads, _ = engine.bring_to_form(table)
        except engine.Beyond:
            continue
        basis = engine.basis_of(table, leads, problem.m)
        for values in (hidden, [v + 3 * x for v, x in
                                zip(hidden, (basis or [[0] * problem.n])[-1])]):
            check("settling", engine.settle(problem, basis, values),
                  plain_settle(problem, basis, values))


@test
def property_ideal_is_nearest_by_ratio():
    rng = random.Random(19)
    for number in range(500):
        low, high = two_wishes(rng, rng.randint(1, rng.choice([3000, 30000, 10 ** 9])))
        k = engine.goal_ideal(low, high)
        near = [v for v in (k - 1, k, k + 1) if v >= 1]
        # the least ratio; of two equal ones the smaller number
        check("ideal of %d and %d" % (low, high),
              min(near, key=lambda v: (plain_ratio(low, high, v), v)), k)
