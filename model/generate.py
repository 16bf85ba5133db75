"""Random cases for the plain model, the same for the same seed.

    python3 model/generate.py problems COUNT SEED
        prints COUNT problems on buffers, each with the model's answer
    python3 model/generate.py texts COUNT SEED DIR
        writes COUNT deck texts as DIR/00001.txt and on, each with the model's
        listing beside it as DIR/00001.listing

A problem is printed as lines of fields parted by one space:

    case NUMBER CALL n m limit           CALL is assign or continue
    coefficients LENGTH numbers...
    rights LENGTH numbers...
    lower LENGTH numbers...
    upper LENGTH numbers...
    low LENGTH numbers...                the low goal of each column, 0 for none
    high LENGTH numbers...               its high goal
    given LENGTH numbers...              0 where no ideal is handed in
    ideals LENGTH numbers...
    tableau LENGTH numbers...            the lent buffers before the call
    values LENGTH numbers...
    strides LENGTH numbers...
    answer OUTCOME BOUNDS GOALS ROUNDS   a verdict or a refusal's number, the counts
    tableau LENGTH numbers...            the lent buffers after the call
    values LENGTH numbers...
    strides LENGTH numbers...

Counts, limits and strides are never negative and fit 64 bits, and no other number
is beyond 64 signed bits, so a caller with unsigned counts can take every case.

To import: problems(count, seed) yields Case objects, texts(count, seed) yields
bytes; problem_case(rng) and text_case(rng) make one. preview_case(rng) makes the
problem, the standing list and the lent buffers of a preview. volume_kinds(data) tells
what a text shows of volumes, and volumes_met(texts) counts that; pairs.py has the same of
pairs of goals.
"""

import copy
import os
import random
import sys

import needs
from engine import (GOALS, LENT_LISTS, M, MAX_BOUND, MAX_COEFFICIENT, MAX_COLUMNS, MAX_GOAL,
                    MAX_LIMIT, MAX_RIGHT, MAX_ROWS, PROBLEM_LISTS, Lent, Problem, assign,
                    basis_of, bring_to_form, cont, fill, move_named, move_names, part_of,
                    twice, unset)
from listing import listing
from pairs import damage_column, damage_line, part_goals, share_curves
from text import (MAX_TEXT, NOT_AS_LAID_OUT, Numbers, Refused, is_wanted, neighbour_ideal,
                  path_rows, read_front, read_volumes)

BIGGEST = 2 ** 63 - 1
SMALLEST = -2 ** 63


def rng_for(seed, number):
    """The source of chance of one case, so that each case can be made alone."""
    return random.Random(seed * 1000003 + number)


# ------------------------------------------------------------ problems on buffers

class Case:
    """A call on buffers: call is “assign” or “continue”."""

    def __init__(self, call, problem, lent):
        self.call = call
        self.problem = problem
        self.lent = lent

    def run(self):
        """Runs the model on the lent buffers and returns its answer."""
        return (assign if self.call == "assign" else cont)(self.problem, self.lent)

    def left_with(self, **lists):
        """What the model answers and leaves, on copies, with other lists of these names."""
        problem = copy.copy(self.problem)
        vars(problem).update(lists)
        lent = Lent(*[list(getattr(self.lent, name)) for name in LENT_LISTS])
        return Case(self.call, problem, lent).run(), lent.values

    def moved_by_ideals(self):
        """Whether the ideals that are handed in play a part in what the call answers or
        leaves."""
        given = self.problem.given
        return any(given) and self.left_with() != self.left_with(given=[0] * len(given))

    def moved_by_high_goals(self):
        """Whether it plays a part in a verdict that high goals are above the low ones."""
        left = self.left_with()
        (outcome, *_), _ = left
        return not isinstance(outcome, int) and left != self.left_with(high=self.problem.low)


def noise(rng, length, smallest=SMALLEST, biggest=BIGGEST):
    """What a lent buffer may hold before a call: anything."""
    big = rng.random() < 0.2
    low, high = (smallest, biggest) if big else (max(smallest, -99), 99)
    return [rng.randint(low, high) for _ in range(length)]


def noisy_lent(rng, n, m):
    """Strides are magnitudes, so their buffer holds unsigned numbers."""
    return Lent(noise(rng, n * (m + n)), noise(rng, n), noise(rng, n, 0, 2 ** 64 - 1))


def products(n, m, coefficients, values):
    """What each row's coefficients times the values add up to."""
    return [sum(coefficients[i * n + j] * values[j] for j in range(n))
            for i in range(m)]


def random_matrix(rng, n, m, size, density):
    return [rng.choice([-1, 1]) * rng.randint(1, size) if rng.random() < density else 0
            for _ in range(m * n)]


def random_columns(rng, n, spread, goals):
    """Lower bounds, upper bounds, low goals and high goals, these two equal; goals is the
    chance of a goal."""
    lower, upper, wanted = [], [], []
    for _ in range(n):
        goal = 0
        least = rng.randint(-spread, spread)
        if rng.random() < goals:
            goal = rng.randint(1, 2000 * spread)
            least = rng.randint(1, spread)
        lower.append(least)
        upper.append(least + rng.choice([0, 1, 2, spread, 10 * spread]))
        wanted.append(goal)
    return lower, upper, *twice(wanted)


def columns_around(rng, values, spread, goals):
    """The same with bounds that the values lie in."""
    lower, upper, wanted = [], [], []
    for value in values:
        least = value - rng.randint(0, spread)
        if value >= 1 and rng.random() < goals:
            least = max(least, 1)
        lower.append(least)
        upper.append(value + rng.randint(0, spread))
        wanted.append(rng.randint(1, 2000 * spread)
                      if least >= 1 and rng.random() < goals else 0)
    return lower, upper, *twice(wanted)


def random_limit(rng):
    return rng.choice([0, 1, 2, 3, 10, 1000, 10000, 10000, MAX_LIMIT])


def solvable_problem(rng, n, m, size, density, spread):
    """Rows that a random list satisfies; returns the problem and that list."""
    coefficients = random_matrix(rng, n, m, size, density)
    hidden = [rng.randint(-spread, 2 * spread) for _ in range(n)]
    rights = products(n, m, coefficients, hidden)
    if any(abs(b) > MAX_RIGHT for b in rights):
        hidden = [0] * n
        rights = [0] * m
    goals = rng.choice([0, 0.5, 1])
    if rng.random() < 0.5:
        columns = columns_around(rng, hidden, spread, goals)
    else:
        columns = random_columns(rng, n, spread, goals)
    problem = Problem(n, m, coefficients, rights, *columns, *unset(n), random_limit(rng))
    return problem, hidden


def small_problem(rng):
    n = rng.randint(1, 4)
    m = rng.randint(0, 3)
    return solvable_problem(rng, n, m, rng.choice([1, 2, 3, 7]), 0.7, rng.choice([3, 10]))


def middle_problem(rng):
    n = rng.randint(4, 10)
    m = rng.randint(0, n + 1)
    return solvable_problem(rng, n, m, rng.choice([1, 2, 3]), rng.choice([0.2, 0.5]), 10)


def wild_problem(rng):
    """Rows without a known list: many are “none”."""
    problem, hidden = small_problem(rng)
    problem.rights = [rng.randint(-9, 9) for _ in range(problem.m)]
    return problem, hidden


def heavy_problem(rng):
    """Dense rows of large coefficients: many meet refusal 7."""
    n = rng.randint(3, 8)
    m = rng.randint(1, n)
    size = rng.choice([10, 100, MAX_COEFFICIENT])
    return solvable_problem(rng, n, m, size, 0.9, 10)


def brink_problem(rng):
    """Dense rows of the sizes at which the nearest and the rounded-down quotient often differ
    in whether they meet refusal 7 (document 02, (vii))."""
    size, n, m = rng.choice([(30, 5, 3), (30, 6, 3), (100, 6, 2), (100, 8, 2), (300, 5, 2)])
    return solvable_problem(rng, n, m, size, 0.9, 10)


def heavy_wild_problem(rng):
    """Large coefficients and right sides of any size: 7 and “none” in either order."""
    problem, hidden = heavy_problem(rng)
    problem.rights = [rng.choice([0, 1, MAX_RIGHT, -MAX_RIGHT,
                                  rng.randint(-MAX_RIGHT, MAX_RIGHT)])
                      for _ in range(problem.m)]
    return problem, hidden


def large_problem(rng):
    """Many columns, sparse rows of 1 and -1, as structures make them."""
    n = rng.choice([16, 24, 32, MAX_COLUMNS])
    m = rng.choice([n // 4, n // 2, n, MAX_ROWS])
    coefficients = [0] * (m * n)
    for i in range(m):
        for _ in range(rng.choice([2, 2, 2, 3, 4])):
            coefficients[i * n + rng.randrange(n)] = rng.choice([-1, 1])
    hidden = [rng.randint(1, 12) for _ in range(n)]
    rights = products(n, m, coefficients, hidden)
    columns = random_columns(rng, n, 8, rng.choice([0.5, 1]))
    limit = rng.choice([0, 1, 5, 40])
    return Problem(n, m, coefficients, rights, *columns, *unset(n), limit), hidden


def extreme_counts(rng):
    """The least and the greatest n and m."""
    n, m = rng.choice([(1, 0), (1, MAX_ROWS), (MAX_COLUMNS, 0), (2, MAX_ROWS), (7, 0)])
    problem, hidden = solvable_problem(rng, n, m, 1, 0.5, 4)
    problem.limit = min(problem.limit, 40)
    return problem, hidden


def chain_problem(rng):
    """Chains f × v(k) = v(k + 1), whose numbers grow towards M and past it."""
    n = rng.randint(2, 6)
    m = n - 1
    coefficients = [0] * (m * n)
    for k in range(m):
        coefficients[k * n + k] = rng.choice([10, 37, 100, 999, MAX_COEFFICIENT])
        coefficients[k * n + k + 1] = rng.choice([-1, -1, -1, 1, -2])
    lower = rng.choice([0, 1, 1])
    goals = [rng.choice([0, 1000, MAX_GOAL]) if lower else 0 for _ in range(n)]
    upper = rng.choice([10, MAX_BOUND, MAX_BOUND])
    problem = Problem(n, m, coefficients, [0] * m, [lower] * n, [upper] * n, *twice(goals),
                      *unset(n), rng.choice([0, 10, 100]))
    return problem, [0] * n


def near_m_problem(rng):
    """A chain that builds up M digit by digit, three at a time, give or take 2:
    M is 2147483647, which is ((2 × 1000 + 147) × 1000 + 483) × 1000 + 647."""
    digits = [2, 147, 483, 647 + rng.randint(-2, 2)]
    sign = rng.choice([-1, 1])
    n, m = 5, 4
    coefficients = [0] * (m * n)
    rights = [0] * m
    for k, digit in enumerate(digits):
        coefficients[k * n + k + 1] = -1
        if k > 0:
            coefficients[k * n + k] = MAX_COEFFICIENT
        coefficients[k * n] += sign * digit
    lower = [-MAX_BOUND] * n
    if rng.random() < 0.5:
        # the first column is prescribed, so that the right side grows
        coefficients = [1] + [0] * (n - 1) + coefficients
        rights = [rng.choice([-1, 1, 2])] + rights
        m = 5
    else:
        # the first column has a lower bound, so that seating grows
        lower[0] = rng.choice([-MAX_BOUND, 1, 1, 2])
        rights[-1] = rng.randint(-2, 2)
    problem = Problem(n, m, coefficients, rights, lower, [MAX_BOUND] * n, *twice([0] * n),
                      *unset(n), rng.choice([0, 3, 100]))
    return problem, [0] * n


def there_and_back_problem(rng):
    """w = f × (v1 − v2), x = f × w: seating v1 takes x far out, v2 brings it back."""
    f = rng.choice([10, 100, MAX_COEFFICIENT])
    coefficients = [f, -f, -1, 0,
                    0, 0, f, -1]
    goal = rng.choice([1000, 2000000, 2148000, 3000000])
    goals = [goal, goal + rng.choice([0, 1000]), 0, 0]
    problem = Problem(4, 2, coefficients, [0, 0], [1, 1, -9, -MAX_BOUND],
                      [MAX_BOUND] * 4, *twice(goals), *unset(4), rng.choice([0, 3, 100]))
    return problem, [0] * 4


def strided_problem(rng):
    """Pairs v1 = f × v2 + r: the vector of each has the lead f, and before seating v1 stands
    at r, mostly nearer to f than to 0, so that an unset ideal is another than the ideal 0."""
    pairs = rng.randint(1, 3)
    n, m = 2 * pairs, pairs
    coefficients = [0] * (m * n)
    rights, hidden = [], []
    for i in range(m):
        f = rng.choice([2, 3, 5, 7, 12, 40])
        coefficients[i * n + 2 * i] = 1
        coefficients[i * n + 2 * i + 1] = rng.choice([-f, f])
        rights.append(f * rng.randint(-3, 3) + rng.choice([-f // 3, rng.randint(0, f)]))
        hidden += [rights[i], 0]
    columns = random_columns(rng, n, rng.choice([10, 60]), rng.choice([0, 0.3]))
    problem = Problem(n, m, coefficients, rights, *columns, *unset(n), random_limit(rng))
    for j in range(n):
        if problem.low[j] == 0 and rng.random() < 0.7:
            problem.lower[j], problem.upper[j] = -99, 99
    return problem, hidden


FAMILIES = [small_problem] * 6 + [middle_problem] * 4 + [wild_problem] * 3 + [
    heavy_problem, brink_problem, heavy_wild_problem, large_problem, extreme_counts,
    chain_problem, near_m_problem, there_and_back_problem] + [strided_problem] * 4


# What marks that an ideal is handed in: any number but 0.
MARKS = [1, 1, 1, 1, -1, 2, -7, 1000000, BIGGEST, SMALLEST]


def random_ideal(rng, lower, upper):
    """A number to hand in: within the bounds, at their ends, outside near by and far away,
    0, below 0, and at the ends of 64 bits."""
    within = [rng.randint(lower, upper) for _ in range(3)]
    return rng.choice(within + [lower, upper, lower - rng.randint(1, 30),
                                upper + rng.randint(1, 30), 0, -rng.randint(1, 99),
                                SMALLEST, BIGGEST])


def hand_in(rng, problem):
    """Hands in ideals for none, some or all columns, those with a goal too; where none is,
    any number may stand beside the mark 0."""
    chance = rng.choice([0, 0.3, 0.5, 1])
    blank = rng.random() < 0.3
    for j in range(problem.n):
        handed = rng.random() < chance
        number = random_ideal(rng, problem.lower[j], problem.upper[j])
        problem.given[j] = rng.choice(MARKS) if handed else 0
        problem.ideals[j] = number if handed or not blank else 0


def repeat_rows(rng, problem):
    """Makes the last row a copy or a multiple of the first, true or false."""
    n, m = problem.n, problem.m
    if m < 2:
        return
    factor = rng.choice([1, -1, 2])
    row = [factor * a for a in problem.coefficients[:n]]
    if any(abs(a) > MAX_COEFFICIENT for a in row):
        return
    problem.coefficients[(m - 1) * n:] = row
    problem.rights[m - 1] = factor * problem.rights[0]
    if abs(problem.rights[m - 1]) > MAX_RIGHT or rng.random() < 0.3:
        problem.rights[m - 1] = rng.randint(-3, 3)


def put(rng, numbers, value):
    """Puts the value somewhere among the numbers, if there are any."""
    if numbers:
        numbers[rng.randrange(len(numbers))] = value


def past(rng, low, high):
    """A number at a limit or past it."""
    return rng.choice([low, high, low, high, low - 1, high + 1, low - 1, high + 1,
                       SMALLEST, BIGGEST])


def change_a_length(rng, problem, lent):
    """Makes a buffer shorter or longer; or one list of ideals shorter and the other longer,
    so that the two have as many numbers as before."""
    if problem.given and problem.ideals and rng.random() < 0.2:
        shorter, longer = rng.sample([problem.given, problem.ideals], 2)
        longer.append(shorter.pop())
        return
    buffers = [getattr(problem, name) for name in PROBLEM_LISTS]
    buffers += [getattr(lent, name) for name in LENT_LISTS]
    buffer = rng.choice(buffers + [problem.given, problem.ideals])
    what = rng.randrange(5)
    if what == 0:
        buffer.clear()
    elif what <= 2 and buffer:
        buffer.pop()
    else:
        buffer.append(rng.choice([0, 1, BIGGEST]))


def change_a_number(rng, problem, lent):
    """Sets one number at or past its limit, or one count, or one length."""
    what = rng.randrange(12)
    if what == 0:
        problem.n = rng.choice([0, MAX_COLUMNS + 1, problem.n + 1, MAX_COLUMNS, 2 ** 32])
    elif what == 1:
        problem.m = rng.choice([MAX_ROWS + 1, problem.m + 1, 0, MAX_ROWS, 2 ** 32])
    elif what == 2:
        put(rng, problem.coefficients, past(rng, -MAX_COEFFICIENT, MAX_COEFFICIENT))
    elif what == 3:
        put(rng, problem.rights, past(rng, -MAX_RIGHT, MAX_RIGHT))
    elif what == 4:
        put(rng, rng.choice([problem.lower, problem.upper]),
            past(rng, -MAX_BOUND, MAX_BOUND))
    elif what in (5, 8, 9):
        # a length may be changed already
        columns = min(map(len, (problem.lower, problem.low, problem.high)))
        if columns > 0:
            damage_column(rng, problem, rng.randrange(columns))
    elif what == 6:
        problem.limit = rng.choice([MAX_LIMIT, MAX_LIMIT + 1, 2 ** 31, BIGGEST])
    elif what == 7:
        j = rng.randrange(min(len(problem.lower), len(problem.upper)) or 1)
        lower, upper = problem.lower[j:j + 1], problem.upper[j:j + 1]
        problem.lower[j:j + 1], problem.upper[j:j + 1] = upper, lower
    else:
        change_a_length(rng, problem, lent)


def continue_list(rng, hidden):
    """A list for Continue: mostly the hidden one, or a spoilt one, or one near ±M."""
    values = list(hidden)
    what = rng.randrange(8)
    if what == 0:
        put(rng, values, rng.choice([M, -M, M + 1, -M - 1, SMALLEST, BIGGEST]))
    elif what == 1:
        put(rng, values, rng.randint(-20, 20))
    elif what == 2:
        values = [rng.choice([M, -M, M - 1, 1 - M])] * len(values)
    return values


def tie_columns(rng, problem):
    """Puts rows a × v(i) = b × v(j) for the rows, so that lists far out satisfy some
    of them and ±M limits the moves."""
    n, m = problem.n, problem.m
    problem.coefficients = [0] * (m * n)
    problem.rights = [0] * m
    for i in range(m):
        a, b = rng.randrange(n), rng.randrange(n)
        problem.coefficients[i * n + a] += rng.choice([1, 2])
        problem.coefficients[i * n + b] -= rng.choice([1, 2])


def problem_case(rng):
    """One call on buffers."""
    problem, hidden = rng.choice(FAMILIES)(rng)
    part_goals(rng, problem)
    hand_in(rng, problem)
    if rng.random() < 0.15:
        repeat_rows(rng, problem)
    lent = noisy_lent(rng, problem.n, problem.m)
    call = rng.choice(["assign", "assign", "continue"])
    if call == "continue":
        if rng.random() < 0.1:
            tie_columns(rng, problem)
            hidden = [rng.choice([0, M, M, -M])] * problem.n
            problem.limit = min(problem.limit, 40)
        lent.values = continue_list(rng, hidden)
    for _ in range(rng.choice([0, 0, 0, 0, 0, 0, 0, 0, 1, 1, 2, 3])):
        change_a_number(rng, problem, lent)
    if problem.limit <= MAX_LIMIT and any(abs(bound) > 1000 for bound in
                                          problem.lower + problem.upper):
        # far bounds take many steps; keep the run short
        problem.limit = min(problem.limit, 300)
    return Case(call, problem, lent)


def walked(rng, problem, values):
    """A list in bounds moved on by vectors of the basis, in bounds all the way, so that
    its goals are missed; a list outside as it is."""
    table = fill(problem)
    leads, _ = bring_to_form(table)
    basis = basis_of(table, leads, problem.m)
    for vector in rng.choices(basis, k=6) if basis else []:
        sign = rng.choice([-1, 1])
        moved = [value + sign * entry for value, entry in zip(values, vector)]
        if part_of(problem, moved) == GOALS:
            values = moved
    return values


def left_standing(rng, case):
    """The list that a whole assignment leaves under a small limit, or one walked on from
    it, so that there are steps to be made; the lent list where it is refused."""
    limit, case.problem.limit = case.problem.limit, rng.choice([0, 0, 1, 7, 30])
    lent = Lent(*map(list, (case.lent.tableau, case.lent.values, case.lent.strides)))
    outcome = assign(case.problem, lent)[0]
    case.problem.limit = limit
    if isinstance(outcome, str) and rng.random() < 0.7:
        return walked(rng, case.problem, lent.values)
    return lent.values


def held_problem(rng):
    """A small problem and a list that satisfies its rows, made for a move of two vectors:
    a column that it changes wants to go where it leads, by its bounds or by its goal, the
    others that it changes are free, and all that it leaves alone are held where they
    stand, so that few single vectors serve."""
    n = rng.randint(3, 6)
    m = rng.randint(0, n - 2)
    standing = [rng.randint(20, 40) for _ in range(n)]
    coefficients = random_matrix(rng, n, m, 2, 0.6)
    rights = products(n, m, coefficients, standing)
    problem = Problem(n, m, coefficients, rights, list(standing), list(standing),
                      *twice([0] * n), *unset(n), random_limit(rng))
    table = fill(problem)
    leads, _ = bring_to_form(table)
    basis = basis_of(table, leads, m)
    pairs = [name for name in move_names(len(basis)) if len(name) == 2]
    # Better one in which both vectors change a column and the move does not.
    cancelling = [name for name in pairs
                  if any(basis[name[0][0]][j] != 0 and change == 0
                         for j, change in enumerate(move_named(basis, name)))]
    move = move_named(basis, rng.choice(cancelling or pairs))
    changed = [j for j in range(n) if move[j] != 0]
    for j in changed:
        problem.lower[j], problem.upper[j] = 1, 1000
    wanting = rng.choice(changed)
    wanted = standing[wanting] + move[wanting]
    if rng.random() < 0.5:
        problem.lower[wanting] = problem.upper[wanting] = wanted
    else:
        # as far below that as above it, so that it is wanted all the same
        times = rng.choice([1, 2, 5])
        problem.low[wanting] = 1000 * max(1, wanted) // times
        problem.high[wanting] = 1000 * max(1, wanted) * times
    return problem, standing


def preview_case(rng):
    """The problem, the standing list and the lent buffers of a preview: a Continue's
    list, what a whole assignment leaves, or one of a problem with held columns. The list
    after holds anything."""
    if rng.random() < 0.25:
        problem, standing = held_problem(rng)
        hand_in(rng, problem)
        lent = noisy_lent(rng, problem.n, problem.m)
    else:
        case = problem_case(rng)
        problem, lent = case.problem, case.lent
        standing = lent.values if case.call == "continue" else left_standing(rng, case)
    lent.values = noise(rng, len(problem.lower))
    if rng.random() < 0.1:
        buffer = rng.choice([standing, lent.values])
        what = rng.randrange(3)
        if what == 0 and buffer:
            buffer.pop()
        elif what == 1:
            buffer.append(rng.choice([0, SMALLEST, BIGGEST]))
        else:
            put(rng, buffer, rng.choice([SMALLEST, BIGGEST, M + 1, -M - 1]))
    return problem, standing, lent


def problems(count, seed):
    """Yields count calls on buffers."""
    for number in range(1, count + 1):
        yield problem_case(rng_for(seed, number))


# ---------------------------------------------------------------------- deck texts

class Sketch:
    """A deck in the making: intervals as (lower, upper, low goal, high goal), rows as
    (kind, number, terms) with terms as (index from 1, coefficient), volumes as lists of
    paths, each a list of indices from 1."""

    def __init__(self):
        self.intervals = []
        self.rows = []
        self.volumes = []

    def curve(self, goal, lower=1, upper=MAX_BOUND):
        """Adds an interval, both of whose goals are this one, and returns its index."""
        self.intervals.append((lower, upper, goal, goal))
        return len(self.intervals)

    def row(self, kind, number, terms):
        """Adds a row; terms of the same index are added up."""
        added = {}
        for index, coefficient in terms:
            added[index] = added.get(index, 0) + coefficient
        self.rows.append((kind, number,
                          [(i, c) for i, c in sorted(added.items()) if c != 0]))

    def equal(self, one_side, other_side, number=0):
        """The curves of two opposite sides add up to the same."""
        self.row(0, number, [(i, 1) for i in one_side] + [(i, -1) for i in other_side])

    def even(self, loop, half):
        """The curves of a loop add up to an even number, at least twice the half."""
        self.row(3, half, [(i, 1) for i in loop])

    def volume(self, paths):
        """A volume swept along these paths."""
        self.volumes.append([list(path) for path in paths])

    def sections(self):
        """The numbers of the three sections, each line by line with its count in front."""
        intervals = [[len(self.intervals)]] + [list(interval) for interval in self.intervals]
        rows = [[len(self.rows)]]
        for kind, number, terms in self.rows:
            rows.append([kind, number, len(terms)] + [n for term in terms for n in term])
        volumes = [[len(self.volumes)]]
        for paths in self.volumes:
            volumes.append([len(paths)])
            volumes += [[len(path)] + path for path in paths]
        return [[[b"%d" % number for number in line] for line in section]
                for section in (intervals, rows, volumes)]

    def tokens(self):
        """The numbers of the text, line by line."""
        return [line for section in self.sections() for line in section]

    def all_rows(self):
        """How many rows the problem has: one more for each later path of a volume."""
        return len(self.rows) + sum(len(paths) - 1 for paths in self.volumes)

    def fits(self):
        ys = sum(1 for kind, _, _ in self.rows if kind != 0)
        return len(self.intervals) + ys <= MAX_COLUMNS and self.all_rows() <= MAX_ROWS


def goal_of(length, size):
    """A goal in thousandths of an interval, from a curve's length and the wanted
    mesh size, both in millimetres."""
    return max(1, min(MAX_GOAL, 1000 * length // size))


def random_goal(rng):
    return goal_of(rng.randint(300, 6000), rng.choice([50, 100, 200, 250, 400]))


def panel_grid(rng, sketch, rows, columns):
    """The curves of a grid of panels: sides[i, j] is (top, right, bottom, left)."""
    across = {(i, j): sketch.curve(random_goal(rng))
              for i in range(rows + 1) for j in range(columns)}
    down = {(i, j): sketch.curve(random_goal(rng))
            for i in range(rows) for j in range(columns + 1)}
    return [(across[i, j], down[i, j + 1], across[i + 1, j], down[i, j])
            for i in range(rows) for j in range(columns)]


def mapped_deck(rng):
    """Mapped panels: the two curves of each pair of opposite sides are equal."""
    sketch = Sketch()
    for top, right, bottom, left in panel_grid(rng, sketch, rng.randint(1, 3),
                                               rng.randint(1, 4)):
        sketch.equal([top], [bottom])
        sketch.equal([left], [right])
    return sketch


def paved_deck(rng):
    """Paved panels and round holes: each loop is even."""
    sketch = Sketch()
    for sides in panel_grid(rng, sketch, rng.randint(1, 2), rng.randint(1, 3)):
        sketch.even(sides, 2)
    for _ in range(rng.randint(0, 2)):
        sketch.even([sketch.curve(random_goal(rng))], 3)
    return sketch


def submapped_deck(rng):
    """Submapped panels: sides of several curves, some with a notch."""
    sketch = Sketch()
    for _ in range(rng.randint(1, 4)):
        top = [sketch.curve(random_goal(rng)) for _ in range(rng.randint(1, 3))]
        bottom = [sketch.curve(random_goal(rng)) for _ in range(rng.randint(1, 3))]
        sketch.equal(top, bottom)
        if len(top) > 1:
            sketch.row(1, 1, [(top[0], 1), (top[1], -1)])
        if rng.random() < 0.4:
            sketch.row(2, rng.randint(5, 40), [(i, 1) for i in bottom])
    return sketch


def radish_deck(rng):
    """A side of r tied curves opposite a side of s tied curves, or the same folded."""
    sketch = Sketch()
    r, s = rng.choice([(3, 2), (7, 5), (4, 3), (9, 4), (79, 74)])
    goal = random_goal(rng)
    if r + s > 20:
        sketch.row(0, 0, [(sketch.curve(goal), r), (sketch.curve(goal), -s)])
        return sketch
    sides = []
    for count in (r, s):
        side = [sketch.curve(goal) for _ in range(count)]
        for one, other in zip(side, side[1:]):
            sketch.equal([one], [other])
        sides.append(side)
    sketch.equal(sides[0], sides[1])
    return sketch


def midpoint_deck(rng):
    """Midpoint triangles: each two sides are together 2 more than the third."""
    sketch = Sketch()
    shared = sketch.curve(random_goal(rng))
    for _ in range(rng.randint(1, 4)):
        a, b, c = shared, sketch.curve(random_goal(rng)), sketch.curve(random_goal(rng))
        if rng.random() < 0.2:
            lower = rng.randint(1, 30)
            b = sketch.curve(0, lower, lower + rng.randint(0, 3))
        sketch.row(1, 2, [(a, 1), (b, 1), (c, -1)])
        sketch.row(1, 2, [(a, 1), (b, -1), (c, 1)])
        sketch.row(1, 2, [(a, -1), (b, 1), (c, 1)])
        shared = c
    return sketch


def parity_deck(rng):
    """A paved loop of tied pairs and a prescribed curve: none if that is odd."""
    sketch = Sketch()
    loop = []
    for _ in range(rng.randint(1, 3)):
        a, b = sketch.curve(random_goal(rng)), sketch.curve(random_goal(rng))
        sketch.equal([a], [b])
        loop += [a, b]
    prescribed = sketch.curve(0)
    sketch.row(0, rng.randint(1, 9), [(prescribed, 1)])
    sketch.even(loop + [prescribed], 2)
    return sketch


def chain_deck(rng):
    """A chain of ratios, from harmless to beyond M."""
    sketch = Sketch()
    factor = rng.choice([1, 2, 10, 100, MAX_COEFFICIENT])
    curves = [sketch.curve(rng.choice([0, 1000, MAX_GOAL]))
              for _ in range(rng.randint(2, 6))]
    for one, other in zip(curves, curves[1:]):
        sketch.row(0, 0, [(one, factor), (other, -1)])
    return sketch


def cutting_bounds(rng):
    """Bounds of a curve with a goal: wide ones, or some that many an ideal lies outside of,
    above or below."""
    return rng.choice([(1, MAX_BOUND), (1, MAX_BOUND), (1, rng.randint(1, 40)),
                       (rng.randint(20, 90), 200), (rng.randint(60, 300), MAX_BOUND)])


def plain_bounds(rng):
    """Bounds of a curve without a goal, which may hold its neighbours' mean or not."""
    return rng.choice([(1, MAX_BOUND), (1, MAX_BOUND), (0, 90), (-500, 500), (1, 4),
                       (150, 400), (-20, -3)])


def loose_row(rng, sketch, kinds, terms):
    """A row of one of the kinds that a slack, where it has one, mostly leaves satisfiable
    within the bounds."""
    kind = rng.choice(kinds)
    most = {0: 9, 1: 300, 2: 300, 3: 3}[kind]
    number = rng.randint(0, most)
    sketch.row(kind, -number if kind == 1 else number, terms)


def lone_curves(rng, sketch):
    """Plain curves without a neighbour: one in no row, or two in one with each other."""
    a = sketch.curve(0, *plain_bounds(rng))
    if rng.random() < 0.7:
        b = sketch.curve(0, *plain_bounds(rng))
        loose_row(rng, sketch, [0, 1, 2, 3], [(a, 1), (b, rng.choice([-1, 1]))])


def beside_deck(rng):
    """Plain curves in rows with curves that have goals, and mostly before them, so that they
    lead. A second row, which has a slack, has some of the same curves again."""
    sketch = Sketch()
    if rng.random() < 0.2:
        lone_curves(rng, sketch)
    goals = [0] * rng.randint(1, 3) + [random_goal(rng) for _ in range(rng.randint(1, 5))]
    if rng.random() < 0.3:
        rng.shuffle(goals)
    wide = rng.random() < 0.4
    plain, wanted = [], []
    for goal in goals:
        bounds = (cutting_bounds if goal else plain_bounds)(rng)
        index = sketch.curve(goal) if wide else sketch.curve(goal, *bounds)
        (wanted if goal else plain).append(index)
    for curve in plain:
        beside = rng.sample(wanted, rng.randint(0, min(4, len(wanted))))
        beside += rng.sample(plain, rng.choice([0, 0, 1]))
        loose_row(rng, sketch, [0, 0, 1, 2, 3],
                  [(curve, 1)] + [(i, rng.choice([-1, -1, 1])) for i in beside])
        if rng.random() < 0.6:
            again = rng.sample(beside, min(len(beside), rng.choice([1, 1, 2])))
            loose_row(rng, sketch, [1, 2, 3],
                      [(i, rng.choice([-1, 1])) for i in [curve] + again])
    if rng.random() < 0.2:
        lone_curves(rng, sketch)
    return sketch


def sweep_path(rng, sketch):
    """A path of one curve, or of some where stringers part it, in any order."""
    length, size = rng.randint(900, 4000), rng.choice([100, 200, 250])
    pieces = rng.choice([1, 1, 2, 3])
    path = [sketch.curve(rng.choice([goal_of(length // pieces, size)] * 3 + [0]))
            for _ in range(pieces)]
    rng.shuffle(path)
    return path


def joined_path(rng, paths):
    """A path that runs along some of another one's curves, or along all of them, in an
    order of its own."""
    path = list(rng.choice(paths))
    rng.shuffle(path)
    return path[:rng.randint(1, len(path))] if rng.random() < 0.5 else path


def hold_deck(rng):
    """Cells of a hold, each swept along its corner posts, three or four of them mostly.
    Neighbouring cells have posts together, and a post may end in a curve of another."""
    sketch = Sketch()
    posts = [sweep_path(rng, sketch)]
    for _ in range(rng.choice([1, 1, 1, 2, 3])):
        paths = [rng.choice(posts)] if rng.random() < 0.7 else []
        for _ in range(rng.choice([1, 2, 3, 3])):
            paths.append(sweep_path(rng, sketch))
            if rng.random() < 0.25:
                shared = rng.choice(paths[0])
                paths[-1] += [shared] if shared not in paths[-1] else []
        if rng.random() < 0.2:
            paths.append(joined_path(rng, paths))
        posts += paths
        rng.shuffle(paths)
        sketch.volume(paths)
    if rng.random() < 0.6:
        # a row of the text over a post, beside those of the volumes
        across = sketch.curve(random_goal(rng))
        loose_row(rng, sketch, [0, 1, 2, 3], [(i, 1) for i in posts[0]] + [(across, -1)])
    return sketch


def add_volumes(rng, sketch):
    """Volumes swept along any curves of a deck, so that many have no list in bounds."""
    indices = range(1, len(sketch.intervals) + 1)
    for _ in range(rng.choice([1, 1, 2])):
        paths = [rng.sample(indices, rng.randint(1, min(3, len(indices))))
                 for _ in range(rng.choice([1, 2, 2, 3, 4]))]
        if rng.random() < 0.25:
            paths.insert(rng.randint(0, len(paths)), joined_path(rng, paths))
        sketch.volume(paths)
        if not sketch.fits():
            sketch.volumes.pop()


def brim_deck(rng):
    """Rows and volumes that together make 48 rows, and some that make a 49th."""
    sketch = Sketch()
    curves = [sketch.curve(random_goal(rng)) for _ in range(rng.randint(2, 4))]
    for _ in range(rng.choice([0, 1, 20, 46, 47, MAX_ROWS])):
        sketch.equal([rng.choice(curves)], [rng.choice(curves)])
    left = MAX_ROWS - len(sketch.rows)
    first = rng.choice([0, left // 2, left])
    for added in (first, left - first + rng.choice([0, 0, 1])):
        sketch.volume(rng.sample(curves, rng.randint(1, 2)) for _ in range(1 + added))
    if rng.random() < 0.3:
        # one path adds no row, so that it fits after 48 rows too
        sketch.volume([rng.sample(curves, 2)])
    return sketch


def without_some_goals(rng, sketch):
    """Leaves out some goals of a deck, and narrows the bounds of others."""
    for at, (lower, upper, *goals) in enumerate(sketch.intervals):
        chance = rng.random()
        if any(goals) and chance < 0.35:
            sketch.intervals[at] = (lower, upper, 0, 0)
        elif any(goals) and chance < 0.5:
            sketch.intervals[at] = (lower, min(upper, lower + rng.randint(0, 9)), *goals)


def strided_deck(rng):
    """Curves that are a multiple of another one and some more, with goals or without: where
    none is near, the first keeps what the row leaves over."""
    sketch = Sketch()
    for _ in range(rng.randint(1, 3)):
        factor = rng.choice([2, 3, 5, 7, 12, 40])
        lower = rng.choice([-300, 0, 1])
        a = sketch.curve(rng.choice([0, 0, random_goal(rng)]) if lower == 1 else 0, lower, 300)
        b = sketch.curve(rng.choice([0, 0, random_goal(rng)]) if lower == 1 else 0, lower)
        sketch.row(0, rng.randint(0, 5 * factor), [(a, 1), (b, -factor)])
    return sketch


def any_deck(rng):
    """Rows of every kind, with any terms and numbers."""
    sketch = Sketch()
    for _ in range(rng.randint(1, 6)):
        lower = rng.choice([-5, 0, 1, 1, 2])
        goal = rng.choice([0, random_goal(rng)]) if lower >= 1 else 0
        sketch.curve(goal, lower, rng.choice([lower, lower + 3, 60, MAX_BOUND]))
    count = len(sketch.intervals)
    for _ in range(rng.randint(0, 4)):
        terms = [(i, rng.choice([-2, -1, 1, 1, 3])) for i in range(1, count + 1)
                 if rng.random() < 0.5]
        kind = rng.randint(0, 3)
        sketch.row(kind, rng.randint(0, 6) if kind == 3 else rng.randint(-9, 30), terms)
    return sketch


def edge_deck(rng):
    """Decks at the limits: 48 columns, 48 rows, a 49th column, greatest numbers."""
    sketch = Sketch()
    what = rng.randrange(6)
    if what == 0:
        for _ in range(MAX_COLUMNS):
            sketch.curve(random_goal(rng))
    elif what == 1:
        for _ in range(MAX_COLUMNS - 3):
            sketch.curve(0, 1, 20)
        for i in range(rng.choice([3, 4])):
            sketch.row(rng.randint(1, 3), 4, [(i + 1, 1), (i + 2, 1)])
    elif what == 2:
        a = sketch.curve(5000)
        for _ in range(MAX_ROWS):
            sketch.row(0, 5, [(a, 1)])
    elif what == 3:
        a = sketch.curve(MAX_GOAL, MAX_BOUND, MAX_BOUND)
        b = sketch.curve(0, -MAX_BOUND, MAX_BOUND)
        sketch.row(0, rng.choice([-MAX_RIGHT, MAX_RIGHT]),
                   [(a, rng.choice([1, MAX_COEFFICIENT])), (b, -MAX_COEFFICIENT)])
    elif what == 4:
        # a plain curve with as many neighbours as there can be, of the largest ideals
        goals = [0] + [MAX_GOAL - rng.choice([0, 0, 1000, 3000])
                       for _ in range(MAX_COLUMNS - 1)]
        curves = [sketch.curve(goal) for goal in goals]
        sketch.equal(curves[0::2], curves[1::2])
    else:
        a = sketch.curve(3000)
        sketch.row(3, MAX_BOUND, [(a, 1)])
        sketch.row(0, 0, [])
    return sketch


DECKS = [mapped_deck, paved_deck, submapped_deck, radish_deck, midpoint_deck,
         parity_deck, chain_deck, any_deck, any_deck, any_deck, edge_deck,
         beside_deck, beside_deck, beside_deck, beside_deck, strided_deck, strided_deck,
         hold_deck, hold_deck, hold_deck, brim_deck]


def sketch_for(rng):
    sketch = rng.choice(DECKS)(rng)
    if rng.random() < 0.3:
        without_some_goals(rng, sketch)
    share_curves(rng, sketch)
    if rng.random() < 0.15:
        add_volumes(rng, sketch)
    return sketch


def join(lines):
    """The usual lay-out of a text: one line for each interval, row, volume and path."""
    return b"".join(b" ".join(line) + b"\n" for line in lines)


def scatter(rng, lines):
    """The same numbers parted by any runs of byte 32 and 10."""
    def run(least):
        return bytes(rng.choice(b" \n") for _ in range(rng.randint(least, 3)))
    return run(0) + b"".join(token + run(1) for line in lines for token in line)


# Runs that are no number, and numbers out of any range.
BAD_RUNS = [b"+5", b"007", b"00", b"-0", b"-", b"--1", b"1-1", b"5-", b"-05", b"1.0",
            b"1e3", b"0x1", b"1_0", b"5\t6", b"\t", b"5\r", b"\r", b"5\x00", b"\x00",
            b"\xff", b"5\xa0", b"\xd9\xa3", b"\xe2\x88\x925", b"x", b"1,5",
            b"12345678901", b"-12345678901", b"00000000001", b"\x0b", b"\x0c", b"1#"]
NUMBERS = [b"0", b"1", b"-1", b"2", b"3", b"4", b"5", b"48", b"49", b"1000", b"1001",
           b"-1000", b"-1001", b"1000000", b"1000001", b"-1000000", b"-1000001",
           b"1000000000", b"1000000001", b"9999999999", b"-9999999999", b"2147483648",
           b"4294967297"]


def place(rng, lines):
    """Some line and some place in it."""
    i = rng.randrange(len(lines))
    return i, rng.randrange(len(lines[i]))


def damage_tokens(rng, lines, sections):
    """Changes the numbers of a text, whose sections have the same lines."""
    if rng.random() < (0.6 if len(sections[2]) > 1 else 0.15):
        damage_volumes(rng, sections)
        return
    i, j = place(rng, lines)
    what = rng.randrange(12)
    if what == 0:
        lines[i][j] = rng.choice(BAD_RUNS)
    elif what in (1, 2, 3):
        lines[i][j] = rng.choice(NUMBERS)
    elif what == 4:
        del lines[i][j]
    elif what == 5:
        lines[i].insert(j, rng.choice(NUMBERS + [lines[i][j]]))
    elif what == 6:
        k, l = place(rng, lines)
        lines[i][j], lines[k][l] = lines[k][l], lines[i][j]
    elif what == 7:
        damage_row(rng, sections[1][-1])
    elif what <= 10:
        damage_line(rng, rng.choice(sections[0]))
    else:
        lines.append([rng.choice(NUMBERS + BAD_RUNS)])


def damage_row(rng, row):
    """Aims at a row: its kind, count, index order or coefficient."""
    if len(row) < 5:
        return
    terms = (len(row) - 3) // 2
    at = 3 + 2 * rng.randrange(terms)
    what = rng.randrange(6)
    if what == 0:
        row[0] = rng.choice([b"-1", b"1", b"2", b"3", b"4"])
    elif what == 1:
        row[2] = rng.choice([b"-1", b"0", b"%d" % (terms + 1), b"48", b"49"])
    elif what == 2:
        row[at + 1] = b"0"
    elif what == 3:
        row[at] = rng.choice([b"0", b"-1", b"48", b"49", row[3]])
    elif what == 4:
        row[3:5], row[-2:] = row[-2:], row[3:5]
    else:
        row[1] = rng.choice([b"-1", b"1000000", b"1000001", b"-1000000", b"-1000001"])


def damage_volumes(rng, sections):
    """Aims at the third section: a count, a path, or its end."""
    volumes = [line for line in sections[2] if line]
    # a line of one number is a count of paths, for a path has at least its count and an index
    counts = [line for line in volumes[1:] if len(line) == 1]
    paths = [line for line in volumes[1:] if len(line) > 1]
    what = rng.randrange(12)
    if not volumes:
        return
    if what == 0:
        volumes[0][0] = rng.choice([b"-1", b"-2", b"-9999999999", b"1", b"2", b"9999999999"])
    elif what == 1:
        # the last number, which is the closing 0 where there are no volumes
        del volumes[-1][-1]
    elif what == 2:
        volumes[-1].append(rng.choice([b"0", b"0", b"1", b"-1", b"9999999999", b"x"]))
    elif what == 3:
        line = rng.choice(volumes)
        line[rng.randrange(len(line))] = rng.choice(BAD_RUNS)
    elif what in (4, 5, 6) and counts:
        rows = len(sections[1]) - 1
        rng.choice(counts)[0] = rng.choice(
            [b"0", b"0", b"-1", b"-9999999999", b"1", b"2", b"%d" % (MAX_ROWS + 1 - rows),
             b"%d" % (MAX_ROWS + 2 - rows), b"49", b"50", b"9999999999"])
    elif paths:
        damage_path(rng, rng.choice(paths), sections)


def damage_path(rng, path, sections):
    """Aims at a path: its count, or an index that names no interval or stands there twice."""
    intervals = len(sections[0]) - 1
    slacks = sum(line[:1] not in ([], [b"0"]) for line in sections[1][1:])
    what = rng.randrange(5)
    if what <= 1:
        path[0] = rng.choice([b"0", b"0", b"-1", b"%d" % len(path), b"%d" % (len(path) - 2),
                              b"49", b"9999999999", b"-9999999999"])
    elif what == 2:
        # once more, at any place
        path.insert(rng.randint(1, len(path)), rng.choice(path[1:]))
        path[0] = b"%d" % (len(path) - 1)
    else:
        # the column of a y, where there is one
        y = b"%d" % (intervals + rng.randint(1, max(slacks, 1)))
        path[rng.randrange(1, len(path))] = rng.choice(
            [b"0", b"-1", y, y, y, y, b"49", b"9999999999", path[1], path[-1]])


def damage_bytes(rng, data):
    """Changes the bytes of a text."""
    what = rng.randrange(7)
    at = rng.randrange(len(data) + 1)
    if what == 0:
        return data[:at]
    if what == 1:
        return data[:at] + bytes([rng.randrange(256)]) + data[at + 1:]
    if what == 2:
        return data[:at] + bytes([rng.randrange(256)]) + data[at:]
    if what == 3:
        return data[:at] + data[at + 1:]
    if what == 4:
        return data.replace(b"\n", rng.choice([b"\r\n", b"\t", b"\r", b"\x00", b"  "]))
    if what == 5:
        size = rng.choice([MAX_TEXT - 1, MAX_TEXT, MAX_TEXT + 1, 2 * MAX_TEXT])
        return data + bytes([rng.choice(b" \n")]) * (size - len(data))
    size = rng.choice([MAX_TEXT, MAX_TEXT + 1])
    return b" " * (size - len(data)) + data


def binary_text(rng):
    """No deck at all."""
    what = rng.randrange(5)
    if what == 0:
        return b""
    if what == 1:
        return bytes(rng.choice(b" \n") for _ in range(rng.randint(1, 50)))
    if what == 2:
        return bytes(rng.randrange(256) for _ in range(rng.randint(1, 300)))
    if what == 3:
        return bytes(rng.choice(b"0123456789- \n") for _ in range(rng.randint(1, 300)))
    return b"1 " * (MAX_TEXT // 2 + rng.randint(-1, 1))


def text_case(rng):
    """One deck text: as laid out, damaged in its numbers, in its bytes, or no deck."""
    if rng.random() < 0.03:
        return binary_text(rng)
    sections = sketch_for(rng).sections()
    lines = [line for section in sections for line in section]
    kind = rng.random()
    if kind > 0.4:
        for _ in range(rng.choice([1, 1, 1, 2])):
            lines = [line for line in lines if line]
            damage_tokens(rng, lines, sections)
    data = scatter(rng, lines) if rng.random() < 0.2 else join(lines)
    if kind > 0.8:
        data = damage_bytes(rng, data)
    return data


def texts(count, seed):
    """Yields count deck texts."""
    for number in range(1, count + 1):
        yield text_case(rng_for(seed, number))


# ------------------------------------------------------ what texts show of volumes

READ_KINDS = ["volumes", "several volumes", "a volume of one path", "a path row",
              "an interval on both paths", "two equal paths", "indices that do not rise",
              "a slack beside volumes", "48 rows with those of paths",
              "an ideal by the row of a path"]
REFUSED_KINDS = ["13 at a count of volumes", "13 at a count of paths",
                 "13 at a count of intervals", "13 at an index outside", "13 at an index twice",
                 "1 at a count of paths", "11 in the third section"]
VOLUME_KINDS = READ_KINDS + REFUSED_KINDS


def kinds_read(columns, intervals, rows, volumes):
    """Which of READ_KINDS a text that is read shows."""
    paths = [path for volume in volumes for path in volume]
    pairs = [(set(volume[0]), set(path)) for volume in volumes for path in volume[1:]]
    every = rows + path_rows(volumes)
    plain = [j for j in range(intervals) if not is_wanted(columns[j])]
    found = {
        "volumes": volumes != [],
        "several volumes": len(volumes) > 1,
        "a volume of one path": any(len(volume) == 1 for volume in volumes),
        "a path row": pairs != [],
        "an interval on both paths": any(one & other and one != other for one, other in pairs),
        "two equal paths": any(one == other for one, other in pairs),
        "indices that do not rise": any(path != sorted(path) for path in paths),
        "a slack beside volumes": volumes != [] and len(columns) > intervals,
        "48 rows with those of paths": pairs != [] and len(every) == MAX_ROWS,
        "an ideal by the row of a path": any(neighbour_ideal(j, columns, rows)
                                             != neighbour_ideal(j, columns, every)
                                             for j in plain),
    }
    return [kind for kind in READ_KINDS if found[kind]]


def places(numbers):
    """What each number of a third section is."""
    rest = iter(numbers)
    yield "a count of volumes"
    for _ in range(next(rest)):
        yield "a count of paths"
        for _ in range(next(rest)):
            yield "a count of intervals"
            for _ in range(next(rest)):
                yield "an index"
                next(rest)


def kind_refused(taken, intervals, number):
    """Which of REFUSED_KINDS a refusal is, by the words of the third section that were
    taken, up to the place that decides."""
    if number == NOT_AS_LAID_OUT:
        return "11 in the third section"
    numbers = [int(word) for word in taken]
    *_, place = (what for what, _ in zip(places(numbers), numbers))
    if place == "an index":
        place += " twice" if 1 <= numbers[-1] <= intervals else " outside"
    return "%d at %s" % (number, place)


def volume_kinds(data):
    """Which of VOLUME_KINDS a text shows."""
    numbers = Numbers(data if len(data) <= MAX_TEXT else b"")
    start = None
    try:
        intervals, columns, rows = read_front(numbers)
        start = numbers.taken
        volumes = read_volumes(numbers, intervals, len(rows))
        numbers.end()
    except Refused as refused:
        # what comes before the third section shows nothing of volumes
        return [] if start is None else [
            kind_refused(numbers.runs[start:numbers.taken], intervals, refused.number)]
    return kinds_read(columns, intervals, rows, volumes)


def volumes_met(texts):
    """How many of the texts show each of VOLUME_KINDS."""
    met = dict.fromkeys(VOLUME_KINDS, 0)
    for data in texts:
        for kind in volume_kinds(data):
            met[kind] += 1
    return met


# -------------------------------------------------------------------- command line

def print_buffers(owner, names):
    for name in names:
        buffer = getattr(owner, name)
        print(" ".join([name, str(len(buffer))] + [str(number) for number in buffer]))


def print_problems(count, seed):
    for number, case in enumerate(problems(count, seed), 1):
        problem = case.problem
        print("case", number, case.call, problem.n, problem.m, problem.limit)
        print_buffers(problem, PROBLEM_LISTS)
        print_buffers(case.lent, LENT_LISTS)
        print("answer", *case.run())
        print_buffers(case.lent, LENT_LISTS)


def write_texts(count, seed, folder):
    os.makedirs(folder, exist_ok=True)
    for number, data in enumerate(texts(count, seed), 1):
        name = os.path.join(folder, "%05d" % number)
        with open(name + ".txt", "wb") as file:
            file.write(data)
        with open(name + ".listing", "wb") as file:
            file.write(listing(data))


def main(arguments):
    counts = [int(word) for word in arguments[1:3] if word.isascii() and word.isdigit()]
    if len(arguments) == 3 and arguments[0] == "problems" and len(counts) == 2:
        print_problems(*counts)
    elif len(arguments) == 4 and arguments[0] == "texts" and len(counts) == 2:
        write_texts(*counts, arguments[3])
    else:
        sys.exit(__doc__)


if __name__ == "__main__":
    needs.tool(main)
