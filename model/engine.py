"""The plain model of the interval assignment engine, on buffers.

Every function carries out a sentence of document 01 and quotes it. Whole
numbers are Python's, so nothing here overflows or is cut off. Rows and columns
are counted from 0 in the code and from 1 in document 01.

Ideals handed in, previews, the pair of goals, the nearest quotient and its rounds are
document 02's, whose sentences stand at them.

assign(problem, lent) is a whole assignment, cont(problem, lent) is Continue.
Both return (outcome, steps of the bounds part, steps of the goals part, rounds), where
the outcome is the word FITTED, OUTSIDE or SPENT or the number of a refusal.
preview(problem, standing, lent) shows the next step (document 02, (i)); it returns
(the number of a refusal or 0, the step or None, rounds).
Rounds are those of the elimination (document 02, (vii)).
"""

import collections
import functools
import math

# “These limits belong to the problem and are named once with it.”
MIN_COLUMNS = 1
MAX_COLUMNS = 48
MAX_ROWS = 48
MAX_COEFFICIENT = 1000
MAX_RIGHT = 1000000
MAX_BOUND = 1000000
MAX_GOAL = 1000000000
MAX_LIMIT = 65535
M = 2147483647
# Document 02, (vii): “at most 31 × n in all”.
ROUNDS_PER_COLUMN = 31

FITTED = "FITTED"
OUTSIDE = "OUTSIDE"
SPENT = "SPENT"

BOUNDS = "bounds"
GOALS = "goals"

# The numbers of the table “Turned back” that a call on buffers can give.
COUNTS_OUTSIDE = 1
WRONG_LENGTH = 2
ROW_NUMBER_OUTSIDE = 3
BOUND_OUTSIDE = 4
GOAL_OUTSIDE = 5
LIMIT_OUTSIDE = 6
ELIMINATION_BEYOND = 7
NO_WHOLE_NUMBERS = 8
SEATING_BEYOND = 9
LIST_NOT_FIT = 10

# The lists of a problem, and those that a call may write, in the order of every call.
PROBLEM_LISTS = ["coefficients", "rights", "lower", "upper", "low", "high", "given",
                 "ideals"]
LENT_LISTS = ["tableau", "values", "strides"]


class Problem:
    """“n columns, 1 to 48; m rows, 0 to 48”; the coefficients lie flat, n to a row.

    Document 02, (v): “Each column's record now holds a low and a high goal”.

    Document 02, (ii): “Any number may be handed in as an ideal”, so that no number can say
    that there is none: given has a mark for each column, 0 where its ideal is unset and any
    other number where the one in ideals is handed in."""

    def __init__(self, n, m, coefficients, rights, lower, upper, low, high, given, ideals,
                 limit):
        self.n = n
        self.m = m
        self.coefficients = coefficients
        self.rights = rights
        self.lower = lower
        self.upper = upper
        self.low = low
        self.high = high
        self.given = given
        self.ideals = ideals
        self.limit = limit


def twice(goals):
    """The lists low and high of columns with one goal each: “Older cases have both equal.”"""
    return list(goals), list(goals)


def unset(n):
    """The lists given and ideals of n columns for which no ideal is handed in."""
    return [0] * n, [0] * n


class Lent:
    """The lent buffers that a call may write: the tableau lies flat, m + n to a row."""

    def __init__(self, tableau, values, strides):
        self.tableau = tableau
        self.values = values
        self.strides = strides


class Step(collections.namedtuple("Step", ["part", "column", "move"])):
    """Document 02, (i): “the preview names the part, the column, the move”. The part is
    BOUNDS or GOALS, the column is the one that the move improves, and the move is named
    as move_names does."""


class Beyond(Exception):
    """Refusal 7: “a subtraction of these steps leaves a number beyond ±M”."""


# ---------------------------------------------------------------- causes 1 to 6

def counts_outside(problem):
    """“n or m outside”."""
    return (not MIN_COLUMNS <= problem.n <= MAX_COLUMNS
            or not 0 <= problem.m <= MAX_ROWS)


def lists_wrong(problem):
    """“a lent length not exactly what n and m need”: of the problem's lists."""
    n, m = problem.n, problem.m
    return (len(problem.coefficients) != m * n
            or len(problem.rights) != m
            or len(problem.lower) != n
            or len(problem.upper) != n
            or len(problem.low) != n
            or len(problem.high) != n
            or len(problem.given) != n
            or len(problem.ideals) != n)


def wrong_length(problem, lent):
    """The same of all buffers of a call."""
    n, m = problem.n, problem.m
    return (lists_wrong(problem)
            or len(lent.tableau) != n * (m + n)
            or len(lent.values) != n
            or len(lent.strides) != n)


def row_number_outside(problem):
    """“Coefficients −1,000 to 1,000. Right sides −1,000,000 to 1,000,000.”"""
    return (any(abs(a) > MAX_COEFFICIENT for a in problem.coefficients)
            or any(abs(b) > MAX_RIGHT for b in problem.rights))


def bound_outside(problem):
    """“a lower and an upper bound, both within ±1,000,000, lower at most upper”."""
    return any(abs(lower) > MAX_BOUND or abs(upper) > MAX_BOUND or lower > upper
               for lower, upper in zip(problem.lower, problem.upper))


def has_goal(low):
    """Whether a column has a goal: “both 0 or both set” (document 02, (v)), so that the low
    one tells."""
    return low != 0


def pair_breaks_the_rule(lower, low, high):
    """Document 02, (v): “both 0 or both set, low at most high”; and document 01 of each:
    “0 (no goal) to 1,000,000,000. A column with a goal has lower bound 1 or more.”"""
    return (not 0 <= low <= MAX_GOAL
            or not 0 <= high <= MAX_GOAL
            or (low == 0) != (high == 0)
            or low > high
            or (has_goal(low) and lower < 1))


def goal_outside(problem):
    """“A pair that breaks the rule is refused as 5 is now.”"""
    return any(pair_breaks_the_rule(*column)
               for column in zip(problem.lower, problem.low, problem.high))


def limit_outside(problem):
    """“Step limit 0 to 65,535.”"""
    return not 0 <= problem.limit <= MAX_LIMIT


def number_outside(problem):
    """The first of causes 3 to 5 that holds, 0 if none does."""
    if row_number_outside(problem):
        return ROW_NUMBER_OUTSIDE
    if bound_outside(problem):
        return BOUND_OUTSIDE
    if goal_outside(problem):
        return GOAL_OUTSIDE
    return 0


def problem_cause(problem):
    """The first of causes 1 to 5 that holds of a problem's own lists, 0 if none does."""
    if counts_outside(problem):
        return COUNTS_OUTSIDE
    if lists_wrong(problem):
        return WRONG_LENGTH
    return number_outside(problem)


def cause_but_limit(problem, lent):
    """The same of a problem and the buffers that are lent beside it."""
    if counts_outside(problem):
        return COUNTS_OUTSIDE
    if wrong_length(problem, lent):
        return WRONG_LENGTH
    return number_outside(problem)


def first_cause(problem, lent):
    """“Order: 1 to 6, ...” - the first of causes 1 to 6 that holds, 0 if none does."""
    cause = cause_but_limit(problem, lent)
    if cause == 0 and limit_outside(problem):
        return LIMIT_OUTSIDE
    return cause


# ------------------------------------------------------------------ the tableau

def fill(problem):
    """“table row j is column j of the matrix (m numbers), then the j-th unit list”."""
    n, m = problem.n, problem.m
    table = []
    for j in range(n):
        column = [problem.coefficients[i * n + j] for i in range(m)]
        unit = [1 if k == j else 0 for k in range(n)]
        table.append(column + unit)
    return table


def subtract(row, quotient, pivot_row):
    """One subtraction; refusal 7 is judged on each number that it leaves."""
    left = [a - quotient * b for a, b in zip(row, pivot_row)]
    if any(abs(number) > M for number in left):
        raise Beyond
    return left


def choose_pivot(table, k, c):
    """“choose the smallest magnitude other than 0, ties to the upper row”."""
    chosen = None
    for j in range(k, len(table)):
        entry = abs(table[j][c])
        if entry != 0 and (chosen is None or entry < abs(table[chosen][c])):
            chosen = j
    return chosen


def rounded_down(entry, p):
    """“the quotient is rounded down, towards minus infinity” - as // does in Python."""
    return entry // p


def nearest(entry, p):
    """Document 02, (vii): “the nearest quotient, floor((2 × entry + p) / 2p)”."""
    return (2 * entry + p) // (2 * p)


def gather(table, k, c, quotient):
    """“Gathering works on the tableau from row k to the last.”

    Returns the rounds, document 02, (vii): “Each choice of a smallest entry is a round.”
    Where “all entries at c there are 0” nothing is chosen, and there is none.
    """
    rounds = 0
    chosen = choose_pivot(table, k, c)
    while chosen is not None:
        rounds += 1
        # “swap it with row k; negate row k if its entry p is negative”
        table[k], table[chosen] = table[chosen], table[k]
        if table[k][c] < 0:
            table[k] = [-number for number in table[k]]
        p = table[k][c]
        # “From each lower row with a nonzero entry subtract the quotient (entry
        # by p) times row k”
        for j in range(k + 1, len(table)):
            if table[j][c] != 0:
                table[j] = subtract(table[j], quotient(table[j][c], p), table[k])
        # “Repeat until all lower entries are 0.”
        if all(table[j][c] == 0 for j in range(k + 1, len(table))):
            break
        chosen = choose_pivot(table, k, c)
    return rounds


def reduce_above(table, k, c):
    """“Then from each row above k, top first, subtract the rounded-down quotient
    times row k, so that its entry lies in 0 to p − 1.”"""
    p = table[k][c]
    for j in range(k):
        table[j] = subtract(table[j], rounded_down(table[j][c], p), table[k])


def bring_to_form(table, quotient=nearest):
    """“Start with k = 1 and take the table's columns c from left to right while
    k ≤ n.” Returns the lead column of each table row, and the rounds of each such column.

    Document 02, (vii): “Gathering takes the nearest quotient ... in place of the
    rounded-down one; the rows above are reduced as now.” Document 01's quotient is there to
    compare the two."""
    leads, rounds = [], []
    for c in range(len(table[0])):
        k = len(leads)
        if k == len(table):
            break
        gathered = gather(table, k, c, quotient)
        if gathered > 0:
            reduce_above(table, k, c)
            leads.append(c)
            rounds.append(gathered)
    return leads, rounds


def flat(table):
    """The tableau as it lies in its buffer, row after row."""
    return [number for row in table for number in row]


# --------------------------------------------------- right side, basis, strides

def starting_list(table, leads, rights):
    """“Take the list (−b, then n zeros).” Returns the starting list, or None if
    “no whole numbers satisfy the rows”."""
    n, m = len(table), len(rights)
    rest = [-b for b in rights] + [0] * n
    # “With each table row whose lead lies in the first m columns, top first,
    # subtract the rounded-down quotient times that row.”
    for row, lead in zip(table, leads):
        if lead < m:
            rest = subtract(rest, rounded_down(rest[lead], row[lead]), row)
    # “If one of the first m numbers is then not 0, no whole numbers satisfy the rows.”
    if any(number != 0 for number in rest[:m]):
        return None
    # “Otherwise go on with the remaining table rows; the last n numbers are the
    # starting list.”
    for row, lead in zip(table, leads):
        if lead >= m:
            rest = subtract(rest, rounded_down(rest[lead], row[lead]), row)
    return rest[m:]


def basis_of(table, leads, m):
    """“The remaining table rows, without their m zeros, are the basis.”"""
    return [row[m:] for row, lead in zip(table, leads) if lead >= m]


def divisor(a, b):
    """“The divisor of a number and 0 is that number; otherwise it is that of the
    second and the remainder.”"""
    return a if b == 0 else divisor(b, a % b)


def strides_of(basis, n):
    """“Stride of a column: the greatest common divisor of its entries' magnitudes
    in the basis, 0 if all are 0.”"""
    strides = [0] * n
    for vector in basis:
        for j in range(n):
            strides[j] = divisor(strides[j], abs(vector[j]))
    return strides


# --------------------------------------------------------------------- seating

def into_bounds(value, lower, upper):
    """“then bring it into the bounds”."""
    return max(lower, min(upper, value))


def goal_ideal(low, high):
    """Document 02, (v): “The ideal uses k, the whole part of (square root of low times
    high) / 1,000: k + 1 exactly if k(k + 1) × 1,000,000 < low × high, and 1 for k = 0” -
    otherwise k, as in document 01, and before it is brought into the bounds."""
    # the whole part of a root's thousandth is that of the root's whole part
    k = math.isqrt(low * high) // 1000
    if k == 0:
        return 1
    if k * (k + 1) * 1000000 < low * high:
        return k + 1
    return k


def ideal(problem, j, present):
    """“The ideal of a column with goal g ... Without a goal it is the present value
    brought into the bounds.” Document 02, (ii): an ideal that is handed in “is used only
    without a goal, and brought into the bounds”; “unset, document 01's rule holds”."""
    if has_goal(problem.low[j]):
        wanted = goal_ideal(problem.low[j], problem.high[j])
    elif problem.given[j] != 0:
        wanted = problem.ideals[j]
    else:
        wanted = present
    return into_bounds(wanted, problem.lower[j], problem.upper[j])


def lead_of(vector):
    """The lead column of a basis vector: its first entry that is not 0."""
    return next(j for j, entry in enumerate(vector) if entry != 0)


def seat(problem, basis, values):
    """“For N1 to Nr in order, with lead column c and lead p: let d be the ideal of
    c less the present value there; add floor((2d + p) / 2p) times the vector.”

    Returns the seated list, or None if it met “a value beyond ±M after a seating
    addition” (refusal 9)."""
    for vector in basis:
        c = lead_of(vector)
        p = vector[c]
        d = ideal(problem, c, values[c]) - values[c]
        times = nearest(d, p)
        values = [value + times * entry for value, entry in zip(values, vector)]
        if any(abs(value) > M for value in values):
            return None
    return values


# ----------------------------------------------------------- moves and settling

def move_names(r):
    """“Moves in order: +N1, −N1, +N2 and on; then the pairs s < t in rising (s, t),
    each as ++, +−, −+, −−.” A move's name is its one or two vectors, each as (vector,
    sign)."""
    for s in range(r):
        for sign in (1, -1):
            yield ((s, sign),)
    for s in range(r):
        for t in range(s + 1, r):
            for sign_s, sign_t in ((1, 1), (1, -1), (-1, 1), (-1, -1)):
                yield ((s, sign_s), (t, sign_t))


def move_named(basis, name):
    """What the move of this name adds to each column."""
    (s, sign), *second = name
    move = [sign * entry for entry in basis[s]]
    for t, sign in second:
        move = [a + sign * b for a, b in zip(move, basis[t])]
    return move


def moves_in_order(basis):
    """The moves in the order of their names."""
    return (move_named(basis, name) for name in move_names(len(basis)))


def changes_of(move):
    """A move as its changes: (column, change) for each column it changes."""
    return [(j, change) for j, change in enumerate(move) if change != 0]


def moves_by_column(basis, n):
    """For each column, in order, the moves that change it, as their changes."""
    by_column = [[] for _ in range(n)]
    for move in moves_in_order(basis):
        changes = changes_of(move)
        for j, _ in changes:
            by_column[j].append(changes)
    return by_column


def distance(problem, j, value):
    """“A column's distance is how far it lies outside its bounds.”"""
    return max(problem.lower[j] - value, value - problem.upper[j], 0)


def part_of(problem, values):
    """“Bounds part, while some distance is above 0”; “Goals part, once all distances
    are 0”."""
    outside = any(distance(problem, j, value) > 0 for j, value in enumerate(values))
    return BOUNDS if outside else GOALS


def compare_ratios(a, b):
    """“compared exactly by cross products”: below 0, 0 or above 0."""
    return a[0] * b[1] - b[0] * a[1]


def ratio(low, high, value):
    """Document 02, (v): “The ratio is the larger of 1000v/low and high/1000v”, for a “value
    v of 1 or more” - as a pair, numerator and denominator."""
    over, short = (1000 * value, low), (high, 1000 * value)
    return over if compare_ratios(over, short) >= 0 else short


def ratio_of(problem, j, value):
    """The ratio of column j, which has a goal, at a value."""
    return ratio(problem.low[j], problem.high[j], value)


def rank_by_distance(problem, values):
    """“Columns with a distance above 0, largest first, ties to the lower column.”"""
    distances = [distance(problem, j, value) for j, value in enumerate(values)]
    far = [j for j in range(problem.n) if distances[j] > 0]
    return sorted(far, key=lambda j: (-distances[j], j))


def rank_by_ratio(problem, values):
    """“Columns with a goal, largest ratio first, same ties.”"""
    wanted = [j for j in range(problem.n) if has_goal(problem.low[j])]
    ratios = {j: ratio_of(problem, j, values[j]) for j in wanted}

    def order(a, b):
        return compare_ratios(ratios[b], ratios[a]) or a - b

    return sorted(wanted, key=functools.cmp_to_key(order))


def improves_bounds(problem, values, changes, old):
    """“every column it changes then has a distance below i's old one, and every
    value lies within ±M”. Columns that are not changed lie within ±M already."""
    for j, change in changes:
        value = values[j] + change
        if distance(problem, j, value) >= old or abs(value) > M:
            return False
    return True


def improves_goals(problem, values, changes, old):
    """“all values are then in bounds, and every changed column with a goal has a
    ratio below i's old one”. Columns that are not changed are in bounds already."""
    for j, change in changes:
        value = values[j] + change
        if not problem.lower[j] <= value <= problem.upper[j]:
            return False
        if (has_goal(problem.low[j])
                and compare_ratios(ratio_of(problem, j, value), old) >= 0):
            return False
    return True


def bounds_step(problem, by_column, values):
    """“A step takes the first column with an improving move, and its first such
    move” - in the bounds part. None if no move improves."""
    for i in rank_by_distance(problem, values):
        old = distance(problem, i, values[i])
        for changes in by_column[i]:
            if improves_bounds(problem, values, changes, old):
                return changes
    return None


def goals_step(problem, by_column, values):
    """The same in the goals part."""
    for i in rank_by_ratio(problem, values):
        old = ratio_of(problem, i, values[i])
        for changes in by_column[i]:
            if improves_goals(problem, values, changes, old):
                return changes
    return None


def settle(problem, basis, values, stood=None):
    """“The limit covers both parts together.” Returns the verdict, the step counts
    of the two parts and the final values. The lists that stand in this run, the first
    and the one after each step, are added to stood where it is given."""
    by_column = moves_by_column(basis, problem.n)
    values = list(values)
    bounds_count = goals_count = 0
    while True:
        if stood is not None:
            stood.append(list(values))
        # “Bounds part, while some distance is above 0”; “Goals part, once all
        # distances are 0”. “Then the ranking is made anew.”
        outside = any(distance(problem, j, value) > 0
                      for j, value in enumerate(values))
        find_step = bounds_step if outside else goals_step
        changes = find_step(problem, by_column, values)
        # “FITTED: all in bounds and no move improves. OUTSIDE: some column out of
        # bounds and no move improves.”
        if changes is None:
            verdict = OUTSIDE if outside else FITTED
            return verdict, bounds_count, goals_count, values
        # “SPENT: limit reached and some move still improves.”
        if bounds_count + goals_count == problem.limit:
            return SPENT, bounds_count, goals_count, values
        for j, change in changes:
            values[j] += change
        if outside:
            bounds_count += 1
        else:
            goals_count += 1


# ------------------------------------------------------------------- the calls

def satisfies_rows(problem, values):
    """“in each row the coefficients times these numbers add up to the right side”."""
    n = problem.n
    for i in range(problem.m):
        row = problem.coefficients[i * n:(i + 1) * n]
        if sum(a * v for a, v in zip(row, values)) != problem.rights[i]:
            return False
    return True


def list_not_fit(problem, values):
    """“Continue: list beyond ±M or failing a row”."""
    return any(abs(value) > M for value in values) or not satisfies_rows(problem, values)


def refused(number):
    """“number, counts 0”, and document 02, (vii): “A refusal returns 0 rounds.”"""
    return number, 0, 0, 0


def finish(problem, lent, basis, values, rounds):
    """“A whole assignment or a Continue that isn't refused leaves the form in the
    tableau, the final values in the interval list and the strides in theirs.” “The rounds
    are counted and returned.”"""
    verdict, bounds_count, goals_count, final = settle(problem, basis, values)
    lent.values[:] = final
    lent.strides[:] = strides_of(basis, problem.n)
    return verdict, bounds_count, goals_count, sum(rounds)


def assign(problem, lent):
    """“A whole assignment is the tableau, the right side, seating and settling.”"""
    cause = first_cause(problem, lent)
    if cause:
        return refused(cause)
    table = fill(problem)
    try:
        leads, rounds = bring_to_form(table)
        start = starting_list(table, leads, problem.rights)
    except Beyond:
        # “tableau all 0, lists as before”
        lent.tableau[:] = [0] * len(lent.tableau)
        return refused(ELIMINATION_BEYOND)
    # “tableau the form”, from here on with a refusal as with a verdict
    lent.tableau[:] = flat(table)
    if start is None:
        return refused(NO_WHOLE_NUMBERS)
    basis = basis_of(table, leads, problem.m)
    seated = seat(problem, basis, start)
    if seated is None:
        return refused(SEATING_BEYOND)
    return finish(problem, lent, basis, seated, rounds)


def cont(problem, lent):
    """“Continue settles a lent list that satisfies the rows. It forms the tableau
    but takes neither the right-side step nor seating.”"""
    cause = first_cause(problem, lent)
    if cause:
        return refused(cause)
    if list_not_fit(problem, lent.values):
        return refused(LIST_NOT_FIT)
    table = fill(problem)
    try:
        leads, rounds = bring_to_form(table)
    except Beyond:
        lent.tableau[:] = [0] * len(lent.tableau)
        return refused(ELIMINATION_BEYOND)
    lent.tableau[:] = flat(table)
    basis = basis_of(table, leads, problem.m)
    return finish(problem, lent, basis, lent.values, rounds)


# ------------------------------------------------- document 02, (i): the next step

def preview_cause(problem, standing, lent):
    """“It equals Continue with limit 1 on a copy of the list, refusals included”: causes
    1 to 5 in their order. Both lists must have n numbers. A limit of 1 is never outside,
    so 6 is never given, whatever limit the problem holds."""
    if len(standing) != problem.n and not counts_outside(problem):
        return WRONG_LENGTH
    return cause_but_limit(problem, lent)


def next_step(problem, basis, values):
    """“A step takes the first column with an improving move, and its first such move”,
    with its names. None if no move improves."""
    moves = [(name, move_named(basis, name)) for name in move_names(len(basis))]
    part = part_of(problem, values)
    rank = rank_by_distance if part == BOUNDS else rank_by_ratio
    improves = improves_bounds if part == BOUNDS else improves_goals
    for i in rank(problem, values):
        if part == BOUNDS:
            old = distance(problem, i, values[i])
        else:
            old = ratio_of(problem, i, values[i])
        for name, move in moves:
            # “A move improves column i if it changes i”
            if move[i] != 0 and improves(problem, values, changes_of(move), old):
                return Step(part, i, name)
    return None


def list_after(basis, standing, step):
    """“the list after it”: the step's move is made once. It is the standing list where
    no move improves, as Continue leaves its copy then."""
    if step is None:
        return list(standing)
    return [value + change for value, change in
            zip(standing, move_named(basis, step.move))]


def preview(problem, standing, lent):
    """“Given a problem and a standing list, the preview names the part, the column, the
    move and the list after it, or says that no move improves.” The standing list is only
    read; the list after goes to lent.values.

    Returns (0, step, rounds), (0, None, rounds) where no move improves, or (number, None, 0)
    with the number of a refusal. The buffers are left as Continue with limit 1 leaves them,
    with a refusal the list after and the strides as before."""
    cause = preview_cause(problem, standing, lent)
    if cause:
        return cause, None, 0
    if list_not_fit(problem, standing):
        return LIST_NOT_FIT, None, 0
    table = fill(problem)
    try:
        leads, rounds = bring_to_form(table)
    except Beyond:
        lent.tableau[:] = [0] * len(lent.tableau)
        return ELIMINATION_BEYOND, None, 0
    basis = basis_of(table, leads, problem.m)
    step = next_step(problem, basis, standing)
    lent.tableau[:] = flat(table)
    lent.values[:] = list_after(basis, standing, step)
    lent.strides[:] = strides_of(basis, problem.n)
    return 0, step, sum(rounds)
