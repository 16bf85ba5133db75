"""Document 02, (vi), in the plain model: “Joining two parts.”

“From two problems and a list of pairs (column of the first, column of the second) make
one.” join(first, second, pairs, lent) does, and returns (the number of a refusal or 0, n, m);
first_share and second_share are the shares of a list of the joined problem.

A pair's columns are counted from 1, as a text counts intervals; the list of pairs holds
their numbers one after the other. Columns are counted from 0 in the code.
"""

import collections

from engine import (COUNTS_OUTSIDE, GOALS, MAX_COLUMNS, MAX_ROWS, PROBLEM_LISTS, WRONG_LENGTH,
                    Problem, has_goal, lists_wrong, part_of, problem_cause, satisfies_rows)

# “New: 14, a pair with a column outside or used before; 15, bounds of a pair that leave nothing”
PAIR_WRONG = 14
PAIR_BOUNDS = 15


class Column(collections.namedtuple("Column", ["lower", "upper", "low", "high", "given",
                                               "ideal"])):
    """A column's record: its bounds, its goals, whether an ideal is handed in, and which."""


def column_of(problem, j):
    return Column(problem.lower[j], problem.upper[j], problem.low[j], problem.high[j],
                  problem.given[j], problem.ideals[j])


# ------------------------------------------------------------------------- refusals

def two_by_two(pairs):
    """The pairs of a list of even length."""
    return list(zip(pairs[::2], pairs[1::2]))


def shared_bounds(one, other):
    """“A shared column takes the larger lower and the smaller upper bound”."""
    return max(one.lower, other.lower), min(one.upper, other.upper)


def pair_cause(first, second, before, pair):
    """“14, a pair with a column outside or used before; 15, bounds of a pair that leave
    nothing; ... 14 first within a pair”. before holds the pairs before this one."""
    i, j = pair
    if not 1 <= i <= first.n or not 1 <= j <= second.n:
        return PAIR_WRONG
    if any(i == used or j == also for used, also in before):
        return PAIR_WRONG
    lower, upper = shared_bounds(column_of(first, i - 1), column_of(second, j - 1))
    return PAIR_BOUNDS if lower > upper else 0


def pairs_cause(first, second, pairs):
    """“then 2 for a pair list of odd length, and in pair order”: 14 and 15."""
    if len(pairs) % 2 == 1:
        return WRONG_LENGTH
    every = two_by_two(pairs)
    for at, pair in enumerate(every):
        cause = pair_cause(first, second, every[:at], pair)
        if cause:
            return cause
    return 0


def joined_sizes(first, second, pairs):
    """The counts of columns and rows: a shared column counts once, and “the rows of both”."""
    return first.n + second.n - len(two_by_two(pairs)), first.m + second.m


def join_cause(first, second, pairs, lent):
    """“both after 1 to 5 of the first part, then the second's, then 2 for a pair list of odd
    length, and in pair order ...; then 1 for a joined size beyond 48, and last 2 for the
    joined problem's buffers”. The first of these that holds, 0 if none does."""
    cause = (problem_cause(first) or problem_cause(second)
             or pairs_cause(first, second, pairs))
    if cause:
        return cause
    n, m = joined_sizes(first, second, pairs)
    if n > MAX_COLUMNS or m > MAX_ROWS:
        return COUNTS_OUTSIDE
    lists = [getattr(lent, name) for name in PROBLEM_LISTS]
    return WRONG_LENGTH if lists_wrong(Problem(n, m, *lists, None)) else 0


# ---------------------------------------------------------------- the joined problem

def joined_columns(first, second, pairs):
    """“the first's columns, then the second's unshared ones in order”. Each is told by its
    column of the first and its column of the second, None where it has none."""
    partner = {i - 1: j - 1 for i, j in two_by_two(pairs)}
    columns = [(i, partner.get(i)) for i in range(first.n)]
    columns += [(None, j) for j in range(second.n) if j not in partner.values()]
    return columns


def shared_goals(one, other):
    """“the lowest low and the highest high goal; where one has no goal, the other's are
    taken”."""
    if not has_goal(one.low):
        return other.low, other.high
    if not has_goal(other.low):
        return one.low, one.high
    return min(one.low, other.low), max(one.high, other.high)


def shared_ideal(one, other):
    """“A set ideal comes along with its column, the first's where both have one”: the mark
    and the number as they are, beside a goal too. Where neither has one, what stands in the
    second's lists comes along, which is a mark of 0 and a number that nothing uses."""
    if one.given != 0:
        return one.given, one.ideal
    return other.given, other.ideal


def joined_column(first, second, i, j):
    """The record of one column: an unshared one has its own, as it is."""
    if j is None:
        return column_of(first, i)
    if i is None:
        return column_of(second, j)
    one, other = column_of(first, i), column_of(second, j)
    return Column(*shared_bounds(one, other), *shared_goals(one, other),
                  *shared_ideal(one, other))


def placed(row, columns, part):
    """A part's row over the joined columns, 0 at those that are not the part's. part is 0
    for the first and 1 for the second."""
    return [0 if column[part] is None else row[column[part]] for column in columns]


def rows_of(problem):
    n = problem.n
    return [problem.coefficients[i * n:(i + 1) * n] for i in range(problem.m)]


def joined(first, second, pairs, limit=None):
    """The joined problem of two parts and pairs that are not refused. It has no step limit of
    its own."""
    columns = joined_columns(first, second, pairs)
    # “the rows of both, the first's first”
    rows = [placed(row, columns, 0) for row in rows_of(first)]
    rows += [placed(row, columns, 1) for row in rows_of(second)]
    records = [joined_column(first, second, i, j) for i, j in columns]
    return Problem(len(columns), len(rows), [a for row in rows for a in row],
                   first.rights + second.rights, *map(list, zip(*records)), limit)


# ---------------------------------------------------------------------------- shares

def share(columns, part, values):
    """A part's numbers of a list, in the order of the part's columns."""
    own = {column[part]: value for column, value in zip(columns, values)
           if column[part] is not None}
    return [own[j] for j in range(len(own))]


def first_share(first, second, pairs, values):
    """“A list satisfies the joined rows and bounds exactly when its two shares satisfy their
    own”: of a list of the joined problem, the numbers at the first's columns."""
    return share(joined_columns(first, second, pairs), 0, values)


def second_share(first, second, pairs, values):
    """The same of the second."""
    return share(joined_columns(first, second, pairs), 1, values)


def satisfies(problem, values):
    """Whether a list “satisfies the ... rows and bounds” of a problem."""
    return satisfies_rows(problem, values) and part_of(problem, values) == GOALS


# -------------------------------------------------------------------------- the call

def join(first, second, pairs, lent):
    """Joins two parts into the lent lists, which are named as a problem's. “number and counts
    0 returned, all buffers as before” with a refusal."""
    cause = join_cause(first, second, pairs, lent)
    if cause:
        return cause, 0, 0
    made = joined(first, second, pairs)
    for name in PROBLEM_LISTS:
        getattr(lent, name)[:] = getattr(made, name)
    return 0, made.n, made.m
