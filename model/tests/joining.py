"""Document 02, (vi), “Joining two parts”: the joined problem sentence by sentence, its shares by
trying every list of a box, each refusal and which of two is named, and wrong answers that are
told apart.
"""

import itertools

import joins
from engine import PROBLEM_LISTS, Problem, problem_cause
from generate import BIGGEST, SMALLEST, rng_for
from joining import first_share, join, joined, joined_columns, satisfies, second_share
from joins import Join
from tests.tools import check, make, test

MOST = 1000000000


def part(columns, rows=(), rights=None):
    """A part of columns, each as lower, upper, low, high, given and ideal, of which the last
    ones may be left out."""
    full = [tuple(column) + (0,) * (6 - len(column)) for column in columns]
    return Problem(len(full), len(rows), [a for row in rows for a in row],
                   list(rights or [0] * len(rows)), *map(list, zip(*full)), None)


def lists_for(n, m):
    """Lent lists for so many columns and rows, full of marks."""
    return Problem(n, m, *[[777] * length for length in joins.lengths(n, m).values()], None)


def lists_of(problem):
    return [list(getattr(problem, name)) for name in PROBLEM_LISTS]


def numbers_of(case):
    """Copies of all buffers of a join, the lent lists the last."""
    return [lists_of(case.first), lists_of(case.second), list(case.pairs), lists_of(case.lent)]


def columns_of(problem):
    """The records of all columns, each with its six numbers."""
    return list(zip(*lists_of(problem)[2:]))


def rows_of(problem):
    n = problem.n
    return [problem.coefficients[i * n:(i + 1) * n] for i in range(problem.m)]


def made(first, second, pairs):
    """The joined problem by the call on lent lists."""
    n, m = first.n + second.n - len(pairs) // 2, first.m + second.m
    lent = lists_for(n, m)
    check("a join is made", join(first, second, pairs, lent), (0, n, m))
    return lent


# ------------------------------------------------------- columns and rows, by hand

A, B, C, D, E = [(k, 90 + k) for k in (1, 2, 3, 4, 5)]

# What is shown, the rows of both parts over A, B, C and over D, E, the pairs, and the joined
# rows.
ORDERS = [
    # “the first's columns, then the second's unshared ones in order; the rows of both, the
    # first's first”
    ("no pair", [[1, 2, 3]], [[4, 5]], [], [[1, 2, 3, 0, 0], [0, 0, 0, 4, 5]]),
    ("the last with the first", [[1, 2, 3]], [[4, 5]], [3, 1], [[1, 2, 3, 0], [0, 0, 4, 5]]),
    ("the first with the first", [[1, 2, 3]], [[4, 5]], [1, 1], [[1, 2, 3, 0], [4, 0, 0, 5]]),
    ("the first with the last", [[1, 2, 3]], [[4, 5]], [1, 2], [[1, 2, 3, 0], [5, 0, 0, 4]]),
    ("all of the second", [[1, 2, 3]], [[4, 5]], [1, 1, 2, 2], [[1, 2, 3], [4, 5, 0]]),
    ("crosswise", [[1, 2, 3]], [[4, 5]], [1, 2, 2, 1], [[1, 2, 3], [5, 4, 0]]),
    ("crosswise, in the other order", [[1, 2, 3]], [[4, 5]], [2, 1, 1, 2],
     [[1, 2, 3], [5, 4, 0]]),
    ("no row of the first", [], [[4, 5], [6, 7]], [2, 2], [[0, 5, 0, 4], [0, 7, 0, 6]]),
    ("no row of the second", [[1, 2, 3]], [], [2, 2], [[1, 2, 3, 0]]),
    ("no row", [], [], [2, 1], []),
    ("several rows", [[1, 2, 3], [-1, 0, 0]], [[4, 5], [0, -1]], [2, 1],
     [[1, 2, 3, 0], [-1, 0, 0, 0], [0, 4, 0, 5], [0, 0, 0, -1]]),
]


@test
def joined_rows_by_hand():
    for what, over_three, over_two, pairs, wanted in ORDERS:
        rights = [10 + k for k in range(len(over_three))], [20 + k for k in range(len(over_two))]
        first = part([A, B, C], over_three, rights[0])
        second = part([D, E], over_two, rights[1])
        got = made(first, second, pairs)
        check("rows: " + what, rows_of(got), wanted)
        check("right sides: " + what, got.rights, rights[0] + rights[1])


@test
def joined_columns_by_hand():
    """Every column is told by its lower bound; those of the second are the larger."""
    first, second = part([A, B, C]), part([(k, 90) for k in (11, 12, 13, 14)])
    for pairs, lower in (([], [1, 2, 3, 11, 12, 13, 14]), ([1, 1], [11, 2, 3, 12, 13, 14]),
                         ([1, 4], [14, 2, 3, 11, 12, 13]), ([3, 2], [1, 2, 12, 11, 13, 14]),
                         ([3, 2, 1, 4], [14, 2, 12, 11, 13]),
                         ([1, 4, 2, 3, 3, 2], [14, 13, 12, 11]),
                         ([2, 3, 3, 2, 1, 4], [14, 13, 12, 11])):
        check("columns by %r" % pairs, made(first, second, pairs).lower, lower)
    other = [(k, 90) for k in (11, 12, 13, 14)]
    check("all shared", made(part(other), part([A, B, C]), [4, 1, 3, 2, 1, 3]).lower,
          [11, 12, 13, 14])


# What is shown, a column of the first, one of the second, and the shared one.
SHARED = [
    # “the larger lower and the smaller upper bound”
    ("both of the first", (3, 5), (1, 9), (3, 5)), ("both of the second", (1, 9), (3, 5), (3, 5)),
    ("lower of the first", (3, 9), (1, 5), (3, 5)), ("upper of the first", (1, 5), (3, 9), (3, 5)),
    ("bounds that meet", (1, 4), (4, 9), (4, 4)), ("that meet from above", (4, 9), (1, 4), (4, 4)),
    ("bounds below 0", (-9, -2), (-5, 3), (-5, -2)), ("the same bounds", (2, 7), (2, 7), (2, 7)),
    ("the widest", (-1000000, 1000000), (-1000000, 1000000), (-1000000, 1000000)),
    # “the lowest low and the highest high goal”
    ("low of the first", (1, 9, 2, 5), (1, 9, 3, 7), (1, 9, 2, 7)),
    ("low of the second", (1, 9, 3, 7), (1, 9, 2, 5), (1, 9, 2, 7)),
    ("both of the first's goals", (1, 9, 2, 8), (1, 9, 3, 7), (1, 9, 2, 8)),
    ("both of the second's goals", (1, 9, 3, 7), (1, 9, 2, 8), (1, 9, 2, 8)),
    ("equal goals apart", (1, 9, 5, 5), (1, 9, 4, 4), (1, 9, 4, 5)),
    ("the least and the greatest goal", (1, 9, 1, 1), (1, 9, MOST, MOST), (1, 9, 1, MOST)),
    # “where one has no goal, the other's are taken”
    ("no goal of the second", (1, 9, 2, 5), (1, 9, 0, 0), (1, 9, 2, 5)),
    ("no goal of the first", (1, 9, 0, 0), (1, 9, 2, 5), (1, 9, 2, 5)),
    ("no goal", (0, 9, 0, 0), (-3, 9, 0, 0), (0, 9, 0, 0)),
    ("a lower bound below 1 without a goal", (-3, 9), (1, 9, 2, 5), (1, 9, 2, 5)),
    # “A set ideal comes along with its column, the first's where both have one.”
    ("ideals of both", (1, 9, 0, 0, 1, 4), (1, 9, 0, 0, 1, 6), (1, 9, 0, 0, 1, 4)),
    ("an ideal of the first", (1, 9, 0, 0, 1, 4), (1, 9, 0, 0, 0, 6), (1, 9, 0, 0, 1, 4)),
    ("an ideal of the second", (1, 9, 0, 0, 0, 4), (1, 9, 0, 0, 1, 6), (1, 9, 0, 0, 1, 6)),
    ("the ideal 0 of the first", (1, 9, 0, 0, 1, 0), (1, 9, 0, 0, 1, 6), (1, 9, 0, 0, 1, 0)),
    ("the ideal 0 of the second", (1, 9, 0, 0, 0, 4), (1, 9, 0, 0, 1, 0), (1, 9, 0, 0, 1, 0)),
    ("no ideal", (1, 9, 0, 0, 0, 4), (1, 9, 0, 0, 0, 6), (1, 9, 0, 0, 0, 6)),
    ("marks as they are", (1, 9, 0, 0, -7, 4), (1, 9, 0, 0, 2, 6), (1, 9, 0, 0, -7, 4)),
    ("the second's mark", (1, 9, 0, 0, 0, 4), (1, 9, 0, 0, BIGGEST, 6), (1, 9, 0, 0, BIGGEST, 6)),
    ("ideals far out", (1, 9, 0, 0, SMALLEST, BIGGEST), (1, 9), (1, 9, 0, 0, SMALLEST, BIGGEST)),
    ("an ideal outside the bounds", (3, 9, 0, 0, 1, 2), (5, 7), (5, 7, 0, 0, 1, 2)),
    ("an ideal beside the other's goals", (1, 9, 2, 5), (1, 9, 0, 0, 1, 6), (1, 9, 2, 5, 1, 6)),
    ("an ideal beside its own goals", (1, 9, 2, 5, 3, 8), (1, 9), (1, 9, 2, 5, 3, 8)),
]


@test
def shared_columns_by_hand():
    for what, one, other, wanted in SHARED:
        full = tuple(wanted) + (0,) * (6 - len(wanted))
        check("a shared column: " + what, columns_of(made(part([one]), part([other]), [1, 1])),
              [full])
        # an unshared column in front of each, which keeps its own record
        alone, beside = (2, 8, 3, 4, 5, 6), (-7, 8, 0, 0, 0, 9)
        got = made(part([alone, one]), part([beside, other]), [2, 2])
        check("among others: " + what, columns_of(got), [alone, full, beside])


@test
def parts_are_only_read():
    for case in joins.joins(600, 71):
        before = numbers_of(case)
        number, n, m = case.run()
        after = numbers_of(case)
        check("parts and pairs as before", after[:3], before[:3])
        if number:
            check("counts 0, lent lists as before", (n, m, after), (0, 0, before))


# ---------------------------------------------------------------------------- shares

def box_join(rng):
    """A small join about a hidden list with bounds of few numbers, so that lists of a small
    box satisfy both parts, one of them, or none."""
    n = rng.choice([(1, 1), (1, 2), (2, 1), (2, 2), (2, 2), (3, 1), (2, 3), (3, 3)])
    shared = rng.randint(max(0, sum(n) - 4), min(n))
    pairs = joins.random_pairs(rng, n, shared)
    hidden = [rng.randint(0, 2) for _ in range(n[0])]
    share = joins.other_share(hidden, pairs, n[1], rng, 0, 2)
    parts = []
    for own in (hidden, share):
        rows = [[rng.choice([-1, 0, 1, 1, 2]) for _ in own]
                for _ in range(rng.choice([0, 1, 1, 2]))]
        rights = [sum(a * v for a, v in zip(row, own)) for row in rows]
        bounds = [(value - rng.randint(0, 2), value + rng.randint(0, 2)) for value in own]
        parts.append(part(bounds, rows, rights))
    return parts[0], parts[1], pairs


def plain_places(first, second, pairs):
    """Where each column of the second stands: at its partner, or behind the first's columns
    and the unshared ones before it."""
    places, behind = [], first.n
    for j in range(1, second.n + 1):
        partners = [pairs[at] for at in range(0, len(pairs), 2) if pairs[at + 1] == j]
        places.append(partners[0] - 1 if partners else behind)
        behind += not partners
    return places


def plain_satisfies(problem, values):
    return (all(sum(a * v for a, v in zip(row, values)) == right
                for row, right in zip(rows_of(problem), problem.rights))
            and all(problem.lower[j] <= v <= problem.upper[j] for j, v in enumerate(values)))


@test
def shares_by_every_list_of_a_box():
    """“A list satisfies the joined rows and bounds exactly when its two shares satisfy their
    own.”"""
    met = {(one, other): 0 for one in (True, False) for other in (True, False)}
    for number in range(150):
        first, second, pairs = box_join(rng_for(72, number))
        whole = made(first, second, pairs)
        places = plain_places(first, second, pairs)
        wrong = 0
        for values in itertools.product(range(-1, 4), repeat=whole.n):
            one, other = list(values[:first.n]), [values[place] for place in places]
            own = plain_satisfies(first, one), plain_satisfies(second, other)
            met[own] += 1
            wrong += (first_share(first, second, pairs, values) != one
                      or second_share(first, second, pairs, values) != other
                      or plain_satisfies(whole, values) != all(own)
                      or satisfies(whole, values) != all(own))
        check("lists whose shares tell otherwise", wrong, 0)
    for (one, other), count in met.items():
        check("lists that satisfy the first %s, the second %s: %d" % (one, other, count),
              count >= 300, True)


@test
def joined_problems_are_problems():
    """A join that is made passes causes 1 to 5, whatever the parts hold."""
    counts = {"goals": 0, "goals beside a lower bound below 1": 0}
    for case in joins.joins(1500, 73):
        number, n, m = case.run()
        if number:
            continue
        whole = joined(case.first, case.second, case.pairs)
        check("what is lent and the joined problem", (n, m, lists_of(case.lent)),
              (whole.n, whole.m, lists_of(whole)))
        check("causes 1 to 5 of a joined problem", problem_cause(whole), 0)
        counts["goals"] += any(whole.low)
        counts["goals beside a lower bound below 1"] += any(
            i is not None and j is not None and (case.first.low[i] or case.second.low[j])
            and min(case.first.lower[i], case.second.lower[j]) < 1
            for i, j in joined_columns(case.first, case.second, case.pairs))
    for what, count in counts.items():
        check("joined problems with %s, %d" % (what, count), count >= 50, True)


# -------------------------------------------------------------------------- refusals

def sound_parts():
    """Two parts whose causes can be spoilt: v1 + v2 + v3 = 9 and v1 - v2 = 0."""
    return (make(3, [[1, 1, 1]], [9], (1, 9), [2000, 0, 3000]),
            make(2, [[1, -1]], [0], (1, 9), [0, 4000]))


def check_refused(what, case, number):
    """A refusal: its number, counts 0, and every buffer as before."""
    before = numbers_of(case)
    check(what, case.run(), (number, 0, 0))
    check(what + ": what is left", numbers_of(case), before)


def sound_join(pairs=(3, 1), n=None, m=2):
    """A join that would be made; n and m are those of the lent lists."""
    lent = lists_for(5 - len(pairs) // 2 if n is None else n, m)
    return Join(*sound_parts(), list(pairs), lent)


# A number of a part that breaks cause 3, 4 or 5.
SPOILT = [(3, "coefficients", 1001), (3, "rights", -1000001), (4, "lower", 10), (4, "upper", 0),
          (4, "upper", 1000001), (5, "low", 1), (5, "high", MOST + 1), (5, "lower", 0)]


@test
def refusals_of_the_parts():
    for name in ("first", "second"):
        for n, m in ((0, 1), (49, 1), (3, 49), (2 ** 32, 2 ** 32)):
            case = sound_join()
            getattr(case, name).n, getattr(case, name).m = n, m
            check_refused("%s part, n %d, m %d" % (name, n, m), case, 1)
        for which in PROBLEM_LISTS:
            for change in (-1, 1):
                case = sound_join()
                numbers = getattr(getattr(case, name), which)
                numbers[:] = numbers + [0] if change == 1 else numbers[:-1]
                check_refused("%s part, %s by %+d" % (name, which, change), case, 2)
        for number, which, value in SPOILT:
            case = sound_join()
            spoilt = getattr(case, name)
            # a column that has goals, where there is a choice
            at = len(getattr(spoilt, which)) - 1 if spoilt.low[-1] else 0
            if which in ("low", "high"):
                at = 1 if name == "first" else 0
            getattr(spoilt, which)[at] = value
            check_refused("%s part, %s %d" % (name, which, value), case, number)


# The list of pairs and the refusal, of parts with 3 and 2 columns.
PAIRS = [
    # “14, a pair with a column outside”: columns count from 1
    ([0, 1], 14), ([1, 0], 14), ([0, 0], 14), ([4, 1], 14), ([1, 3], 14), ([4, 3], 14),
    ([2 ** 64 - 1, 1], 14), ([1, 2 ** 64 - 1], 14), ([2 ** 63, 1], 14), ([1, 1, 0, 2], 14),
    ([1, 1, 2, 0], 14), ([1, 1, 4, 2], 14), ([1, 1, 2, 3], 14),
    # “or used before”
    ([1, 1, 1, 2], 14), ([1, 1, 2, 1], 14), ([1, 1, 1, 1], 14), ([3, 2, 1, 1, 3, 1], 14),
    ([3, 2, 1, 1, 2, 2], 14),
    # more pairs than columns
    ([1, 1, 2, 2, 3, 1], 14), ([1, 1, 2, 2, 3, 2], 14), ([1, 1, 2, 2, 3, 3], 14),
    # “2 for a pair list of odd length”
    ([1], 2), ([0], 2), ([1, 1, 2], 2), ([1, 1, 1, 1, 1], 2), ([2 ** 64 - 1], 2),
    # none of them: a column of the first may be as a column of the second
    ([], 0), ([3, 2], 0), ([1, 2, 2, 1], 0), ([2, 1, 3, 2], 0), ([1, 2], 0), ([3, 1, 1, 2], 0),
]


@test
def refusals_of_pairs():
    for pairs, number in PAIRS:
        case = sound_join(pairs)
        if number:
            check_refused("pairs %r" % pairs, case, number)
        else:
            check("pairs %r" % pairs, case.run()[0], 0)


@test
def refusal_15():
    """“bounds of a pair that leave nothing”."""
    for one, other, number in (((1, 4), (5, 9), 15), ((5, 9), (1, 4), 15), ((1, 4), (4, 9), 0),
                               ((4, 9), (1, 4), 0), ((-9, -2), (-1, 3), 15), ((2, 2), (3, 3), 15),
                               ((-1000000, -1000000), (1000000, 1000000), 15), ((0, 9), (3, 3), 0)):
        for front in ([], [1, 1]):
            first, second = part([(1, 9), one]), part([(1, 9), other])
            pairs = front + [2, 2]
            case = Join(first, second, pairs, lists_for(4 - len(pairs) // 2, 0))
            what = "bounds %r and %r" % (one, other)
            if number:
                check_refused(what, case, 15)
            else:
                check(what, case.run()[0], 0)
    # bounds apart at columns that are no pair
    case = Join(part([(1, 4), (1, 4)]), part([(5, 9), (1, 4)]), [1, 2], lists_for(3, 0))
    check("bounds apart at unshared columns", case.run(), (0, 3, 0))


def wide(n, m):
    """A part of so many columns and rows of zeros."""
    return make(n, [[0] * n] * m, [0] * m, (1, 9))


@test
def refusal_1_of_the_joined_size():
    for n, m, pairs, number in (((24, 24), (0, 0), 0, 0), ((24, 25), (0, 0), 0, 1),
                                ((24, 25), (0, 0), 1, 0), ((48, 48), (0, 0), 48, 0),
                                ((48, 48), (0, 0), 47, 1), ((48, 1), (0, 0), 0, 1),
                                ((48, 1), (0, 0), 1, 0), ((1, 48), (0, 0), 0, 1),
                                ((1, 1), (24, 24), 0, 0), ((1, 1), (24, 25), 0, 1),
                                ((1, 1), (48, 0), 1, 0), ((1, 1), (0, 48), 1, 0),
                                ((1, 1), (48, 1), 1, 1), ((1, 1), (1, 48), 1, 1),
                                ((48, 48), (48, 48), 0, 1), ((24, 24), (24, 24), 0, 0)):
        shared = [k for j in range(1, pairs + 1) for k in (j, j)]
        sizes = sum(n) - pairs, sum(m)
        case = Join(wide(n[0], m[0]), wide(n[1], m[1]), shared, lists_for(*sizes))
        what = "columns %r, rows %r, %d pairs" % (n, m, pairs)
        if number:
            check_refused(what, case, 1)
        else:
            check(what, case.run(), (0, *sizes))


@test
def refusal_2_of_the_joined_lists():
    for name in PROBLEM_LISTS:
        for change in (-1, 1, 2, "none"):
            case = sound_join()
            numbers = getattr(case.lent, name)
            numbers[:] = [] if change == "none" else (numbers + [7, 7])[:len(numbers) + change]
            check_refused("joined %s, %s" % (name, change), case, 2)
    for n, m in ((5, 2), (3, 2), (4, 1), (4, 3), (2, 4), (0, 0), (48, 48)):
        check_refused("joined lists for %d and %d" % (n, m), sound_join(n=n, m=m), 2)


# Each spoils one more thing of a join at a time, whose cause comes before those already there,
# and tells what is to be seen and the number.
def spoil_pairs_and_later(case):
    case.lent.rights.append(7)
    yield "2 of the joined lists", 2
    case.second.m = 48
    case.second.coefficients = [0] * 96
    case.second.rights = [0] * 48
    yield "1 before 2 of the joined lists", 1
    case.second.lower[1], case.second.upper[1] = 10, 11
    case.pairs += [2, 2]
    yield "15 before 1 of the size", 15
    case.pairs += [0, 1]
    yield "15 before a later pair's 14", 15
    case.pairs[0] = 2
    yield "14 before 15 of its own pair", 14
    case.pairs[0] = 4
    yield "14 before a later pair's 15", 14
    case.pairs.append(1)
    yield "2 of an odd list before 14", 2


def spoil_parts(case):
    # beside each, a column without a goal
    for name, part, j, later in (("second", case.second, 0, "2 of an odd list"),
                                 ("first", case.first, 1, "1 of the second")):
        part.high[j] = 1
        yield "5 of the %s before %s" % (name, later), 5
        part.upper[0] = 0
        yield "4 before 5 of the %s" % name, 4
        part.rights[0] = 1000001
        yield "3 before 4 of the %s" % name, 3
        part.given.append(0)
        yield "2 before 3 of the %s" % name, 2
        part.m = 49
        yield "1 before 2 of the %s" % name, 1


@test
def order_of_refusals():
    """Each cause is added before those that are there, and is then the one named."""
    case = sound_join()
    for spoil in (spoil_pairs_and_later, spoil_parts):
        for what, number in spoil(case):
            check_refused(what, case, number)


@test
def order_within_pairs():
    """Columns 1 and 2 of the first have bounds apart from column 2 of the second."""
    parts = part([(1, 4), (1, 4), (1, 9)]), part([(1, 9), (5, 9)])
    for pairs, number in (([1, 2], 15), ([1, 1, 1, 2], 14), ([3, 2, 1, 2], 14), ([1, 2, 1, 2], 15),
                          ([1, 2, 0, 1], 15), ([0, 1, 1, 2], 14), ([3, 1, 1, 2, 3, 1], 15),
                          ([3, 1, 3, 1, 1, 2], 14), ([1, 2, 9], 2), ([1, 1, 4, 2, 2, 2], 14)):
        case = Join(*parts, pairs, lists_for(5 - len(pairs) // 2, 0))
        check_refused("pairs %r" % pairs, case, number)


# ------------------------------------------------------------- word by word, and wrong

# What is looked at, in this order.
ORDER = ["first", "second", "odd", "pairs", "size", "lists"]


def plain_pairs(first, second, pairs, bounds_first=False, all_first=False, used=(True, True),
                least=1):
    """The refusal of the pairs, 0 if there is none. The wrong answers have other settings."""
    seen, found = (set(), set()), []
    for at in range(0, len(pairs) - 1, 2):
        pair = pairs[at:at + 2]
        if not all(least <= column <= part.n for column, part in zip(pair, (first, second))):
            found.append(14)
            continue
        i, j = pair[0] - 1, pair[1] - 1
        again = any(judged and column in before
                    for judged, column, before in zip(used, pair, seen))
        nothing = (first.lower[i] > second.upper[j] or second.lower[j] > first.upper[i])
        if again or nothing:
            found.append(15 if nothing and (bounds_first or not again) else 14)
        for column, before in zip(pair, seen):
            before.add(column)
    if all_first and 14 in found:
        return 14
    return found[0] if found else 0


def plain_refusal(case, order=ORDER, **settings):
    """The refusal of a join, 0 if there is none, by what is looked at in order."""
    first, second, pairs = case.first, case.second, case.pairs
    n, m = first.n + second.n - len(pairs) // 2, first.m + second.m
    got = [len(numbers) for numbers in lists_of(case.lent)]
    looks = {"first": lambda: problem_cause(first), "second": lambda: problem_cause(second),
             "odd": lambda: 2 * (len(pairs) % 2),
             "pairs": lambda: plain_pairs(first, second, pairs, **settings),
             "size": lambda: int(n > 48 or m > 48),
             "lists": lambda: 0 if got == [n * m, m, n, n, n, n, n, n] else 2}
    return next((number for number in (looks[look]() for look in order) if number), 0)


def plain_column(one, other, union=False, lowest_high=False, highest_low=False, dropped=False,
                 second_ideal=False, marked=False):
    """A shared column of two records. The wrong answers have other settings."""
    lower = (min if union else max)(one[0], other[0])
    upper = (max if union else min)(one[1], other[1])
    wishes = [record[2:4] for record in (one, other) if record[2] > 0]
    low, high = 0, 0
    if len(wishes) == 2 or wishes and not dropped:
        low = (max if highest_low else min)(low for low, _ in wishes)
        high = (min if lowest_high else max)(high for _, high in wishes)
    handed = [record[4:] for record in (one, other) if record[4] != 0] or [other[4:]]
    given, ideal = handed[-1 if second_ideal else 0]
    return lower, upper, low, high, 1 if marked and given else given, ideal


def plain_lists(case, rows_last=False, backwards=False, **settings):
    """The lists of a join that is made, by the places of the second's columns."""
    first, second = case.first, case.second
    places = plain_places(first, second, case.pairs)
    n = first.n + second.n - len(case.pairs) // 2
    if backwards:
        # the unshared ones from the last
        places = [place if place < first.n else n - 1 + first.n - place for place in places]
    columns = columns_of(first) + [None] * (n - first.n)
    for place, record in zip(places, columns_of(second)):
        old = columns[place]
        columns[place] = record if old is None else plain_column(old, record, **settings)
    ours = [row + [0] * (n - first.n) for row in rows_of(first)]
    theirs = [[sum(a for a, place in zip(row, places) if place == k) for k in range(n)]
              for row in rows_of(second)]
    rows, rights = ours + theirs, first.rights + second.rights
    if rows_last:
        rows, rights = theirs + ours, second.rights + first.rights
    return [[a for row in rows for a in row], rights, *map(list, zip(*columns))]


def swapped(one, other):
    """The order with two things exchanged."""
    at = {one: other, other: one}
    return {"order": [at.get(look, look) for look in ORDER]}


WRONG_REFUSALS = [
    ("15 before 14 within a pair", {"bounds_first": True}),
    ("every 14 before each 15", {"all_first": True}),
    ("1 before the pairs are looked at", swapped("pairs", "size")),
    ("2 of the joined lists before 1", swapped("size", "lists")),
    ("2 of the joined lists before the pairs",
     {"order": ["first", "second", "odd", "lists", "pairs", "size"]}),
    ("an odd list after the pairs", swapped("odd", "pairs")),
    ("an odd list before the second part", swapped("second", "odd")),
    ("the second part before the first", swapped("first", "second")),
    ("an odd list passes", {"order": [look for look in ORDER if look != "odd"]}),
    ("a column of the first may be used twice", {"used": (False, True)}),
    ("a column of the second may be used twice", {"used": (True, False)}),
    ("the column 0 passes", {"least": 0}),
]
WRONG_LISTS = [
    ("the union of the bounds", {"union": True}),
    ("the lowest high goal", {"lowest_high": True}),
    ("the highest low goal", {"highest_low": True}),
    ("no goal where one has none", {"dropped": True}),
    ("the second's ideal first", {"second_ideal": True}),
    ("1 for every mark", {"marked": True}),
    ("the second's rows first", {"rows_last": True}),
    ("unshared columns out of order", {"backwards": True}),
]


def answer_of(case):
    """What the model answers and leaves."""
    number, n, m = case.run()
    check("counts with the number %d" % number, (n, m),
          (0, 0) if number else (len(case.lent.lower), len(case.lent.rights)))
    return number, lists_of(case.lent)


def check_told_apart(what, found, least):
    check("wrong and told apart: %s, %d times" % (what, found), found >= least, True)


@test
def property_joins_word_by_word():
    """The model's joins are those by places and by single looks; each wrong answer shows."""
    cases = list(joins.joins(4000, 74))
    numbers = [plain_refusal(case) for case in cases]
    for case, number in zip(cases, numbers):
        wanted = plain_lists(case) if number == 0 else lists_of(case.lent)
        check("a join word by word", answer_of(case), (number, wanted))
    for what, settings in WRONG_REFUSALS:
        check_told_apart(what, sum(plain_refusal(case, **settings) != number
                                   for case, number in zip(cases, numbers)), 15)
    made_ones = [case for case, number in zip(cases, numbers) if number == 0]
    right = [plain_lists(case) for case in made_ones]
    for what, settings in WRONG_LISTS:
        check_told_apart(what, sum(plain_lists(case, **settings) != wanted
                                   for case, wanted in zip(made_ones, right)), 100)


@test
def wrong_columns_show_by_hand():
    columns = [[tuple(column) + (0,) * (6 - len(column)) for column in case[1:]]
               for case in SHARED]
    for one, other, wanted in columns:
        check("a shared column word by word", plain_column(one, other), wanted)
    for what, settings in WRONG_LISTS[:6]:
        check_told_apart(what + ", by hand", sum(plain_column(one, other, **settings) != wanted
                                                 for one, other, wanted in columns), 2)


# --------------------------------------------------------------------- the generator

@test
def generator_makes_joins():
    """The same for the same seed; every kind often enough to tell; an undamaged join is
    refused only where it is too large."""
    def all_of(cases):
        return [numbers_of(case) for case in cases]

    check("same joins", all_of(joins.joins(50, 5)) == all_of(joins.joins(50, 5)), True)
    check("other joins", all_of(joins.joins(50, 5)) == all_of(joins.joins(50, 6)), False)
    met = joins.kinds_met(joins.joins(4000, 75))
    check("kinds", list(met), joins.KINDS)
    for kind, count in met.items():
        check("joins: %s, %d times" % (kind, count), count >= 10, True)
    numbers = {0: 0, 1: 0}
    for number in range(500):
        case = joins.valid_join(rng_for(76, number))
        answer = case.run()[0]
        numbers[answer] = numbers.get(answer, 0) + 1
    check("undamaged joins", sorted(numbers), [0, 1])
    check("undamaged joins that are made, %d" % numbers[0], numbers[0] >= 350, True)


@test
def generator_tells_joins():
    """What kinds_of tells of joins by hand."""
    for pairs, kinds in (
            ([], ["made without pairs"]),
            ([0, 1], ["14 by the column 0", "14 before a joined list"]),
            ([4, 1], ["14 by a column beyond its part", "14 before a joined list"]),
            ([1, 1, 1, 2], ["14 by the first's column used before", "14 before a joined list"]),
            ([1, 1, 2, 1], ["14 by the second's column used before", "14 before a joined list"]),
            ([1], ["2 by an odd list"]),
            ([0, 1, 1], ["2 by an odd list", "an odd list before 14",
                         "an odd list before a joined list"])):
        check("kinds of %r" % pairs, joins.kinds_of(sound_join(pairs, n=5)), kinds)
    check("one pair", joins.kinds_of(sound_join([1, 1])),
          ["made with pairs", "goals of the first alone", "ideals on no side"])
    check("two pairs", joins.kinds_of(sound_join([2, 2, 1, 1])),
          ["made with pairs", "all columns of a part shared", "pairs not in order",
           "goals of the first alone", "goals of the second alone", "ideals on no side"])
    case = sound_join([1, 1], n=7)
    check("a joined list", joins.kinds_of(case), ["2 by a joined list"])
    case.second.upper[0] = 0
    check("a part", joins.kinds_of(case), ["4 of the second part", "the second part before 15"])
