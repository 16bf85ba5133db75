"""Random joins of two parts (document 02, (vi)), the same for the same seed.

join_case(rng) makes one call, valid or damaged: two parts, a list of pairs, and lent lists
that hold anything. joins(count, seed) yields count of them. kinds_of(case) tells what a call
shows: of a join that is made how its columns came together, of a refused one which cause
decides and which later ones hold too. kinds_met(cases) counts that over KINDS.
"""

from engine import (MAX_BOUND, MAX_COLUMNS, MAX_ROWS, PROBLEM_LISTS, Lent, Problem,
                    counts_outside, has_goal, lists_wrong, problem_cause, unset)
from generate import (change_a_number, columns_around, hand_in, noise, products, random_limit,
                      random_matrix, rng_for)
from joining import column_of, join, joined_sizes, shared_bounds, two_by_two
from pairs import part_goals

# The largest number that C's type of columns can hold.
LARGEST = 2 ** 64 - 1


class Join:
    """A call: two parts, the list of pairs, and the lists of the joined problem, lent."""

    def __init__(self, first, second, pairs, lent):
        self.first = first
        self.second = second
        self.pairs = pairs
        self.lent = lent

    def run(self):
        """Runs the model on the lent lists and returns its answer."""
        return join(self.first, self.second, self.pairs, self.lent)


def lengths(n, m):
    """The lengths of a problem's lists."""
    return dict(dict.fromkeys(PROBLEM_LISTS, n), coefficients=m * n, rights=m)


def noisy_lists(rng, n, m):
    """Lent lists for so many columns and rows, which hold anything."""
    return Problem(n, m, *[noise(rng, length) for length in lengths(n, m).values()], None)


# ---------------------------------------------------------------------- valid joins

def within(rng, total, most, least):
    """Two numbers from least to most that add up to total."""
    one = rng.randint(max(least, total - most), min(most, total - least))
    return one, total - one


def small_sizes(rng):
    """The columns of both parts, how many are shared, and the rows of both."""
    n = rng.randint(1, 4), rng.randint(1, 4)
    return n, rng.randint(0, min(n)), (rng.randint(0, 3), rng.randint(0, 3))


def middle_sizes(rng):
    n = rng.randint(3, 10), rng.randint(3, 10)
    return n, rng.randint(0, min(n)), (rng.randint(0, 6), rng.randint(0, 6))


def wide_sizes(rng):
    """Joined columns about the most that there may be."""
    total = rng.choice([47, 48, 48, 48, 49, 49, 50])
    shared = rng.choice([0, 0, 1, 2, 5, rng.randint(0, 46)])
    n = within(rng, total + shared, MAX_COLUMNS, max(1, shared))
    return n, shared, (rng.randint(0, 5), rng.randint(0, 5))


def high_sizes(rng):
    """The same of rows."""
    n = rng.randint(1, 4), rng.randint(1, 4)
    m = within(rng, rng.choice([47, 48, 48, 48, 49, 49, 50]), MAX_ROWS, 0)
    return n, rng.randint(0, min(n)), m


def full_sizes(rng):
    """Two parts of the most columns and rows, or of nearly as many, which mostly fit only
    where nearly all columns are shared."""
    n = rng.choice([(48, 48), (48, 47), (47, 48), (48, 1), (1, 48)])
    shared = min(n) - rng.choice([0, 0, 0, 1])
    return n, shared, rng.choice([(0, 0), (48, 0), (0, 48), (1, 1), (24, 24), (24, 25)])


SIZES = [small_sizes] * 10 + [middle_sizes] * 5 + [wide_sizes] * 3 + [high_sizes] * 2 + [
    full_sizes]


def random_pairs(rng, n, shared):
    """Pairs of so many columns of both, in any order."""
    one = rng.sample(range(1, n[0] + 1), shared)
    other = rng.sample(range(1, n[1] + 1), shared)
    return [number for pair in zip(one, other) for number in pair]


def other_share(values, pairs, n, rng, low, high):
    """The second's numbers beside the first's: the same ones at shared columns."""
    own = [rng.randint(low, high) for _ in range(n)]
    for i, j in two_by_two(pairs):
        own[j - 1] = values[i - 1]
    return own


def part_about(rng, m, hidden, middle):
    """A part whose rows the hidden list satisfies, with bounds about the middle one, so that
    both parts' bounds at a shared column have a number in common."""
    n = len(hidden)
    coefficients = random_matrix(rng, n, m, rng.choice([1, 1, 2, 3, 1000]), min(0.7, 3 / n))
    columns = columns_around(rng, middle, rng.choice([2, 10, 40]), rng.choice([0, 0.5, 1]))
    part = Problem(n, m, coefficients, products(n, m, coefficients, hidden), *columns,
                   *unset(n), random_limit(rng))
    part_goals(rng, part)
    hand_in(rng, part)
    return part


def meet_in_one(rng, case, middle):
    """Has the bounds of some pairs meet in one number, the one between them."""
    for i, j in two_by_two(case.pairs):
        if rng.random() < 0.3:
            below, above = (case.first, i - 1), (case.second, j - 1)
            if rng.random() < 0.5:
                below, above = above, below
            below[0].upper[below[1]] = middle[i - 1]
            above[0].lower[above[1]] = middle[i - 1]


def stretch(rng, part):
    """Takes some bounds as far out as they may go."""
    for j in range(part.n):
        what = rng.randrange(8)
        if what == 0:
            part.upper[j] = MAX_BOUND
        elif what == 1 and not has_goal(part.low[j]):
            part.lower[j] = -MAX_BOUND


def valid_join(rng):
    """A join that is refused only where it is too large: one list is hidden in both parts'
    rows, and mostly in their bounds."""
    n, shared, m = rng.choice(SIZES)(rng)
    pairs = random_pairs(rng, n, shared)
    low, high = rng.choice([(-9, 20), (1, 12), (1, 12)])
    hidden = [rng.randint(low, high) for _ in range(n[0])]
    share = other_share(hidden, pairs, n[1], rng, low, high)
    middle, beside = hidden, share
    if rng.random() < 0.3:
        middle = [value + rng.randint(-3, 3) for value in hidden]
        beside = other_share(middle, pairs, n[1], rng, low, high)
    case = Join(part_about(rng, m[0], hidden, middle), part_about(rng, m[1], share, beside),
                pairs, noisy_lists(rng, n[0] + n[1] - shared, m[0] + m[1]))
    if rng.random() < 0.5:
        stretch(rng, case.first)
        stretch(rng, case.second)
    if rng.random() < 0.5:
        meet_in_one(rng, case, middle)
    if rng.random() < 0.1:
        # rows that may have no list in common
        for part in (case.first, case.second):
            part.rights = [rng.randint(-9, 9) for _ in part.rights]
    return case


# --------------------------------------------------------------------------- damage

def damage_part(rng, case):
    """A number, a count or a length of a part. There is no tableau beside it."""
    part = rng.choice([case.first, case.second])
    change_a_number(rng, part, Lent([], [], []))


def odd_list(rng, case):
    if case.pairs and rng.random() < 0.5:
        case.pairs.pop(rng.randrange(len(case.pairs)))
    else:
        case.pairs.append(rng.choice([0, 1, case.second.n, LARGEST]))


def outside(rng, case):
    """A column that is none, in place of one of a pair's or in a pair of its own."""
    at = 2 * rng.randint(0, len(case.pairs) // 2)
    if at == len(case.pairs) or len(case.pairs) % 2 or rng.random() < 0.3:
        case.pairs[at:at] = 1, 1
    part = rng.randrange(2)
    most = (case.first, case.second)[part].n
    case.pairs[at + part] = rng.choice([0, 0, most + 1, most + 1, most + 2, 2 ** 32, 2 ** 63,
                                        LARGEST])


def any_pair(rng, case):
    """One more pair at any place, or as many as no two parts can have."""
    n = min(max(1, case.first.n), MAX_COLUMNS), min(max(1, case.second.n), MAX_COLUMNS)
    for _ in range(rng.choice([1, 1, 1, 2, min(n) + 1])):
        at = 2 * rng.randint(0, len(case.pairs) // 2)
        case.pairs[at:at] = rng.randint(1, n[0]), rng.randint(1, n[1])


def used_before(rng, case):
    """A column of an earlier pair in a later one, or the whole pair once more."""
    if len(case.pairs) < 2:
        return
    at = 2 * rng.randrange(len(case.pairs) // 2)
    what = rng.randrange(3)
    later = case.pairs[at:at + 2]
    if what < 2:
        part = (case.first, case.second)[1 - what]
        later[1 - what] = rng.randint(1, min(max(1, part.n), MAX_COLUMNS))
    if at + 2 < len(case.pairs) and rng.random() < 0.5:
        case.pairs[at + 2:at + 4] = later
    else:
        case.pairs += later


def put_apart(part, j, other):
    """Brings a column's bounds past those of another, above them or below."""
    if other.upper < MAX_BOUND:
        part.lower[j] = other.upper + 1
        part.upper[j] = max(part.upper[j], part.lower[j])
    elif not has_goal(part.low[j]):
        part.upper[j] = other.lower - 1
        part.lower[j] = min(part.lower[j], part.upper[j])


def nothing_left(rng, case):
    """A pair whose bounds leave nothing."""
    if len(case.pairs) < 2 or lists_wrong(case.first) or lists_wrong(case.second):
        return
    i, j = rng.choice(two_by_two(case.pairs))
    if not 1 <= i <= case.first.n or not 1 <= j <= case.second.n:
        return
    if rng.random() < 0.5:
        put_apart(case.first, i - 1, column_of(case.second, j - 1))
    else:
        put_apart(case.second, j - 1, column_of(case.first, i - 1))


def used_and_nothing_left(rng, case):
    """One more pair, of a column that an earlier one has and of one that none has, whose
    bounds leave nothing."""
    if len(case.pairs) < 2 or lists_wrong(case.first) or lists_wrong(case.second):
        return
    parts = case.first, case.second
    new = rng.randrange(2)
    part, other = parts[new], parts[1 - new]
    free = set(range(1, part.n + 1)) - set(case.pairs[new::2])
    old = rng.choice(case.pairs[1 - new::2])
    if not free or not 1 <= old <= other.n:
        return
    column = rng.choice(sorted(free))
    put_apart(part, column - 1, column_of(other, old - 1))
    case.pairs += (old, column) if new == 1 else (column, old)


def change_a_list(rng, case):
    """A joined list that is shorter or longer, two of them, or all as other counts of
    columns and rows would need them."""
    what = rng.randrange(6)
    lent = case.lent
    if what == 0:
        n, m = rng.choice([(case.first.n + case.second.n, lent.m), (lent.m, lent.n),
                           (lent.n, lent.m + 1), (48, 48), (lent.n - 1, lent.m), (0, 0)])
        case.lent = noisy_lists(rng, min(n, 2 * MAX_COLUMNS), min(m, 2 * MAX_ROWS))
        return
    lists = [getattr(lent, name) for name in rng.sample(PROBLEM_LISTS, 2)]
    if what == 1:
        lists[0].clear()
    elif what == 2:
        lists[0].append(lists[1].pop() if lists[1] else 7)
    elif what <= 4 and lists[0]:
        lists[0].pop()
    else:
        lists[0].append(7)


def more_columns(part, more):
    """So many more columns of a part without rows, from 0 to 9 and without a goal."""
    part.n += more
    for name in PROBLEM_LISTS[2:]:
        getattr(part, name).extend([9 if name == "upper" else 0] * more)


def more_rows(part, more):
    """So many more rows of zeros."""
    part.m += more
    part.coefficients += [0] * (more * part.n)
    part.rights += [0] * more


def too_large(rng, case):
    """So many more rows or columns of the second part that the joined ones are too many. The
    lent lists mostly have the lengths for that, so that no later cause holds."""
    part = case.second
    if lists_wrong(part) or counts_outside(part) or counts_outside(case.first):
        return
    n, m = joined_sizes(case.first, part, case.pairs)
    more = max(1, MAX_COLUMNS + 1 - n)
    if part.m == 0 and part.n + more <= MAX_COLUMNS and rng.random() < 0.7:
        more_columns(part, more)
    else:
        more_rows(part, min(MAX_ROWS - part.m, max(1, MAX_ROWS + 1 - m)))
    if rng.random() < 0.7:
        n, m = joined_sizes(case.first, part, case.pairs)
        case.lent = noisy_lists(rng, max(n, 0), m)


DAMAGE = [damage_part] * 4 + [odd_list, outside, any_pair, used_before, nothing_left,
                              used_and_nothing_left, change_a_list, change_a_list, too_large]


def join_case(rng):
    """One call."""
    case = valid_join(rng)
    for _ in range(rng.choice([0, 0, 0, 0, 0, 0, 1, 1, 1, 2, 2, 3])):
        rng.choice(DAMAGE)(rng, case)
    return case


def joins(count, seed):
    """Yields count calls."""
    for number in range(1, count + 1):
        yield join_case(rng_for(seed, number))


# ------------------------------------------------------------------ what a join shows

# Of a join that is made.
MADE_KINDS = ["made without pairs", "made with pairs", "all columns of a part shared",
              "pairs not in order", "48 joined columns", "48 joined rows",
              "bounds that meet in one number", "bounds of both parts in one column",
              "goals on both sides", "goals of the first alone", "goals of the second alone",
              "goals on no side", "the low of one and the high of the other",
              "ideals on both sides", "an ideal of the first alone",
              "an ideal of the second alone", "ideals on no side"]
# Of one that is refused: which cause decides.
PART_KINDS = ["%d of the %s part" % (number, part) for part in ("first", "second")
              for number in (1, 2, 3, 4, 5)]
PAIR_KINDS = ["14 by the column 0", "14 by a column beyond its part",
              "14 by the first's column used before", "14 by the second's column used before",
              "14 within more pairs than columns", "15"]
LAST_KINDS = ["2 by an odd list", "1 by joined columns", "1 by joined rows",
              "2 by a joined list"]
# And where a later one holds too.
CLASH_KINDS = ["the first part before the second", "the first part before an odd list",
               "the first part before 14", "the first part before 15",
               "the first part before the size",
               "the second part before an odd list", "the second part before 14",
               "the second part before 15", "the second part before the size",
               "an odd list before 14", "an odd list before 15", "an odd list before the size",
               "an odd list before a joined list", "14 before 15 of the same pair",
               "14 before a later 15", "15 before a later 14", "14 before the size",
               "15 before the size", "14 before a joined list", "15 before a joined list",
               "the size before a joined list"]
KINDS = MADE_KINDS + PART_KINDS + PAIR_KINDS + LAST_KINDS + CLASH_KINDS


def shared_kinds(one, other):
    """What two columns that become one show."""
    lower, upper = shared_bounds(one, other)
    goals = has_goal(one.low), has_goal(other.low)
    ideals = one.given != 0, other.given != 0
    both = all(goals)
    found = {
        "bounds that meet in one number": lower == upper and one[:2] != other[:2],
        "bounds of both parts in one column": (lower, upper) not in (one[:2], other[:2]),
        "goals on both sides": both,
        "goals of the first alone": goals == (True, False),
        "goals of the second alone": goals == (False, True),
        "goals on no side": not any(goals),
        "the low of one and the high of the other":
            both and (one.low < other.low and one.high < other.high
                      or other.low < one.low and other.high < one.high),
        "ideals on both sides": all(ideals) and one[4:] != other[4:],
        "an ideal of the first alone": ideals == (True, False),
        "an ideal of the second alone": ideals == (False, True),
        "ideals on no side": not any(ideals),
    }
    return {kind for kind, shown in found.items() if shown}


def kinds_made(case):
    """What a join that is made shows."""
    first, second, every = case.first, case.second, two_by_two(case.pairs)
    n, m = joined_sizes(first, second, case.pairs)
    found = {"made with pairs" if every else "made without pairs"}
    if len(every) == min(first.n, second.n):
        found.add("all columns of a part shared")
    if sorted(every) != every or sorted(j for _, j in every) != [j for _, j in every]:
        found.add("pairs not in order")
    if n == MAX_COLUMNS:
        found.add("48 joined columns")
    if m == MAX_ROWS:
        found.add("48 joined rows")
    return found.union(*(shared_kinds(column_of(first, i - 1), column_of(second, j - 1))
                         for i, j in every))


def causes_of_pair(case, before, pair):
    """Every cause that a pair gives."""
    i, j = pair
    if i == 0 or j == 0:
        return ["14 by the column 0"]
    if i > case.first.n or j > case.second.n:
        return ["14 by a column beyond its part"]
    found = []
    if any(i == used for used, _ in before):
        found.append("14 by the first's column used before")
    if any(j == used for _, used in before):
        found.append("14 by the second's column used before")
    lower, upper = shared_bounds(column_of(case.first, i - 1), column_of(case.second, j - 1))
    return found + ["15"] * (lower > upper)


def causes(case):
    """Every cause that can be told, with the place of a pair's, in the order in which they
    are looked at."""
    parts = {"first": case.first, "second": case.second}
    found = [("%d of the %s part" % (problem_cause(part), name), None)
             for name, part in parts.items() if problem_cause(part)]
    if len(case.pairs) % 2:
        found.append(("2 by an odd list", None))
    if any(counts_outside(part) or lists_wrong(part) for part in parts.values()):
        return found
    every = two_by_two(case.pairs)
    for at, pair in enumerate(every):
        found += [(cause, at) for cause in causes_of_pair(case, every[:at], pair)]
    n, m = joined_sizes(case.first, case.second, case.pairs)
    found += [("1 by joined columns", None)] * (n > MAX_COLUMNS)
    found += [("1 by joined rows", None)] * (m > MAX_ROWS)
    if [len(getattr(case.lent, name)) for name in PROBLEM_LISTS] != list(lengths(n, m).values()):
        found.append(("2 by a joined list", None))
    return found


GROUPS = {"1 by joined columns": "the size", "1 by joined rows": "the size",
          "2 by an odd list": "an odd list", "2 by a joined list": "a joined list"}


def group_of(cause):
    """The words that a cause has in CLASH_KINDS."""
    for name in ("first", "second"):
        if cause.endswith("of the %s part" % name):
            return "the %s part" % name
    return GROUPS.get(cause, cause[:2])


def clash(decides, later):
    """Two causes that hold, the first of which decides, as CLASH_KINDS has them."""
    (cause, at), (other, place) = decides, later
    one, two = group_of(cause), group_of(other)
    if at is not None and place is not None:
        return "%s before %s" % (one, two + " of the same pair" if at == place
                                 else "a later " + two)
    if one == "the first part" and two == "the second part":
        two = "the second"
    return "%s before %s" % (one, two)


def kinds_of(case):
    """Which of KINDS a call shows."""
    every = causes(case)
    if not every:
        return [kind for kind in MADE_KINDS if kind in kinds_made(case)]
    found = {every[0][0]}.union(clash(every[0], later) for later in every[1:])
    if group_of(every[0][0]) == "14" and len(case.pairs) // 2 > min(case.first.n, case.second.n):
        found.add("14 within more pairs than columns")
    return [kind for kind in KINDS if kind in found]


def kinds_met(cases):
    """How many of the calls show each of KINDS."""
    met = dict.fromkeys(KINDS, 0)
    for case in cases:
        for kind in kinds_of(case):
            met[kind] += 1
    return met
