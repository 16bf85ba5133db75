"""Pairs of goals in random cases: document 02, (v), “A lowest and a highest goal”.

The families of generate.py make columns and curves with both goals equal, as older cases
have them. part_goals(rng, problem) and share_curves(rng, sketch) part them, as those of a
curve that belongs to two parts; damage_column and damage_line break the rule of a pair, on
buffers and in a text. pair_kind tells what one pair shows, text_kinds(data) what a text
shows of pairs, and kinds_met(texts) counts that.
"""

from engine import (COUNTS_OUTSIDE, GOAL_OUTSIDE, MAX_COLUMNS, MAX_GOAL, MIN_COLUMNS,
                    goal_ideal, has_goal)
from text import (MAX_TEXT, NOT_AS_LAID_OUT, NUMBER, Numbers, Refused, is_wanted,
                  neighbour_ideal, path_rows, read, read_interval, read_sections)


# ------------------------------------------------------------------------- pairs

def two_wishes(rng, goal):
    """A low and a high goal about one that is set: the same twice, near to each other, far
    apart, or with a product at the square of a whole number of intervals, or at the middle
    between two, where the ideal changes; there give or take a thousandth."""
    what = rng.randrange(8)
    k = max(1, goal // 1000)
    around = rng.choice([-1, 0, 1])
    if what == 0:
        low, high = goal, goal
    elif what <= 2:
        low, high = goal, goal + rng.randint(1, 2000)
    elif what <= 4:
        low, high = goal, goal * rng.randint(2, 20)
    elif what == 5:
        low, high = max(1, goal // rng.randint(2, 20)), goal
    elif what == 6:
        low, high = 1000 * k, 1000 * (k + 1) + around
    else:
        part = rng.choice([part for part in (1, 2, 3, 5, k) if k % part == 0])
        low, high = 1000 * part, 1000 * k * (k // part) + around
    low = min(low, MAX_GOAL)
    return low, max(low, min(high, MAX_GOAL))


def part_goals(rng, problem):
    """Parts the goals of none, some or all columns that have some."""
    chance = rng.choice([0, 0.5, 1, 1])
    for j, low in enumerate(problem.low):
        if has_goal(low) and rng.random() < chance:
            problem.low[j], problem.high[j] = two_wishes(rng, low)


def share_curves(rng, sketch):
    """The same of a deck's curves."""
    chance = rng.choice([0, 0.4, 1])
    for at, (lower, upper, low, _) in enumerate(sketch.intervals):
        if has_goal(low) and rng.random() < chance:
            sketch.intervals[at] = (lower, upper, *two_wishes(rng, low))


# ------------------------------------------------------------------------ damage

# The ends of 64 bits, of what a text's number can be, and of a goal's range.
FAR = [-2 ** 63, 2 ** 63 - 1]
FAR_WORDS = [b"-9999999999", b"9999999999"]
NEAR = [-1, 0, 1, MAX_GOAL, MAX_GOAL + 1]
NO_NUMBERS = [b"x", b"-0", b"+5", b"1O800", b"007", b"12345678901"]


def damage_column(rng, problem, j):
    """Breaks the rule of a pair at column j, or goes to its edge."""
    what = rng.randrange(7)
    set_one = max(1, problem.low[j])
    if what == 0:
        problem.low[j] = rng.choice(NEAR + FAR)
    elif what == 1:
        problem.high[j] = rng.choice(NEAR + FAR)
    elif what == 2:
        problem.low[j], problem.high[j] = 0, set_one
    elif what == 3:
        problem.low[j], problem.high[j] = set_one, 0
    elif what == 4:
        problem.low[j], problem.high[j] = set_one, set_one - rng.choice([0, 1, 1, 2])
    elif what == 5:
        problem.lower[j] = rng.choice([0, 0, -1, -3, 1])
    else:
        problem.low[j], problem.high[j] = rng.choice(
            [(1, 1), (1, MAX_GOAL), (MAX_GOAL, MAX_GOAL), (MAX_GOAL, MAX_GOAL - 1)])


def damage_line(rng, line):
    """The same at an interval's line, whose words are the lower and the upper bound and the
    two goals; also a goal that is no number, before a good one and after a bad one, and
    a line as older texts have it."""
    if len(line) != 4 or not NUMBER.fullmatch(line[2]):
        return
    low = max(1, int(line[2]))
    numbers = [b"%d" % number for number in NEAR] + FAR_WORDS
    what = rng.randrange(9)
    if what == 0:
        line[2] = rng.choice(numbers)
    elif what == 1:
        line[3] = rng.choice(numbers)
    elif what == 2:
        line[2:] = b"0", b"%d" % low
    elif what == 3:
        line[2:] = b"%d" % low, b"0"
    elif what == 4:
        line[2:] = b"%d" % low, b"%d" % (low - rng.choice([0, 1, 1, 2]))
    elif what == 5:
        line[0] = rng.choice([b"0", b"0", b"-1", b"-3"])
    elif what == 6:
        line[2:] = rng.choice(numbers), rng.choice(NO_NUMBERS)
    elif what == 7:
        line[rng.choice([2, 3, 3])] = rng.choice(NO_NUMBERS)
    else:
        del line[3]


# --------------------------------------------------------- what a pair of goals shows

def pair_kind(lower, low, high):
    """What a pair shows: whether there is a goal, or the first part of the rule that it
    breaks, the low goal's first."""
    if not 0 <= low <= MAX_GOAL:
        return "5 by a low goal outside"
    if has_goal(low) and lower < 1:
        return "5 by a lower bound below 1"
    if not 0 <= high <= MAX_GOAL:
        return "5 by a high goal outside"
    if not has_goal(low):
        return "no goal" if high == 0 else "5 by a high goal alone"
    if high == 0:
        return "5 by a low goal alone"
    if low > high:
        return "5 by a low goal above the high one"
    return "equal goals" if low == high else "goals apart"


BROKEN_KINDS = ["5 by a low goal outside", "5 by a lower bound below 1",
                "5 by a high goal outside", "5 by a high goal alone", "5 by a low goal alone",
                "5 by a low goal above the high one"]
LAYOUT_KINDS = ["11 at a low goal", "11 at a high goal", "5 by a low goal, then no number"]
READ_KINDS = ["no goal", "equal goals", "goals apart", "an ideal of neither goal alone",
              "an ideal other than the mean's", "a product at the middle between two",
              "a product just above it", "a neighbour with goals apart"]
TEXT_KINDS = READ_KINDS + BROKEN_KINDS + LAYOUT_KINDS


def ideal_kinds(low, high):
    """What the ideal of two goals apart shows."""
    ideal, mean = goal_ideal(low, high), (low + high) // 2
    k = min(ideal, goal_ideal(low, high - 1))
    middle = k * (k + 1) * 1000000
    found = {
        "an ideal of neither goal alone": ideal not in (goal_ideal(low, low),
                                                        goal_ideal(high, high)),
        "an ideal other than the mean's": ideal != goal_ideal(mean, mean),
        "a product at the middle between two": low * high == middle,
        "a product just above it": low * (high - 1) <= middle < low * high,
    }
    return {kind for kind, shown in found.items() if shown}


def kinds_read(data):
    """Which of READ_KINDS a text that is read shows."""
    columns, rows, volumes = read_sections(data)
    every = rows + path_rows(volumes)
    intervals = len(columns) - sum(row.y is not None for row in rows)
    pairs = [(low, high) for _, _, low, high in columns[:intervals]]
    apart = {(low, high) for low, high in pairs if low < high}
    found = {pair_kind(1, *pair) for pair in pairs}.union(*(ideal_kinds(*p) for p in apart))
    # the same with every high goal brought down to the low one
    older = [(lower, upper, low, low) for lower, upper, low, _ in columns]
    if any(neighbour_ideal(j, columns, every) != neighbour_ideal(j, older, every)
           for j in range(intervals) if not is_wanted(columns[j])):
        found.add("a neighbour with goals apart")
    return [kind for kind in READ_KINDS if kind in found]


def kinds_refused(words, rest, number):
    """Which kinds a refusal at an interval's line shows, by the words of it that were taken,
    the last of which decides, and by the words behind them."""
    # where a number is missing, the place that decides is the one behind them
    missing = not words or number == NOT_AS_LAID_OUT and NUMBER.fullmatch(words[-1])
    place = len(words) + bool(missing)
    if place < 3:
        return []
    if number == NOT_AS_LAID_OUT:
        return ["11 at a low goal" if place == 3 else "11 at a high goal"]
    lower, _, low, *high = map(int, words)
    # a low goal that is refused at its own place is to blame alone
    kinds = [pair_kind(lower, low, high[0] if high else low)]
    if place == 3 and rest and not NUMBER.fullmatch(rest[0]):
        kinds.append("5 by a low goal, then no number")
    return kinds


def text_kinds(data):
    """Which of TEXT_KINDS a text shows; none where another number than a goal is refused."""
    if not isinstance(read(data), int):
        return kinds_read(data)
    numbers = Numbers(data if len(data) <= MAX_TEXT else b"")
    start = None
    try:
        for _ in range(numbers.next_within(MIN_COLUMNS, MAX_COLUMNS, COUNTS_OUTSIDE)):
            start = numbers.taken
            read_interval(numbers)
    except Refused as refused:
        if start is None or refused.number not in (GOAL_OUTSIDE, NOT_AS_LAID_OUT):
            return []
        return kinds_refused(numbers.runs[start:numbers.taken], numbers.runs[numbers.taken:],
                             refused.number)
    return []


def kinds_met(texts):
    """How many of the texts show each of TEXT_KINDS."""
    met = dict.fromkeys(TEXT_KINDS, 0)
    for data in texts:
        for kind in text_kinds(data):
            met[kind] += 1
    return met
