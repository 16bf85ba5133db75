"""Document 02, (v), “A lowest and a highest goal”: the ideal and the ratio of a pair, each
refusal at its place, wrong answers that are told apart, and older cases, which “have both
equal”, held to document 01's rules of one goal.
"""

import math
import random
import re
from fractions import Fraction

import engine
import generate
import listing
import text
from engine import FITTED, Lent
from generate import join, rng_for
from pairs import two_wishes
from tests.ideals import ideals_of, plain_goal_ideal, plain_seat, plain_wishes
from tests.reader import refusal_of
from tests.restated import solved
from tests.settling import plain_ratio, plain_settle
from tests.tools import (ORDINARY, check, make, random_problems, resume, solve, sound_problem,
                         test, with_goals)

MOST = 1000000000


# -------------------------------------------------------------- the ideal of a pair

# A low and a high goal, and their ideal.
IDEALS = [
    # “k is the whole part of (square root of low times high) / 1,000”
    (4000, 9000, 6), (1000, 9000, 3), (2000, 8000, 4), (9000, 24000, 15), (6000, 16000, 10),
    (1000, 4000, 2), (1000, 3999, 2), (1000, 4001, 2), (1, 4000000, 2), (1, MOST, 32),
    (MOST, MOST, 1000000), (MOST - 1, MOST, 1000000), (999999, MOST, 31623),
    # “k + 1 exactly if k(k + 1) × 1,000,000 < low × high”
    (1000, 2000, 1), (1000, 2001, 2), (999, 2001, 1), (2000, 3000, 2), (2000, 3001, 3),
    (4000, 5000, 4), (4000, 5001, 5), (1, 2000000, 1), (1, 2000001, 2), (3, 666667, 2),
    # the root lies above the middle, and yet below one and a half
    (1400, 1500, 2), (1450, 1450, 2), (1000, 2200, 2),
    # “and 1 for k = 0”
    (1, 1, 1), (1, 999999, 1), (500, 600, 1), (1, 1000000, 1), (999, 999, 1),
    # document 01's, with both equal
    (400, 400, 1), (1414, 1414, 1), (1415, 1415, 2), (2449, 2449, 2), (2450, 2450, 3),
]


def plain_whole_part(product):
    """The whole part of a root's thousandth, by halving: the largest k whose square times
    1,000,000 is at most the product."""
    least, most = 0, 1 + product
    while most - least > 1:
        k = (least + most) // 2
        least, most = (k, most) if k * k * 1000000 <= product else (least, k)
    return least


def plain_pair_ideal(low, high, strict=True, half=False, zero=False):
    """The ideal of a pair, word by word. The wrong answers have other settings."""
    k = plain_whole_part(low * high)
    middle = k * (k + 1) * 1000000
    if half:
        # the plain mean of k and k + 1, whose square is a quarter of an interval's more
        middle += 250000
    if k == 0:
        return 0 if zero else 1
    return k + 1 if middle < low * high or not strict and middle == low * high else k


def of_mean(rule):
    """A rule of one goal, by the mean of the two."""
    return lambda low, high, *value: rule(*[(low + high) // 2] * 2, *value)


def of_low(rule):
    return lambda low, high, *value: rule(low, low, *value)


def of_high(rule):
    return lambda low, high, *value: rule(high, high, *value)


WRONG_IDEALS = [("of the low goal alone", of_low(plain_pair_ideal)),
                ("of the high goal alone", of_high(plain_pair_ideal)),
                ("of their mean", of_mean(plain_pair_ideal)),
                ("by the plain mean at k(k + 1)",
                 lambda low, high: plain_pair_ideal(low, high, half=True)),
                ("k + 1 at the middle too",
                 lambda low, high: plain_pair_ideal(low, high, strict=False)),
                ("0 for k = 0", lambda low, high: plain_pair_ideal(low, high, zero=True)),
                ("k alone", lambda low, high: max(1, plain_whole_part(low * high)))]


def random_pairs(seed, count):
    """Pairs about goals of any size, at the edges of ideals among them."""
    rng = random.Random(seed)
    for _ in range(count):
        yield two_wishes(rng, rng.randint(1, rng.choice([900, 3000, 30000, 10 ** 6, MOST])))


def differing(pairs, rule, right):
    """For how many pairs a rule says something else."""
    return sum(rule(*pair) != right(*pair) for pair in pairs)


@test
def ideals_of_pairs_by_hand():
    for low, high, wanted in IDEALS:
        check("ideal of %d and %d" % (low, high), engine.goal_ideal(low, high), wanted)
        problem = with_goals(make(1, [], [], (1, 1000000)), [low], [high])
        got, lent = solve(problem)
        check("%d and %d alone" % (low, high), (got, lent.values), ((FITTED, 0, 0), [wanted]))
    problem = with_goals(make(1, [], [], (3, 7)), [1000], [4000])
    check("brought into the bounds", engine.ideal(problem, 0, 9), 3)


@test
def property_ideals_of_pairs():
    pairs = list(random_pairs(61, 3000))
    for low, high in pairs:
        check("ideal of %d and %d" % (low, high), engine.goal_ideal(low, high),
              plain_pair_ideal(low, high))
    hand = [(low, high) for low, high, _ in IDEALS]
    check("by hand, word by word", differing(hand, plain_pair_ideal, engine.goal_ideal), 0)
    for what, rule in WRONG_IDEALS:
        check("wrong and told apart by hand: an ideal " + what,
              differing(hand, rule, plain_pair_ideal) > 0, True)
        found = differing(pairs, rule, plain_pair_ideal)
        check("wrong and told apart: an ideal %s, %d times" % (what, found), found >= 30, True)


# -------------------------------------------------------------- the ratio of a pair

# A low and a high goal, a value, and the ratio.
RATIOS = [
    # “the larger of 1000v/low and high/1000v”
    (4000, 9000, 2, Fraction(9, 2)), (4000, 9000, 5, Fraction(9, 5)),
    (4000, 9000, 6, Fraction(3, 2)), (4000, 9000, 7, Fraction(7, 4)),
    (4000, 9000, 9, Fraction(9, 4)), (4000, 9000, 4, Fraction(9, 4)),
    (1, MOST, 1, Fraction(1000000)), (1, MOST, 1000000, Fraction(MOST)),
    (MOST, MOST, 1000000, Fraction(1)), (MOST, MOST, 1, Fraction(1000000)),
    # document 01's, with both equal
    (2500, 2500, 4, Fraction(8, 5)), (4000, 4000, 6, Fraction(3, 2)),
    (6000, 6000, 4, Fraction(3, 2)), (7000, 7000, 7, Fraction(1)),
]

WRONG_RATIOS = [("with the goals exchanged", lambda low, high, v: plain_ratio(high, low, v)),
                ("of the low goal alone", of_low(plain_ratio)),
                ("of the high goal alone", of_high(plain_ratio)),
                ("of their mean", of_mean(plain_ratio)),
                ("the smaller of the two",
                 lambda low, high, v: min(Fraction(1000 * v, low), Fraction(high, 1000 * v)))]


def ratio_cases(seed, count):
    """Random pairs, each with some values about its ideal and between its goals."""
    rng = random.Random(seed)
    for low, high in random_pairs(seed, count):
        k = engine.goal_ideal(low, high)
        for v in {1, k, k + 1, rng.randint(1, 2 * k), max(1, low // 1000), max(1, high // 1000)}:
            yield low, high, v


@test
def ratios_of_pairs():
    for low, high, v, wanted in RATIOS:
        check("ratio of %d to %d and %d" % (v, low, high),
              Fraction(*engine.ratio(low, high, v)), wanted)
    cases = list(ratio_cases(62, 400))
    for case in cases:
        check("ratio", Fraction(*engine.ratio(*case)), plain_ratio(*case))
    hand = [case[:3] for case in RATIOS]
    for what, rule in WRONG_RATIOS:
        check("wrong and told apart by hand: a ratio " + what,
              differing(hand, rule, plain_ratio) > 0, True)
        check("wrong and told apart: a ratio " + what,
              differing(cases, rule, plain_ratio) >= 100, True)


@test
def ideals_have_the_least_ratio():
    """What the header says of the ideal: no count of intervals has a smaller ratio, and no
    smaller count one as small."""
    for low, high in random_pairs(63, 1000):
        ideal = engine.goal_ideal(low, high)
        least = plain_ratio(low, high, ideal)
        for v in range(max(1, ideal - 3), ideal + 4):
            here = plain_ratio(low, high, v)
            check("%d beside the ideal of %d and %d" % (v, low, high),
                  here > least if v < ideal else here >= least, True)


# ------------------------------------------------------------- whole assignments

def assigned(problem, of_pair=plain_goal_ideal, ratio=plain_ratio):
    """A whole assignment word by word, with these rules of a pair: what is answered, and the
    values. None past the elimination limit."""
    try:
        found = solved(problem)
    except engine.Beyond:
        return None
    if found == "none":
        return (8, 0, 0), None
    start, basis = found
    seated = plain_seat(problem, basis, start, of_pair=of_pair)
    if seated is None:
        return (9, 0, 0), None
    *answer, values = plain_settle(problem, basis, seated, ratio)
    return tuple(answer), values


def answered(problem):
    """The same of the model."""
    got, lent = solve(problem)
    return got, None if isinstance(got[0], int) else lent.values


def tied_problem(rng):
    """Columns that want something in wide bounds and are tied, so that they settle between
    what each of them wants."""
    n = rng.randint(2, 4)
    rows = []
    for i in range(rng.randint(1, n - 1)):
        rows.append([0] * n)
        rows[i][i], rows[i][i + 1] = rng.choice([1, 1, 2, 3]), -rng.choice([1, 1, 2, 3])
        if rng.random() < 0.3:
            rows[i][-1] -= 1
    goals = [rng.randint(500, 30000) for _ in range(n)]
    return make(n, rows, [0] * len(rows), (1, 1000), goals), [0] * n


FAMILIES = ORDINARY + [tied_problem] * 3


def small_problems(seed, count):
    """Problems with goals apart that settling word by word has time for."""
    for _, problem, _ in random_problems(seed, count, FAMILIES):
        problem.limit = min(problem.limit, 25)
        if problem.n <= 7 and problem.low != problem.high:
            yield problem


@test
def property_assignments_by_pairs():
    """Seating by the ideal of a pair, settling by its ratio; other rules show."""
    problems = [problem for problem in small_problems(63, 1200) if assigned(problem)]
    check("problems with goals apart, %d" % len(problems), len(problems) >= 300, True)
    right = [assigned(problem) for problem in problems]
    for problem, wanted in zip(problems, right):
        check("an assignment by pairs", answered(problem), wanted)
    # an ideal of 0 would be brought up to the lower bound, so that it does not show
    ideals = [wrong for wrong in WRONG_IDEALS if wrong[0] != "0 for k = 0"]
    for part, wrong in (("of_pair", ideals), ("ratio", WRONG_RATIOS)):
        for what, rule in wrong:
            found = sum(assigned(problem, **{part: rule}) != wanted
                        for problem, wanted in zip(problems, right))
            check("wrong and told apart: %s %s, %d times" % (part, what, found), found >= 8,
                  True)


@test
def settling_by_pairs_by_hand():
    """v1 = v2, where the first wants 4 to 9 and is seated at 6, the second another number."""
    for other, values, counts in ((6000, [6, 6], (0, 0)), (8000, [6, 6], (0, 0)),
                                  (12000, [7, 7], (0, 1)), (3000, [5, 5], (0, 1)),
                                  (30000, [11, 11], (0, 5))):
        problem = with_goals(make(2, [[1, -1]], [0], (1, 99)), [4000, other], [9000, other])
        got, lent = solve(problem)
        check("tied to a curve that wants %d" % other, (got, lent.values),
              ((FITTED, *counts), values))
    # from 4, 5 improves the ratio 9/4 to 9/5; from 9 it is 9/4 again, and 8 has 2
    problem = with_goals(make(1, [], [], (1, 99)), [4000], [9000])
    for first, steps in ((4, 2), (9, 3), (6, 0), (1, 5)):
        got, lent = resume(problem, [first])
        check("from %d" % first, (got, lent.values), ((FITTED, 0, steps), [6]))


# ----------------------------------------------------------- refusal 5, on buffers

# A lower bound, a low and a high goal, and whether the pair keeps the rule.
RULES = [
    # “both 0 or both set”
    (1, 0, 0, True), (0, 0, 0, True), (-5, 0, 0, True), (1, 1, 1, True), (1, 1, MOST, True),
    (1, MOST, MOST, True), (9, 3000, 4000, True), (1, 0, 1, False), (1, 1, 0, False),
    (1, 0, MOST, False), (1, MOST, 0, False), (0, 0, 1, False),
    # “low at most high”
    (1, 2, 1, False), (1, MOST, MOST - 1, False), (1, 4000, 3999, False),
    # “0 (no goal) to 1,000,000,000”
    (1, -1, -1, False), (1, -1, 0, False), (1, 0, -1, False), (1, -1, 1, False),
    (1, 1, MOST + 1, False), (1, MOST + 1, MOST + 1, False), (1, 1, -1, False),
    (1, -2 ** 63, 2 ** 63 - 1, False), (1, 2 ** 63 - 1, 2 ** 63 - 1, False),
    # “A column with a goal has lower bound 1 or more”
    (0, 1, 1, False), (0, 1, 2, False), (-1, 4000, 9000, False), (0, MOST, MOST, False),
]


def plain_breaks(lower, low, high, above=False, high_alone=False, low_alone=False, bound=True,
                 range_of_high=True):
    """Whether a pair breaks the rule. The wrong answers have other settings."""
    if low < 0 or low > MOST or range_of_high and (high < 0 or high > MOST):
        return True
    if low > 0 and lower <= 0 and bound:
        return True
    if low == 0:
        return high != 0 and not high_alone
    if high == 0:
        return not low_alone
    return low > high and not above


WRONG_RULES = [("a low goal above the high one passes", {"above": True}),
               ("a high goal alone passes", {"high_alone": True}),
               ("a low goal alone passes", {"low_alone": True}),
               ("a goal with any lower bound passes", {"bound": False}),
               ("a high goal of any size passes", {"range_of_high": False})]


@test
def refusal_5_of_pairs():
    lent = Lent([0] * 6, [2, 2], [0, 0])
    for lower, low, high, keeps in RULES:
        for j in (0, 1):
            problem = sound_problem()
            problem.lower[j], problem.low[j], problem.high[j] = lower, low, high
            what = "lower %d, low %d, high %d" % (lower, low, high)
            check(what, engine.first_cause(problem, lent), 0 if keeps else 5)
            check(what + ": word by word", plain_breaks(lower, low, high), not keeps)
    for what, settings in WRONG_RULES:
        found = [rule for rule in RULES if plain_breaks(*rule[:3], **settings) == rule[3]]
        check("wrong and told apart by hand: " + what, len(found) > 0, True)


@test
def property_refusal_5_of_pairs():
    many = [list(zip(case.problem.lower, case.problem.low, case.problem.high))
            for case in generate.problems(4000, 64)]
    for columns in many:
        check("pairs that break the rule",
              [engine.pair_breaks_the_rule(*column) for column in columns],
              [plain_breaks(*column) for column in columns])
    for what, settings in WRONG_RULES:
        found = sum(any(plain_breaks(*column) for column in columns)
                    != any(plain_breaks(*column, **settings) for column in columns)
                    for columns in many)
        check("wrong and told apart: %s, %d times" % (what, found), found >= 8, True)


# ---------------------------------------------------- refusal 5, at its place in a text

# The refusal, the words up to the goal that decides, and the goals tried there.
REFUSED = [
    # the low goal's range
    (b"1 1 9 ", [b"-1", b"1000000001", b"9999999999", b"-9999999999"]),
    # a low goal with a lower bound below 1
    (b"1 0 9 ", [b"1", b"4000", b"1000000000", b"-1", b"1000000001"]),
    (b"1 -3 9 ", [b"1", b"1000000000"]),
    # the high goal's range
    (b"1 1 9 4000 ", [b"-1", b"1000000001", b"9999999999", b"-9999999999"]),
    (b"1 1 9 1000000000 ", [b"1000000001"]),
    # “both 0 or both set”
    (b"1 1 9 0 ", [b"1", b"4000", b"1000000000", b"-1", b"1000000001"]),
    (b"1 0 9 0 ", [b"1", b"-1"]),
    (b"1 1 9 1 ", [b"0"]),
    # “low at most high”
    (b"1 1 9 4000 ", [b"0", b"1", b"3999"]),
    (b"1 1 9 1000000000 ", [b"1", b"999999999"]),
    # a later interval
    (b"2 1 9 4000 9000 1 9 ", [b"-1", b"1000000001"]),
    (b"3 1 9 0 0 0 9 0 0 1 9 7000 ", [b"6999", b"0"]),
]

NO_NUMBERS = [b"x", b"-0", b"+5", b"007", b"12345678901", b"9,000"]


@test
def refusal_5_at_its_place():
    """What follows the goal that decides plays no part, and what comes before is read."""
    for front, goals in REFUSED:
        check("%r, then nothing" % front, refusal_of(front), 11)
        for word in NO_NUMBERS:
            check("%r, then %r" % (front, word), refusal_of(front + word), 11)
        for goal in goals:
            for after in (b"", b" ", b" x", b" -0", b" 0", b" 4000", b" 9 1 x", b" 0 0"):
                check("%r, then %r, then %r" % (front, goal, after),
                      refusal_of(front + goal + after), 5)


@test
def pairs_in_a_text_that_are_read():
    for lower, low, high, keeps in RULES:
        # more than ten digits are no number
        if max(abs(low), abs(high)) < 10 ** 10:
            data = b"1 %d 9 %d %d 0 0" % (lower, low, high)
            check("%r" % data, refusal_of(data), 0 if keeps else 5)
    deck = text.read(b"3 1 9 4000 9000 1 9 0 0 2 9 5000 5000 0 0")
    check("low goals", deck.low[:4], [4000, 0, 5000, 0])
    check("high goals", deck.high[:4], [9000, 0, 5000, 0])
    # three numbers, as older texts have them: the next line's lower bound is no high goal
    check("an older line with a goal", refusal_of(b"2 1 9 3000 1 9 3000 0 0"), 5)
    check("an older line without one", refusal_of(b"2 1 9 0 1 9 0 0 0"), 5)
    check("an older text of one curve", refusal_of(b"1 1 9 0 0 0"), 11)


def plain_refusal(words, count, late=False, **settings):
    """The refusal of so many intervals' lines, word by word, 0 if they are read. The wrong
    answers have other settings; late judges a low goal at the high one's place."""
    line = []
    for at in range(4 * count):
        word = words[at] if at < len(words) else b""
        if not re.fullmatch(rb"0|-?[1-9]\d{0,9}", word):
            return 11
        line = (line if at % 4 else []) + [int(word)]
        if len(line) <= 2:
            if abs(line[-1]) > 1000000 or line[0] > line[-1]:
                return 4
            continue
        lower, _, low, high = line + line[2:] if len(line) == 3 else line
        if not (late and len(line) == 3) and plain_breaks(lower, low, high, **settings):
            return 5
    return 0


WRONG_PLACES = WRONG_RULES + [("a low goal judged at the high one's place", {"late": True})]


def first_sections(texts):
    """Of texts with a count of intervals, the words behind it, the count, and the refusal of
    the intervals' lines, 0 if they are read."""
    for data in texts:
        numbers = text.Numbers(data)
        refusal = 0
        try:
            count = numbers.next_within(1, 48, 1)
        except text.Refused:
            continue
        words = numbers.runs[1:]
        try:
            for _ in range(count):
                text.read_interval(numbers)
        except text.Refused as refused:
            refusal = refused.number
        yield (words, count), refusal


def telling(sections, settings):
    """How many sections are refused otherwise under these settings."""
    return sum(plain_refusal(*section, **settings) != refusal for section, refusal in sections)


@test
def property_places_word_by_word():
    sections = list(first_sections(generate.texts(4000, 65)))
    for section, refusal in sections:
        check("the refusal of the intervals' lines", plain_refusal(*section), refusal)
    hand = list(first_sections(front + goal + after for front, goals in REFUSED
                               for goal in goals for after in (b"", b" x", b" 4000")))
    check("by hand, word by word", telling(hand, {}), 0)
    for what, settings in WRONG_PLACES:
        check("wrong and told apart by hand: " + what, telling(hand, settings) > 0, True)
        found = telling(sections, settings)
        check("wrong and told apart: %s, %d times" % (what, found), found >= 8, True)


# --------------------------------------------------- older cases, which have both equal

def older_ideal(g):
    """Document 01: “k is floor(g/1000); take 1 if k = 0, k + 1 if k(k + 1) × 1,000,000 < g × g,
    else k”."""
    k = g // 1000
    if k == 0:
        return 1
    return k + 1 if k * (k + 1) * 1000000 < g * g else k


def older_ratio(g, v):
    """Document 01: “the larger of 1000v/g and g/1000v”."""
    return max(Fraction(1000 * v, g), Fraction(g, 1000 * v))


def of_one_goal(rule):
    """A rule of document 01 where both goals are the one that it knows."""
    def of_both(low, high, *value):
        if low != high:
            raise ValueError("no older case: goals %d and %d" % (low, high))
        return rule(low, *value)
    return of_both


def edge_goals():
    """The goals on both sides of each place where an ideal changes, and of each whole
    number of intervals, near and far."""
    for k in [*range(1, 60), 999, 1000, 31622, 99999, 999998, 999999]:
        middle = math.isqrt(k * (k + 1) * 1000000)
        yield from (middle - 1, middle, middle + 1, middle + 2)
        yield from (1000 * k - 1, 1000 * k, 1000 * k + 1, 1000 * k + 500)
    yield from (1, 2, 400, 999, MOST - 1, MOST)


@test
def older_rules_agree():
    """With both equal, the ideal and the ratio are document 01's."""
    rng = random.Random(66)
    goals = [g for g in edge_goals() if g <= MOST]
    goals += [rng.randint(1, rng.choice([3000, 30000, MOST])) for _ in range(1500)]
    for g in goals:
        k = older_ideal(g)
        check("ideal of %d twice" % g, engine.goal_ideal(g, g), k)
        for v in (1, k, k + 1, rng.randint(1, 3 * k)):
            check("ratio of %d to %d twice" % (v, g), Fraction(*engine.ratio(g, g, v)),
                  older_ratio(g, v))


@test
def older_problems_keep_their_answers():
    """Random problems with one goal a column: what is answered and the values are those by
    document 01's rules."""
    made = steps = 0
    for number in range(500):
        rng = rng_for(67, number)
        problem, _ = rng.choice(FAMILIES)(rng)
        generate.hand_in(rng, problem)
        problem.limit = min(problem.limit, 25)
        check("an older case", problem.low, problem.high)
        wanted = assigned(problem, of_one_goal(older_ideal), of_one_goal(older_ratio))
        if wanted is None or problem.n > 7:
            continue
        check("an older problem's answer", answered(problem), wanted)
        made += any(problem.low)
        steps += wanted[0][2] > 0
    check("older problems with goals, %d" % made, made >= 100, True)
    check("older problems with steps towards them, %d" % steps, steps >= 50, True)


def older_text(sketch):
    """A deck's text as it was: three numbers to an interval's line, and two sections."""
    intervals, rows, _ = sketch.sections()
    return join(intervals[:1] + [line[:3] for line in intervals[1:]] + rows)


def renewed(data):
    """An older text as it is typed now: each goal written twice, and a closing 0."""
    count, *words = data.split()
    lines = [words[at:at + 3] + words[at + 2:at + 3] for at in range(0, 3 * int(count), 3)]
    return join([[count]] + lines + [words[3 * int(count):]] + [[b"0"]])


def older_sketches(seed, count):
    """Decks of one goal a curve, small enough for settling word by word."""
    for number in range(count):
        rng = rng_for(seed, number)
        sketch = rng.choice(generate.DECKS)(rng)
        if rng.random() < 0.3:
            generate.without_some_goals(rng, sketch)
        sketch.volumes = []
        if sketch.fits() and len(sketch.intervals) + len(sketch.rows) <= 14:
            yield sketch


def older_listing(problem):
    """The lines of a listing by document 01's rules; None past the elimination limit."""
    done = assigned(problem, of_one_goal(older_ideal), of_one_goal(older_ratio))
    if done is None:
        return None
    (outcome, bounds_count, goals_count), values = done
    if isinstance(outcome, int):
        return listing.refusal_lines(outcome)
    _, basis = solved(problem)
    return listing.verdict_lines(outcome, bounds_count, goals_count,
                                 Lent([], values, engine.strides_of(basis, problem.n)))


@test
def older_texts_keep_their_listings():
    """Each goal written twice: the reader's buffers have the goal in both lists, its ideals
    are the means of document 01's, and the listing is that by document 01's rules."""
    made = {"listings": 0, "ideals of the reader's": 0, "steps towards the goals": 0}
    for sketch in older_sketches(68, 500):
        older = older_text(sketch)
        deck = text.read(renewed(older))
        goals = [int(word) for word in older.split()[3:3 * len(sketch.intervals) + 1:3]]
        check("both goals of an older text", (deck.low[:deck.intervals],
                                              deck.high[:deck.intervals]), (goals, goals))
        check("the reader's ideals of an older text", ideals_of(deck),
              plain_wishes(deck, of_pair=of_one_goal(older_ideal)))
        lines = listing.listing_lines(renewed(older))
        # the word in front, and where there is a verdict the counts of steps
        steps = [int(word) for word in lines[0].split()[1:]]
        if lines == ["REFUSED 7"] or sum(steps) > 40:
            continue
        check("an older text's listing", lines, older_listing(listing.problem_of(deck)))
        made["listings"] += 1
        made["ideals of the reader's"] += any(deck.given)
        made["steps towards the goals"] += steps[-1:] > [0] and len(steps) == 2
    for what, count in made.items():
        check("older texts with %s, %d" % (what, count), count >= 40, True)


@test
def older_goals_are_refused_as_before():
    """Document 01's refusal 5, “goal outside, or goal with lower below 1”, on a goal that is
    written twice, at both places in the text and on buffers."""
    for lower in (-3, 0, 1, 5):
        for goal in (-9999999999, -1, 0, 1, 3000, MOST, MOST + 1, 9999999999):
            refused = goal < 0 or goal > MOST or goal > 0 and lower < 1
            data = renewed(b"1\n%d 9 %d\n0\n" % (lower, goal))
            check("%r" % data, refusal_of(data), 5 if refused else 0)
            problem = make(1, [], [], (lower, 9), [goal])
            check("lower %d, goal %d on buffers" % (lower, goal),
                  engine.first_cause(problem, Lent([0], [0], [0])), 5 if refused else 0)
