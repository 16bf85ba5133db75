"""Document 02, (ii), “Start plain curves from their neighbours”: the reader's ideals clause
by clause, seating with ideals that are handed in, and wrong answers that are told apart.
"""

import math
from fractions import Fraction

import engine
import generate
import text
from engine import FITTED, GOALS, Lent
from tests.restated import solved
from tests.settling import plain_ratio
from tests.tools import (ORDINARY, chain, check, make, marked_lent, random_problems, resume,
                         solve, test, with_ideals)

BIGGEST, SMALLEST = 2 ** 63 - 1, -2 ** 63


# ---------------------------------------------------------- the reader, by hand

def plain(lower=1, upper=100):
    """An interval without a goal."""
    return lower, upper, 0, 0


def wanted(goal, lower=1, upper=100):
    """An interval both of whose goals are this one."""
    return lower, upper, goal, goal


def shared(low, high, lower=1, upper=100):
    """An interval with two wishes."""
    return lower, upper, low, high


def row(*indices, kind=0, coefficient=1):
    """A row over these intervals, counted from 1."""
    terms = [(index, coefficient) for index in indices]
    return (kind, 0, len(indices)) + tuple(number for term in terms for number in term)


def text_of(intervals, rows, volumes=()):
    lines = [(len(intervals),)] + intervals + [(len(rows),)] + rows + [(len(volumes),)]
    for paths in volumes:
        lines += [(len(paths),)] + [(len(path), *path) for path in paths]
    return "\n".join(" ".join(map(str, line)) for line in lines).encode()


FOUR, SIX, SEVEN, TEN = wanted(4000), wanted(6000), wanted(7000), wanted(10000)

# What is shown, the intervals, the rows, and each column's ideal, None where it is unset.
READINGS = [
    # “the mean, rounded down, of the ideals”
    ("one neighbour", [plain(), FOUR], [row(1, 2)], [4, None]),
    ("a mean that is whole", [plain(), FOUR, SIX], [row(1, 2, 3)], [5, None, None]),
    ("5 and a half", [plain(), FOUR, SEVEN], [row(1, 2, 3)], [5, None, None]),
    ("1 and two thirds", [plain(), wanted(1000), wanted(900), wanted(3000)],
     [row(1, 2, 3, 4)], [1, None, None, None]),
    ("ideals, not goals", [plain(), wanted(1500), wanted(1600)], [row(1, 2, 3)],
     [2, None, None]),
    ("an ideal is brought down to its bound", [plain(), wanted(9000, 1, 5), SEVEN],
     [row(1, 2, 3)], [6, None, None]),
    ("an ideal is brought up to its bound", [plain(), wanted(1000, 8, 20), FOUR],
     [row(1, 2, 3)], [6, None, None]),
    ("the largest sum", [plain()] + [wanted(10 ** 9, 1, 1000000)] * 47,
     [row(*range(1, 49))], [1000000] + [None] * 47),
    # document 02, (v): an ideal is that of both goals, the root of 4 × 9 and not 5 or 6.5
    ("a neighbour with two wishes", [plain(), shared(4000, 9000)], [row(1, 2)], [6, None]),
    ("two of them", [plain(), shared(4000, 9000), shared(1000, 9000)], [row(1, 2, 3)],
     [4, None, None]),
    ("at the middle between two", [plain(), shared(4000, 5000)], [row(1, 2)], [4, None]),
    ("just above it", [plain(), shared(4000, 5001)], [row(1, 2)], [5, None]),
    ("two wishes, brought down to a bound", [plain(), shared(4000, 9000, 1, 5), SEVEN],
     [row(1, 2, 3)], [6, None, None]),
    # “of all intervals with a goal”
    ("plain ones do not count", [plain(), plain(50), FOUR], [row(1, 2, 3)], [4, 4, None]),
    ("nor does what was set for them", [plain(), plain(), FOUR], [row(1, 2), row(2, 3)],
     [None, 4, None]),
    ("two plain ones have each their own", [plain(), FOUR, plain(), TEN],
     [row(1, 2), row(2, 3, 4)], [4, None, 7, None]),
    # “that have a nonzero coefficient in some row with it”
    ("neighbours of two rows", [plain(), FOUR, TEN], [row(1, 2), row(1, 3)], [7, None, None]),
    ("a neighbour's neighbour", [plain(), FOUR, TEN], [row(1, 2), row(2, 3)],
     [4, None, None]),
    ("the last row", [FOUR, TEN, plain()], [row(1, 2), row(), row(2, 3)], [None, None, 10]),
    ("coefficients below 0", [plain(), FOUR], [row(1, 2, coefficient=-1000)], [4, None]),
    ("a row of kind 1", [plain(), FOUR], [row(1, 2, kind=1)], [4, None, None]),
    ("a row of kind 2", [plain(), FOUR], [row(1, 2, kind=2)], [4, None, None]),
    ("a row of kind 3", [plain(), FOUR], [row(1, 2, kind=3)], [4, None, None]),
    # “each counted once”
    ("a neighbour in two rows", [plain(), FOUR, TEN], [row(1, 2, 3), row(1, 2)],
     [7, None, None]),
    ("a neighbour in three rows", [plain(), FOUR, TEN],
     [row(1, 3), row(1, 2, kind=1), row(1, 2, 3), row(1, 2, kind=3)],
     [7, None, None, None, None]),
    ("two of the same ideal", [plain(), FOUR, FOUR, TEN], [row(1, 2, 3, 4)],
     [6, None, None, None]),
    # “It is unset if there are none”
    ("no rows", [plain(), FOUR], [], [None, None]),
    ("alone in its row", [plain(), FOUR], [row(1), row(2)], [None, None]),
    ("plain ones beside each other", [plain(), plain(), FOUR], [row(1, 2), row(3)],
     [None, None, None]),
    # “and for slacks”
    ("a slack beside goals", [FOUR, SIX], [row(1, 2, kind=1)], [None, None, None]),
    ("a slack beside a plain interval", [plain(), FOUR], [row(1, 2, kind=2), row(1, kind=3)],
     [4, None, None, None]),
    ("a slack is no neighbour", [plain()], [row(1, kind=1)], [None, None]),
    # “such an interval” has no goal
    ("goals beside each other", [FOUR, SIX], [row(1, 2)], [None, None]),
    # its own bounds are seating's matter
    ("a mean above its bounds", [plain(1, 3), FOUR, SEVEN], [row(1, 2, 3)], [5, None, None]),
    ("a mean below its bounds", [plain(20, 30), FOUR, SEVEN], [row(1, 2, 3)],
     [5, None, None]),
    ("bounds below 0", [plain(-9, -2), FOUR, SEVEN], [row(1, 2, 3)], [5, None, None]),
]


def ideals_of(deck):
    """The ideals of a read deck by column: None where the mark is 0."""
    return [number if mark else None
            for mark, number in zip(deck.given[:deck.n], deck.ideals[:deck.n])]


@test
def reader_ideals_by_hand():
    for what, intervals, rows, ideals in READINGS:
        deck = text.Deck()
        # any numbers before the call
        deck.given[:], deck.ideals[:] = [-3] * 48, [BIGGEST] * 48
        check(what + ": read", text.read(text_of(intervals, rows), deck) is deck, True)
        rest = [0] * (48 - len(ideals))
        check(what + ": whether it is set", deck.given,
              [0 if number is None else 1 for number in ideals] + rest)
        check(what, deck.ideals, [number or 0 for number in ideals] + rest)


# --------------------------------------------------- the reader, word by word

def plain_goal_ideal(low, high):
    """The number of intervals with the least ratio, of two equal ones the smaller."""
    k = math.isqrt(low * high) // 1000
    return min((v for v in (k, k + 1) if v >= 1),
               key=lambda v: (plain_ratio(low, high, v), v))


def plain_wish(deck, j, once=True, up=False, cut=True, slacks=False, zero=False,
               of_pair=plain_goal_ideal):
    """The ideal of column j by the matrix that was read, None where it is unset. The wrong
    answers have other settings."""
    n = deck.n
    if deck.low[j] or (j >= deck.intervals and not slacks):
        return None
    counted = []
    for h in range(deck.intervals):
        rows = sum(deck.coefficients[i * n + j] != 0 and deck.coefficients[i * n + h] != 0
                   for i in range(deck.m))
        if rows and deck.low[h]:
            ideal = of_pair(deck.low[h], deck.high[h])
            if cut:
                ideal = sorted([deck.lower[h], ideal, deck.upper[h]])[1]
            counted += [ideal] * (1 if once else rows)
    if not counted:
        return 0 if zero else None
    mean = Fraction(sum(counted), len(counted))
    return math.ceil(mean) if up else math.floor(mean)


def plain_wishes(deck, **settings):
    return [plain_wish(deck, j, **settings) for j in range(deck.n)]


WRONG_READINGS = [("a neighbour counted once per row", {"once": False}),
                  ("the mean rounded up", {"up": True}),
                  ("an ideal taken from a neighbour before its bounds", {"cut": False}),
                  ("a slack's ideal set", {"slacks": True}),
                  ("unset handed in as the ideal 0", {"zero": True})]


def random_decks(seed, count):
    """Decks of the generator that are read."""
    for data in generate.texts(count, seed):
        deck = text.read(data)
        if not isinstance(deck, int):
            yield deck


def differing(decks, settings):
    """How many decks have other ideals under these settings."""
    return sum(plain_wishes(deck, **settings) != ideals_of(deck) for deck in decks)


@test
def property_reader_word_by_word():
    """The reader's ideals are the rule's, and each wrong answer differs on many texts, those
    by hand among them."""
    decks = list(random_decks(31, 1500))
    for deck in decks:
        check("the reader's ideals", ideals_of(deck), plain_wishes(deck))
        check("the marks are 0 and 1", set(deck.given) <= {0, 1}, True)
        check("unset has the number 0", any(number for mark, number in
                                            zip(deck.given, deck.ideals) if mark == 0), False)
    hand = [text.read(text_of(intervals, rows)) for _, intervals, rows, _ in READINGS]
    check("by hand, word by word", differing(hand, {}), 0)
    for what, settings in WRONG_READINGS:
        check("wrong and told apart by hand: " + what, differing(hand, settings) > 0, True)
        check("wrong and told apart: " + what, differing(decks, settings) >= 30, True)


# ----------------------------------------------------------- seating, by hand

def alone(goal, mark, number, lower=1, upper=9):
    """One column and no rows: it is seated at its ideal."""
    return with_ideals(make(1, [], [], (lower, upper), [goal]), [mark], [number])


def offset(mark, number, goal=0, lower=-99):
    """v1 = 5 × v2 + 13: before seating v1 is 3, and it moves by fives."""
    problem = make(2, [[1, -5]], [13], [(lower, 99), (-99, 99)], [goal, 0])
    return with_ideals(problem, [mark, 0], [number, 77])


# What is shown, the problem, and the seated list.
SEATED = [
    # “Any number may be handed in as an ideal”
    ("within the bounds", alone(0, 1, 5), [5]),
    ("the ideal 0", alone(0, 1, 0, -3, 9), [0]),
    ("below 0", alone(0, 1, -2, -3, 9), [-2]),
    ("any mark but 0", alone(0, -7, 5), [5]),
    ("the mark 2", alone(0, 2, 5), [5]),
    ("the greatest mark", alone(0, BIGGEST, 5), [5]),
    ("the least mark", alone(0, SMALLEST, 5), [5]),
    # “and brought into the bounds”
    ("at the upper bound", alone(0, 1, 9), [9]),
    ("above the bounds", alone(0, 1, 10), [9]),
    ("below the bounds", alone(0, 1, 0), [1]),
    ("the greatest number", alone(0, 1, BIGGEST), [9]),
    ("the least number", alone(0, 1, SMALLEST), [1]),
    ("the farthest bound", alone(0, 1, BIGGEST, -1000000, 1000000), [1000000]),
    ("beyond 32 bits", alone(0, 1, 2 ** 32 + 5), [9]),
    # “it is used only without a goal”
    ("beside a goal", alone(7000, 1, 3), [7]),
    ("beside a goal, outside the bounds", alone(7000, 1, BIGGEST), [7]),
    ("a goal alone", alone(7000, 0, 3), [7]),
    # “unset, document 01's rule holds”
    ("the mark 0", alone(0, 0, 5), [1]),
    ("the mark 0, without a near bound", alone(0, 0, 5, -3, 9), [0]),
    ("unset, from 3", offset(0, 50), [3, -2]),
    ("unset, from 3 to its bound", offset(0, 50, lower=12), [13, 0]),
    # “add floor((2d + p) / 2p) times the vector”
    ("0 from 3 by fives", offset(1, 0), [-2, -3]),
    ("10 from 3 by fives", offset(1, 10), [8, -1]),
    ("11 from 3 by fives", offset(1, 11), [13, 0]),
    ("-50 from 3 by fives", offset(-1, -50), [-52, -13]),
    ("brought into the bounds, then by fives", offset(1, 5000), [98, 17]),
    ("beside a goal by fives", offset(1, 50, goal=9000, lower=1), [8, -1]),
    ("the next vector's column", with_ideals(make(3, [[1, -1, 2]], [0], (-99, 99)),
                                             [1, 1, 1], [5, 20, 7]), [5, 21, 8]),
]


@test
def seating_ideals_by_hand():
    for what, problem, values in SEATED:
        start, basis = solved(problem)
        check(what + ": seated", engine.seat(problem, basis, start), values)
        got, lent = solve(problem)
        check(what, (got, lent.values), ((FITTED, 0, 0), values))


@test
def seating_beyond_m_by_an_ideal():
    """Refusal 9 by an ideal that is handed in, and not by one under the mark 0."""
    for mark, answer in ((1, (9, 0, 0)), (-7, (9, 0, 0)), (0, (FITTED, 0, 0))):
        problem = with_ideals(chain(3, (0, 1000000)), [mark, 0, 0], [1000000, 0, 0])
        check("chain of three with the mark %d" % mark, solve(problem)[0], answer)


# ------------------------------------------------------- seating, word by word

def plain_ideal(problem, j, present, over=False, zero=False, cut=True, one=False,
                of_pair=plain_goal_ideal):
    """The ideal of a column. The wrong answers have other settings."""
    handed = problem.given[j] == 1 if one else problem.given[j] != 0
    if handed and (over or problem.low[j] == 0):
        number = problem.ideals[j]
        if not cut:
            return number
    elif problem.low[j] != 0:
        number = of_pair(problem.low[j], problem.high[j])
    else:
        number = 0 if zero else present
    return sorted([problem.lower[j], number, problem.upper[j]])[1]


def plain_seat(problem, basis, values, **settings):
    """Seating by fractions: half a lead and more is a whole time. None beyond ±M."""
    for vector in basis:
        c = engine.lead_of(vector)
        d = plain_ideal(problem, c, values[c], **settings) - values[c]
        times = math.floor(Fraction(d, vector[c]) + Fraction(1, 2))
        values = [value + times * entry for value, entry in zip(values, vector)]
        if max(map(abs, values)) > engine.M:
            return None
    return values


WRONG_SEATING = [("an ideal used although there is a goal", {"over": True}),
                 ("unset read as the ideal 0", {"zero": True}),
                 ("an ideal not brought into the bounds", {"cut": False}),
                 ("only the mark 1 counts", {"one": True})]


def differing_seats(seats, settings):
    """How many seated lists are others under these settings."""
    return sum(plain_seat(*seat, **settings) != engine.seat(*seat) for seat in seats)


@test
def property_seating_word_by_word():
    seats = []
    for _, problem, _ in random_problems(32, 1200, ORDINARY):
        try:
            found = solved(problem)
        except engine.Beyond:
            continue
        if found != "none":
            seats.append((problem, found[1], found[0]))
    for seat in seats:
        check("seating", engine.seat(*seat), plain_seat(*seat))
    hand = [(problem,) + solved(problem)[::-1] for _, problem, _ in SEATED]
    check("by hand, word by word", differing_seats(hand, {}), 0)
    for what, settings in WRONG_SEATING:
        check("wrong and told apart by hand: " + what, differing_seats(hand, settings) > 0, True)
        check("wrong and told apart: " + what, differing_seats(seats, settings) >= 30, True)


# ----------------------------------------------------- what reads no ideals

def other_ideals(rng, problem, columns):
    """The same problem with other ideals in these columns."""
    given, ideals = list(problem.given), list(problem.ideals)
    for j in columns:
        given[j] = rng.choice([0, 1, -7, BIGGEST, SMALLEST])
        ideals[j] = rng.choice([0, 1, -40, 40, BIGGEST, SMALLEST])
    return with_ideals(problem, given, ideals)


@test
def property_goals_come_first():
    """“it is used only without a goal”: beside goals, ideals play no part."""
    met = 0
    for rng, problem, _ in random_problems(33, 500, ORDINARY):
        goals = [j for j in range(problem.n) if problem.low[j]]
        met += bool(goals)
        again = other_ideals(rng, problem, goals)
        (one, lent), (two, other) = solve(problem), solve(again)
        check("other ideals beside goals", (two, other.values, other.strides, other.tableau),
              (one, lent.values, lent.strides, lent.tableau))
    check("problems with goals", met >= 100, True)


@test
def property_continue_and_preview_read_no_ideals():
    """Seating alone reads them: other ideals in all columns change neither call."""
    steps = 0
    for rng, problem, hidden in random_problems(34, 500, ORDINARY):
        again = other_ideals(rng, problem, range(problem.n))
        (one, lent), (two, other) = resume(problem, hidden), resume(again, hidden)
        check("Continue with other ideals", (two, other.values, other.strides, other.tableau),
              (one, lent.values, lent.strides, lent.tableau))
        first, second = marked_lent(problem.n, problem.m), marked_lent(problem.n, problem.m)
        shown = engine.preview(problem, hidden, first)
        check("a preview with other ideals",
              (engine.preview(again, hidden, second), second.values, second.tableau),
              (shown, first.values, first.tableau))
        steps += shown[1] is not None
    check("previews of a step", steps >= 100, True)


@test
def ideals_of_any_size_are_no_cause():
    """“Any number may be handed in as an ideal”: no cause looks at what the lists hold."""
    for mark in (0, 1, -7, BIGGEST, SMALLEST):
        for number in (0, 1, -1, 2 ** 31, BIGGEST, SMALLEST):
            problem = with_ideals(make(2, [[1, 1]], [4], (1, 9), [2000, 0]),
                                  [mark, mark], [number, number])
            check("mark %d, number %d" % (mark, number),
                  engine.first_cause(problem, Lent([0] * 6, [0, 0], [0, 0])), 0)
            answer, lent = solve(problem)
            check("it is fitted", (answer, engine.part_of(problem, lent.values)),
                  ((FITTED, 0, 0), GOALS))
