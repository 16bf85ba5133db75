"""Document 02, (iii), “Swept volumes”: the rows that volumes add, sentence by sentence, each
refusal at its place in the text, and wrong answers that are told apart.
"""

import re

import engine
import generate
import listing
import text
from generate import Sketch, join, rng_for
from tests.ideals import FOUR, SIX, TEN, ideals_of, plain, row, text_of
from tests.reader import buffers_of, refusal_of
from tests.restated import solved
from tests.tools import check, test


# ------------------------------------------------------------- the rows, by hand

# What is shown, how many intervals, the volumes, and the rows that they add.
ADDED = [
    # “Path 1 less path k equals 0 is added”
    ("two paths", 2, [[[1], [2]]], [[1, -1]]),
    ("path 1 is the first in the text", 2, [[[2], [1]]], [[-1, 1]]),
    ("paths of several intervals", 5, [[[1, 3], [2, 4, 5]]], [[1, -1, 1, -1, -1]]),
    ("intervals on no path", 4, [[[2], [4]]], [[0, 1, 0, -1]]),
    # “for each later path”
    ("three paths", 3, [[[1], [2], [3]]], [[1, -1, 0], [1, 0, -1]]),
    ("four paths", 4, [[[2], [1], [4], [3]]],
     [[-1, 1, 0, 0], [0, 1, 0, -1], [0, 1, -1, 0]]),
    ("one path", 2, [[[1, 2]]], []),
    ("two equal paths", 2, [[[1], [1]]], [[0, 0]]),
    ("two equal paths among others", 2, [[[1], [2], [1], [2]]], [[1, -1], [0, 0], [1, -1]]),
    # “their indices in any order”
    ("indices that fall", 4, [[[3, 1], [4, 2]]], [[1, -1, 1, -1]]),
    ("equal paths in another order", 3, [[[1, 2, 3], [3, 1, 2]]], [[0, 0, 0]]),
    # “An interval on both paths cancels and leaves no term.”
    ("an interval on both paths", 3, [[[1, 2], [3, 2]]], [[1, 0, -1]]),
    ("a path along a part of path 1", 3, [[[1, 2, 3], [2]]], [[1, 0, 1]]),
    ("a path along path 1 and further", 3, [[[2], [1, 2, 3]]], [[-1, 0, -1]]),
    ("on both later paths, and not on path 1", 3, [[[1], [2, 3], [3]]],
     [[1, -1, -1], [1, 0, -1]]),
    # “in text order”
    ("two volumes", 3, [[[3], [1]], [[1], [2]]], [[-1, 0, 1], [1, -1, 0]]),
    ("each volume has a path 1", 4, [[[1], [2]], [[3], [4], [1]]],
     [[1, -1, 0, 0], [0, 0, 1, -1], [-1, 0, 1, 0]]),
    ("a volume of one path between", 2, [[[1], [2]], [[2]], [[2], [1]]],
     [[1, -1], [-1, 1]]),
    ("the same volume again", 2, [[[1], [2]], [[1], [2]]], [[1, -1], [1, -1]]),
    # “Older texts gain a closing 0.”
    ("no volumes", 2, [], []),
]

# Rows of the text before them, and how many columns these add.
BEFORE = [([], 0), ([row(1)], 0), ([row(1, 2, kind=1), row(1), row(2, kind=3)], 2)]


def check_enlarged(what, old, deck, added):
    """A deck against the one without its volumes: these rows more, over the intervals, with
    right sides 0 and no column of their own, “after all rows so far”."""
    n, m = old.n, old.m
    numbers = [a for line in added for a in line + [0] * (n - old.intervals)]
    table = old.coefficients[:n * m] + numbers
    check(what + ": n, m and intervals", (deck.n, deck.m, deck.intervals),
          (n, m + len(added), old.intervals))
    check(what + ": the rows", deck.coefficients, table + [0] * (2304 - len(table)))
    for name in ("rights", "lower", "upper", "low", "high"):
        check("%s: %s" % (what, name), getattr(deck, name), getattr(old, name))


@test
def volumes_add_rows():
    for what, count, volumes, added in ADDED:
        for rows, slacks in BEFORE:
            intervals = [plain()] + [FOUR] * (count - 1)
            old = text.read(text_of(intervals, rows))
            check("columns before", old.n, count + slacks)
            deck = text.Deck()
            # any numbers before the call
            deck.coefficients[:], deck.rights[:] = [7] * 2304, [7] * 48
            check(what + ": read",
                  text.read(text_of(intervals, rows, volumes), deck) is deck, True)
            check_enlarged(what, old, deck, added)


# --------------------------------------------------------- the rows, word by word

def random_sketches(seed, count):
    """Decks of the generator that fit, most of them with volumes."""
    for number in range(count):
        rng = rng_for(seed, number)
        sketch = generate.sketch_for(rng)
        if not sketch.volumes and rng.random() < 0.8:
            generate.add_volumes(rng, sketch)
        if sketch.fits():
            yield rng, sketch


def without_volumes(sketch):
    """The older deck: the same intervals and rows."""
    old = Sketch()
    old.intervals, old.rows = sketch.intervals, sketch.rows
    return old


def as_rows(sketch):
    """The deck that states as rows of its own what the volumes add."""
    stated = without_volumes(sketch)
    stated.rows = list(sketch.rows)
    for paths in sketch.volumes:
        for later in paths[1:]:
            stated.equal(paths[0], later)
    return stated


def deck_of(sketch):
    return text.read(join(sketch.tokens()))


def plain_rows(sketch, turned=False, kept=False, skipped=False, chained=False):
    """The rows that volumes add, each interval of a path added up. The wrong answers have
    other settings."""
    rows = []
    for paths in sketch.volumes:
        for k in range(1, len(paths)):
            first, later = paths[k - 1 if chained else 0], paths[k]
            if skipped and set(first) == set(later):
                continue
            sign = -1 if turned else 1
            line = [0] * len(sketch.intervals)
            for index in first:
                line[index - 1] += sign
            for index in later:
                line[index - 1] = -sign + (0 if kept else line[index - 1])
            rows.append(line)
    return rows


WRONG_ROWS = [("path k less path 1", {"turned": True}),
              ("an interval on both paths kept", {"kept": True}),
              ("no row for two equal paths", {"skipped": True}),
              ("each path less the next", {"chained": True})]


def differing(sketches, settings):
    """How many decks have other rows under these settings."""
    return sum(plain_rows(sketch, **settings) != plain_rows(sketch) for sketch in sketches)


def by_hand():
    for _, count, volumes, _ in ADDED:
        sketch = Sketch()
        sketch.intervals, sketch.volumes = [plain()] * count, volumes
        yield sketch


@test
def property_volumes_word_by_word():
    """The rows of the volumes after all others, in every buffer those of the text that
    states them as rows; each wrong answer differs on many texts."""
    sketches = [sketch for _, sketch in random_sketches(51, 500)]
    for sketch in sketches:
        deck = deck_of(sketch)
        check_enlarged("a random deck", deck_of(without_volumes(sketch)), deck,
                       plain_rows(sketch))
        check("an equal row like any other", buffers_of(deck),
              buffers_of(deck_of(as_rows(sketch))))
    check("by hand, word by word", [plain_rows(sketch) for sketch in by_hand()],
          [added for _, _, _, added in ADDED])
    for what, settings in WRONG_ROWS:
        check("wrong and told apart by hand: " + what, differing(by_hand(), settings) > 0, True)
        check("wrong and told apart: " + what, differing(sketches, settings) >= 30, True)


@test
def older_texts():
    """“Older texts gain a closing 0.” Without it they are short, and with it they are what
    they were: no rows are added, and the two sections make the deck."""
    for _, sketch in random_sketches(52, 200):
        older = join([line for section in without_volumes(sketch).sections()[:2]
                      for line in section])
        check("an older text is short", text.read(older), 11)
        columns, rows, volumes = text.read_sections(older + b"0\n")
        check("no volumes, no rows of paths", (volumes, text.path_rows(volumes)), ([], []))
        deck = text.Deck()
        text.fill_deck(deck, columns, rows)
        check("the same deck", buffers_of(text.read(older + b"0\n")), buffers_of(deck))


# ---------------------------------------------- the lists that satisfy the problem

def sums_agree(volumes, values):
    """Whether “all paths of each volume have equal sums”."""
    return all(len({sum(values[index - 1] for index in path) for path in paths}) == 1
               for paths in volumes)


def satisfying(rng, problem, count):
    """Random lists that satisfy a problem's rows; none past the elimination limit."""
    try:
        found = solved(problem)
    except engine.Beyond:
        found = "none"
    for _ in range(0 if found == "none" else count):
        values, basis = found
        for vector in basis:
            times = rng.choice([0, 1, -1, rng.randint(-9, 9)])
            values = [v + times * a for v, a in zip(values, vector)]
        yield values


def lists_for(rng, problems, n):
    """Lists that satisfy the rows of one of these problems, the same spoilt, and any."""
    found = [[rng.randint(-9, 9) for _ in range(n)], [0] * n]
    for problem in problems:
        for values in satisfying(rng, problem, 4):
            found.append(values)
            j = rng.randrange(n)
            found.append(values[:j] + [values[j] + rng.choice([-1, 1])] + values[j + 1:])
    return found


@test
def property_volumes_satisfied():
    """“A list satisfies the enlarged problem exactly when it satisfies the old one and all
    paths of each volume have equal sums.”"""
    met = {}
    for rng, sketch in random_sketches(53, 400):
        old = listing.problem_of(deck_of(without_volumes(sketch)))
        enlarged = listing.problem_of(deck_of(sketch))
        tried = [old, enlarged]
        if old.n == len(sketch.intervals):
            # without a y, lists of the paths alone are lists to try too
            alone = Sketch()
            alone.intervals, alone.volumes = sketch.intervals, sketch.volumes
            tried.append(listing.problem_of(deck_of(alone)))
        for values in lists_for(rng, tried, old.n):
            kind = (engine.satisfies_rows(old, values), sums_agree(sketch.volumes, values))
            met[kind] = met.get(kind, 0) + bool(sketch.volumes)
            check("a list that satisfies the old one %s, with equal sums %s" % kind,
                  engine.satisfies_rows(enlarged, values), kind == (True, True))
    for kind in ((True, True), (True, False), (False, True), (False, False)):
        check("lists of the kind %s, %d of them" % (kind, met[kind]), met[kind] >= 100, True)


# --------------------------------------------------------- refusals at their places

# Three intervals, and a y in column 4; then the third section.
HEAD = b"3 1 9 0 0 1 9 0 0 1 9 0 0 1 1 0 0 "
FULL_ROWS = b"3 1 9 0 0 1 9 0 0 1 9 0 0 48 " + b"0 0 0 " * 48
HUGE = b"9999999999"

# The refusal, the words up to the number that decides, and the numbers tried there.
REFUSED = [
    # “a negative count of volumes”
    (13, HEAD, [b"-1", b"-2", b"-" + HUGE]),
    # “a count of paths ... below 1”, where nothing of the volume is read yet
    (13, HEAD + b"1 ", [b"0", b"-1", b"-" + HUGE]),
    (13, HEAD + b"2 1 1 3 ", [b"0", b"-1"]),
    # 13 comes first there: below 1, no count makes a 49th row, however the rows stand
    (13, FULL_ROWS + b"1 ", [b"0", b"-1", b"-47", b"-49", b"-" + HUGE]),
    # “a count of paths that makes a 49th row is 1”
    (1, HEAD + b"1 ", [b"49", b"50", b"4294967297", HUGE]),
    (1, FULL_ROWS + b"1 ", [b"2", b"3", b"48", b"49", HUGE]),
    (1, FULL_ROWS + b"2 1 1 1 ", [b"2", HUGE]),
    # the rows of earlier volumes are among “all rows so far”
    (1, HEAD + b"2 48 " + b"1 1 " * 48, [b"2", b"48", HUGE]),
    (1, HEAD + b"3 25 " + b"1 2 " * 25 + b"24 " + b"1 3 " * 24, [b"2", b"3"]),
    # “a count ... of a path's intervals below 1”
    (13, HEAD + b"1 1 ", [b"0", b"-1", b"-" + HUGE]),
    (13, HEAD + b"1 2 1 1 ", [b"0", b"-1"]),
    # “an index outside”: an interval's, never that of a y
    (13, HEAD + b"1 1 1 ", [b"0", b"-1", b"4", b"5", b"48", b"49", HUGE, b"-" + HUGE]),
    (13, HEAD + b"1 2 2 3 1 2 2 ", [b"0", b"4"]),
    # “or twice in one path”, next to the first or not
    (13, HEAD + b"1 1 2 3 ", [b"3"]),
    (13, HEAD + b"1 1 3 3 1 ", [b"1", b"3"]),
    (13, HEAD + b"1 3 1 1 1 1 2 2 ", [b"2"]),
    # too large a count of intervals: after all intervals an index comes twice
    (13, HEAD + b"1 1 4 2 1 3 ", [b"1", b"2", b"3"]),
    (13, HEAD + b"1 1 " + HUGE + b" 3 2 1 ", [b"1", b"2", b"3"]),
]

# Third sections that are short or go on, and too large counts of volumes or of a path's
# intervals, with which no place breaks a rule before the text ends.
NOT_AS_LAID_OUT = [b"", b"x", b"-0", b"01", b"1.", b"12345678901", b"0 0", b"0 1", b"0 -1",
                   b"0 x", b"1", b"1 1", b"1 1 1", b"1 x", b"1 1 x", b"1 1 1 x", b"1 1 2 1",
                   b"1 1 1 1 0", b"1 1 1 1 1", b"1 1 1 1 -1", b"1 1 1 1 x", b"1 2 1 1",
                   b"1 2 1 1 1", b"1 2 1 1 1 +1", b"1 48", b"2 1 1 1", b"2 1 1 1 -", HUGE,
                   HUGE + b" 1 1 1 1 1 2", b"5000 " + b"1 1 3 " * 4999,
                   b"1 1 4 3 2 1", b"1 1 " + HUGE, b"1 1 " + HUGE + b" 3 2 1"]


@test
def refusals_at_their_places():
    """What follows the number that decides plays no part, and what comes before is read."""
    for refusal, front, numbers in REFUSED:
        for early in (b"", b"x"):
            check("%r, then %r" % (front[-20:], early), refusal_of(front + early), 11)
        for number in numbers:
            for after in (b"", b" ", b" x", b" -1", b" 0 0 0", b" 1 1 1 1 2 3"):
                check("%r, then %r, then %r" % (front[-20:], number, after),
                      refusal_of(front + number + after), refusal)
    for section in NOT_AS_LAID_OUT:
        check("%r" % section[:40], refusal_of(HEAD + section), 11)


# Third sections that are read.
ACCEPTED = [
    (HEAD, [b"0", b"1 1 1 1", b"1 1 3 3 2 1", b"1 2 1 1 1 1", b"1 2 2 1 2 3 2 1 3",
            b"2 1 1 1 1 1 1", b"2 2 1 1 1 2 2 1 2 1 1", b"1 48 " + b"1 3 " * 48,
            b"2 24 " + b"1 3 " * 24 + b"25 " + b"1 2 " * 25,
            b"3 48 " + b"1 3 " * 48 + b"1 1 2 1 1 3", b"900 " + b"1 1 2 " * 900]),
    (FULL_ROWS, [b"0", b"1 1 1 1", b"2 1 1 1 1 3 1 2 3"]),
    (b"48 " + b"1 9 0 0 " * 48 + b"0 ",
     [b"1 1 48 " + b" ".join(b"%d" % index for index in range(48, 0, -1))]),
]


@test
def third_sections_that_are_read():
    for front, sections in ACCEPTED:
        for section in sections:
            check("%r" % section[:40], refusal_of(front + section), 0)


def plain_refusal(words, intervals, columns, rows, outside=13, counted=True, limit=True,
                  every=False, slacks=False, twice=True, rising=False):
    """The refusal of a third section, word by word, 0 if it is read. The wrong answers have
    other settings."""
    taken, path = [], []
    for place in generate.places(taken):
        word = words[len(taken)] if len(taken) < len(words) else b""
        if not re.fullmatch(rb"0|-?[1-9]\d{0,9}", word):
            return 11
        number = int(word)
        taken.append(number)
        if place == "an index":
            if not 1 <= number <= (columns if slacks else intervals):
                return outside
            if twice and number in path or rising and path and number <= path[-1]:
                return 13
            path.append(number)
        elif number < (0 if place == "a count of volumes" else 1):
            return 13
        elif place == "a count of paths":
            if limit and rows + number - (0 if every else 1) > 48:
                return 1
            rows += number - 1 if counted else 0
        else:
            path = []
    return 0 if len(taken) == len(words) else 11


WRONG_REFUSALS = [("12 for an index outside", {"outside": 12}),
                  ("the rows' section alone counted", {"counted": False}),
                  ("a 49th row passes", {"limit": False}),
                  ("a row for path 1 too", {"every": True}),
                  ("an index may name a y", {"slacks": True}),
                  ("an index may come twice", {"twice": False}),
                  ("indices must rise", {"rising": True})]


def third_sections(texts):
    """Of texts whose first two sections are read, the words of the third, the counts that
    decide there, and the refusal."""
    for data in texts:
        numbers = text.Numbers(data)
        try:
            intervals, columns, rows = text.read_front(numbers)
        except text.Refused:
            continue
        words = numbers.runs[numbers.taken:]
        yield (words, intervals, len(columns), len(rows)), refusal_of(data)


def telling(sections, settings):
    """How many sections are refused otherwise under these settings."""
    return sum(plain_refusal(*section, **settings) != refusal for section, refusal in sections)


@test
def property_refusals_word_by_word():
    texts = [data for data in generate.texts(6000, 57) if len(data) <= text.MAX_TEXT]
    texts += [front + section for front, sections in ACCEPTED for section in sections]
    sections = list(third_sections(texts))
    for section, refusal in sections:
        check("a third section's refusal", plain_refusal(*section), refusal)
    hand = list(third_sections(front + number + b" 1 1" for _, front, numbers in REFUSED
                               for number in numbers))
    hand += list(third_sections(front + section for front, some in ACCEPTED
                                for section in some))
    hand += list(third_sections(HEAD + section for section in NOT_AS_LAID_OUT))
    check("by hand, word by word", telling(hand, {}), 0)
    for what, settings in WRONG_REFUSALS:
        check("wrong and told apart by hand: " + what, telling(hand, settings) > 0, True)
        found = telling(sections, settings)
        check("wrong and told apart: %s, %d times" % (what, found), found >= 8, True)


# ------------------------------------------------------ neighbours by rows of paths

# What is shown, the intervals, the rows, the volumes, and each column's ideal.
NEIGHBOURS = [
    ("beside path 1", [plain(), FOUR], [], [[[1], [2]]], [4, None]),
    ("on one path with it", [plain(), FOUR, TEN], [], [[[1, 2], [3]]], [7, None, None]),
    ("what cancelled is no neighbour", [plain(), FOUR, TEN], [], [[[1, 2], [2, 3]]],
     [10, None, None]),
    ("nor has it one", [plain(), FOUR, TEN], [], [[[1, 2], [3, 1]]], [None, None, None]),
    ("cancelled in one row alone", [plain(), FOUR, TEN], [], [[[1, 2], [2], [1, 3]]],
     [None, None, None]),
    ("left in the next row", [plain(), FOUR, TEN], [], [[[1, 2], [2], [3]]],
     [7, None, None]),
    ("two later paths are in no row together", [FOUR, plain(), TEN], [], [[[1], [2], [3]]],
     [None, 4, None]),
    ("one path has no row", [plain(), FOUR], [], [[[1, 2]]], [None, None]),
    ("two equal paths have an empty one", [plain(), FOUR], [], [[[1, 2], [2, 1]]],
     [None, None]),
    ("a row and a path", [plain(), FOUR, TEN], [row(1, 2)], [[[1], [3]]], [7, None, None]),
    ("counted once, in a row and a path", [plain(), FOUR, TEN], [row(1, 2)],
     [[[1], [2, 3]]], [7, None, None]),
    ("by two volumes", [plain(), FOUR, SIX], [], [[[1], [2]], [[3], [1]]], [5, None, None]),
    ("a slack stays unset", [plain(), FOUR], [row(1, kind=1)], [[[2], [1]]],
     [4, None, None]),
]


def wishes(sketch, rows):
    """The ideals of the intervals by these rows, with the model's mean."""
    return [None if low else text.neighbour_ideal(j, sketch.intervals, rows)
            for j, (_, _, low, _) in enumerate(sketch.intervals)]


def stated_rows(sketch):
    return [text.Row(kind, number, [(index - 1, a) for index, a in terms], None)
            for kind, number, terms in sketch.rows]


def uncancelled(sketch):
    """The rows of volumes with a term for every interval of both paths."""
    return [text.Row(0, 0, [(index - 1, 1) for index in set(paths[0] + later)], None)
            for paths in sketch.volumes for later in paths[1:]]


@test
def neighbours_by_paths():
    for what, intervals, rows, volumes, ideals in NEIGHBOURS:
        deck = text.read(text_of(intervals, rows, volumes))
        check("neighbours: " + what, ideals_of(deck), ideals)
    wrong = {"by the rows' section alone": lambda sketch: [],
             "by what cancelled too": uncancelled}
    found = dict.fromkeys(wrong, 0)
    for _, sketch in random_sketches(55, 600):
        ideals = ideals_of(deck_of(sketch))[:len(sketch.intervals)]
        for what, rows in wrong.items():
            found[what] += wishes(sketch, stated_rows(sketch) + rows(sketch)) != ideals
    for what, count in found.items():
        check("wrong and told apart: neighbours %s, %d times" % (what, count),
              count >= 30, True)
