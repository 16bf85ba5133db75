"""What decks/README.md says of OUTSIDE and FITTED, of a hold that is swept and of curves that
belong to two parts, held to the sample decks, and what README.md says of rows that are said
otherwise; of texts with plain curves that is less. README.md's commands for older texts are
run on the sample decks as they were.

Both words say that no single vector of the basis and no pair of them improves. That no
list within the bounds exists, or no better one, they do not say; here all are tried.
"""

import glob
import itertools
import os
import re
import shutil
import subprocess
import tempfile

import engine
import listing
import needs
import runs
import text
from engine import FITTED, OUTSIDE
from tests.listings import DECKS
from tests.restated import set_ideals, solved
from tests.tools import check, solve, test, with_goals, with_ideals

README = os.path.join(needs.ROOT, "README.md")

NEITHER = "no single vector of the basis and no pair of them improves"


def paragraph(name):
    """What the page says of a sample deck, on one line."""
    with open(os.path.join(DECKS, "README.md"), encoding="utf-8") as file:
        found = re.search(r"^\*\*%s\*\* .*?(?=\n\n|\Z)" % name, file.read(), re.M | re.S)
    return " ".join(found.group().split())


def lists_named(said):
    """The lists that a paragraph names: first the listing's, then the better one."""
    return [[int(word) for word in found.split()]
            for found in re.findall(r"`(\d+(?: \d+)+)`", said)]


def contents(*path):
    with open(os.path.join(*path), "rb") as file:
        return file.read()


def deck_names():
    """The names of the sample decks."""
    return sorted(os.path.basename(path)[:-len(".txt")]
                  for path in glob.glob(os.path.join(DECKS, "*.txt")))


def deck_bytes(name):
    return contents(DECKS, name + ".txt")


def sample(name):
    """A sample deck's problem and its count of curves."""
    data = deck_bytes(name)
    return listing.problem_of(text.read(data)), int(data.split()[0])


def basis(problem):
    table = engine.fill(problem)
    leads, _ = engine.bring_to_form(table)
    return engine.basis_of(table, leads, problem.m)


def lists_within(problem, curves):
    """Every list within the bounds that satisfies the rows: all intervals are tried, and
    a row's y is what the row leaves for it."""
    ranges = [range(low, high + 1) for low, high in zip(problem.lower, problem.upper)]
    found = []
    for tried in itertools.product(*ranges[:curves]):
        values = list(tried)
        for i in range(problem.m):
            row = problem.coefficients[i * problem.n:(i + 1) * problem.n]
            y = len(values)
            if y < problem.n and row[y] != 0:
                rest = problem.rights[i] - sum(a * v for a, v in zip(row, values))
                values.append(rest // row[y])
        if engine.satisfies_rows(problem, values) and not any(runs.distances(problem, values)):
            found.append(values)
    return found


def improved_columns(problem, values, move):
    """The columns that a move improves, by the rule of the part that the list is in."""
    changes = [(j, change) for j, change in enumerate(move) if change != 0]
    if runs.part_of(problem, values) == runs.BOUNDS:
        return [i for i in engine.rank_by_distance(problem, values) if move[i] != 0
                and engine.improves_bounds(problem, values, changes,
                                           engine.distance(problem, i, values[i]))]
    return [i for i in engine.rank_by_ratio(problem, values) if move[i] != 0
            and engine.improves_goals(problem, values, changes,
                                      engine.ratio_of(problem, i, values[i]))]


def check_no_move(name, verdict):
    """The verdict, the list that the page names, and that no move improves it."""
    problem, _ = sample(name)
    said = paragraph(name)
    (outcome, _, _), lent = solve(problem)
    check(name + ": the verdict", outcome, verdict)
    check(name + ": the page has the verdict", verdict in said, True)
    check(name + ": the page tells what it means", NEITHER in said.lower(), True)
    for move in engine.moves_in_order(basis(problem)):
        check("%s: the move %s improves" % (name, move),
              improved_columns(problem, lent.values, move), [])
    return problem, lent.values


def check_better(name, verdict, first_times, second_times):
    """A sample deck whose listing leaves out a list that the page names, so many times
    the first and the second vector of the basis away. All lists within the bounds."""
    problem, values = check_no_move(name, verdict)
    listed, better = lists_named(paragraph(name))
    check(name + ": the listing's list", values, listed)
    check(name + ": the other satisfies the rows", engine.satisfies_rows(problem, better), True)
    check(name + ": the other is in bounds", runs.distances(problem, better), [0] * problem.n)
    first, second = basis(problem)[:2]
    check(name + ": the way there", better,
          [v + first_times * a + second_times * b for v, a, b in zip(values, first, second)])
    return problem, listed, better, lists_within(*sample(name))


@test
def outside_and_a_list_fits():
    _, _, better, fitting = check_better("missed-fit", OUTSIDE, -2, 1)
    check("missed-fit: the lists within the bounds", fitting, [better])


@test
def fitted_and_a_better_list():
    name = "missed-better"
    problem, listed, better, fitting = check_better(name, FITTED, -3, 2)
    said = paragraph(name)
    worst = runs.ratios(problem, listed)[0]
    least = runs.ratios(problem, better)[0]
    check(name + ": a better worst ratio", least < worst, True)
    check(name + ": the page's ratios",
          re.findall(r"worst ratio(?: is|,) (\d+\.\d+)", said), ["%g" % worst, "%g" % least])
    check(name + ": lists within the bounds", len(fitting),
          int(re.search(r"the (\d+) lists", said).group(1)))
    of_least = [values for values in fitting if runs.ratios(problem, values)[0] == least]
    check(name + ": five have the least", len(of_least), 5)
    check(name + ": they differ in curve 3 alone",
          len({(v1, v2, v4) for v1, v2, _, v4 in of_least}), 1)
    check(name + ": none is better",
          min(fitting, key=lambda values: runs.ratios(problem, values)), better)


@test
def outside_and_no_list_fits():
    problem, _ = check_no_move("bounds-conflict", OUTSIDE)
    check("bounds-conflict: whole numbers satisfy the rows",
          engine.satisfies_rows(problem, solve(problem)[1].values), True)
    check("bounds-conflict: none within the bounds", lists_within(*sample("bounds-conflict")), [])


def table_of_lines(page):
    """The lines of the page's table: their curves, and what each of these has."""
    for cells in (line.split("|") for line in page.splitlines() if line.startswith("| ")):
        shown = [int(word) for word in re.findall(r"\d+", cells[4])]
        if shown:
            yield [int(word) for word in re.findall(r"\d+", cells[2])][:len(shown)], shown


@test
def swept_hold():
    """The page's table, the sums with the volumes and without, and where curve 1 starts."""
    with open(os.path.join(DECKS, "README.md"), encoding="utf-8") as file:
        page = file.read()
    data = deck_bytes("swept-hold")
    lines = list(table_of_lines(page))
    _, _, volumes = text.read_sections(data)
    paths = [[index + 1 for index in path] for volume in volumes for path in volume]
    check("swept-hold: the table's lines are the paths", sorted(curves for curves, _ in lines),
          sorted(map(list, set(map(tuple, paths)))))
    deck = text.read(data)
    values = solve(listing.problem_of(deck))[1].values
    for curves, shown in lines:
        check("swept-hold: what curves %s have" % curves, [values[i - 1] for i in curves], shown)
        check("swept-hold: the sum along %s" % curves, sum(shown), 21)
    check("swept-hold: the ideal of curve 1", (deck.given[0], deck.ideals[0]), (1, 9))
    # the page's second paragraph on the deck, on one line
    said = " ".join(page.split("\nThe swash plate ")[1].split("\n\n")[0].split())
    for words in ("curves 1 and 2 are equal", "it starts at 9,", "and sees 21."):
        check("swept-hold: the page says " + words, words in said, True)
    front = b"\n".join(data.splitlines()[:17]) + b"\n0\n"
    older = text.read(front)
    check("swept-hold: without the volumes curve 1 has no ideal", older.given[0], 0)
    alone = solve(listing.problem_of(older))[1].values
    check("swept-hold: without the volumes", [alone[:14]], lists_named(said))
    sums = [sum(alone[i - 1] for i in curves) for curves, _ in lines]
    check("swept-hold: the lines without the volumes",
          "the lines %d, %d, %d, %d, %d and %d: neither" % tuple(sums) in said, True)


def with_pairs(name, rule):
    """A sample deck's listing, its verdict left out, with the goals of each curve by a rule."""
    problem, curves = sample(name)
    made = [rule(low, high) for low, high in zip(problem.low, problem.high)]
    (outcome, _, _), lent = solve(with_goals(problem, *zip(*made)))
    check(name + ": fitted", outcome, FITTED)
    return lent.values[:curves]


@test
def two_parts():
    """What the page says of the intervals, of their ratios, and of other goals."""
    name = "two-parts"
    said = paragraph(name)
    problem, curves = sample(name)
    apart = [j for j in range(curves) if problem.low[j] < problem.high[j]]
    check(name + ": the curves that belong to both parts", apart, [0, 1])
    rules = [lambda low, high: (low, high), lambda low, high: (low, low),
             lambda low, high: (high, high), lambda low, high: ((low + high) // 2,) * 2]
    check(name + ": the lists", [with_pairs(name, rule) for rule in rules], lists_named(said))
    check(name + ": none of them is another", len(set(map(tuple, lists_named(said)))), 4)
    values = with_pairs(name, rules[0])
    for j in apart:
        low, high, v = problem.low[j] // 1000, problem.high[j] // 1000, values[j]
        words = "on curve %d %d is %.3g times %d, and %d is %.3g times %d" % (
            j + 1, v, v / low, low, high, high / v, v)
        check(name + ": the page says " + words, words in said, True)
    means = [(problem.low[j] + problem.high[j]) / 2000 for j in apart]
    check(name + ": the means", "their means, %g and %g, " % tuple(means) in said, True)
    read = {other: text.read(deck_bytes(other)) for other in deck_names()}
    check("decks whose goals differ", [other for other, deck in read.items() if
                                       not isinstance(deck, int) and deck.low != deck.high], [name])


# ------------------------------------------------------------------------ older texts

def older_deck(name):
    """A sample deck as it was before version 0.6.0, with one goal a curve, read off its
    lines: three numbers for four."""
    lines = deck_bytes(name).splitlines()
    count = int(lines[0])
    curves = [line.split() for line in lines[1:1 + count]]
    if any(low != high for _, _, low, high in curves):
        return None
    return b"\n".join(lines[:1] + [b" ".join(curve[:3]) for curve in curves]
                      + lines[1 + count:]) + b"\n"


def commands():
    """The commands that README.md gives for older texts: the one that writes each goal twice,
    and the one that closes a deck with a 0."""
    with open(README, encoding="utf-8") as file:
        page = file.read()
    blocks = [block for block in re.findall(r"(?:^    .*\n)+", page, re.M) if "FOLDER" in block]
    check("commands for older texts", len(blocks), 2)
    return blocks


def mended(command, folder, texts):
    """The texts, by name, after a command on a folder that has them."""
    for name, data in texts.items():
        with open(os.path.join(folder, name + ".txt"), "wb") as file:
            file.write(data)
    # as it is typed, but for the folder's name
    subprocess.run(["sh", "-c", command.replace("FOLDER", "'%s'" % folder)], check=True)
    left = sorted(os.listdir(folder))
    check("files after the command", left, sorted(name + ".txt" for name in texts))
    return {name: contents(folder, name + ".txt") for name in texts}


@test
def older_texts_by_commands():
    """README.md's commands make today's decks of older ones, whatever their lay-out: of those
    before 0.6.0 the first, of those before 0.5.0 both. Listings stay, byte for byte."""
    if not all(map(shutil.which, ("sh", "awk", "sed"))):
        needs.left_out("README.md's commands for older texts", "no sh, awk or sed")
        return
    twice, closing = commands()
    older = {name: older_deck(name) for name in deck_names() if older_deck(name)}
    check("older decks", len(older), len(deck_names()) - 1)
    scattered = {"scattered " + name: b"\n  " + b" \n\n ".join(data.split()) for name, data in
                 older.items()}
    for what, texts in (("as laid out", older), ("scattered", scattered)):
        with tempfile.TemporaryDirectory() as folder:
            made = mended(twice, folder, texts)
        for name, data in made.items():
            deck = name.replace("scattered ", "")
            check("%s, %s: its words" % (name, what), data.split(), deck_bytes(deck).split())
            check("%s, %s: its listing" % (name, what), listing.listing(data),
                  contents(DECKS, deck + ".listing"))
    oldest = {name: data[:-len(b"0\n")] for name, data in older.items() if data.endswith(b"\n0\n")}
    check("decks without volumes", len(oldest), len(older) - 1)
    with tempfile.TemporaryDirectory() as folder:
        made = mended(closing, folder, mended(twice, folder, oldest))
    for name, data in made.items():
        check(name + ": by both commands", data, deck_bytes(name))


@test
def words_lists_within():
    """What the trying must see: lists with a y of each kind."""
    for kind, number, wanted in (
            (text.AT_LEAST, 3, [[1, 2, 0], [2, 1, 0], [2, 2, 1]]),
            (text.AT_MOST, 3, [[1, 1, 1], [1, 2, 0], [2, 1, 0]]),
            (text.EVEN, 2, [[2, 2, 2]])):
        data = b"2 1 2 0 0 1 2 0 0 1 %d %d 2 1 1 2 1 0" % (kind, number)
        problem = listing.problem_of(text.read(data))
        check("lists within, kind %d" % kind, lists_within(problem, 2), wanted)


CURVES = b"3 1 1000000 6000 6000 1 1000000 8000 8000 1 1000000 2000 2000 "
EQUATION = b"0 3 1 1 2 1 3 -1 "


def curves_of(rows):
    """The curves' lines of a listing: their intervals and strides."""
    return listing.listing(CURVES + rows + b"0").splitlines()[1:4]


@test
def rows_said_otherwise():
    """The same columns and the same lists that satisfy the rows: the same listing. An
    equation as at least and at most adds columns, so that it need not be."""
    once = curves_of(b"1 0 " + EQUATION)
    for again in (b"0 0 3 1 -1 2 -1 3 1 ", b"0 0 3 1 7 2 7 3 -7 "):
        check("the equation times a number", curves_of(b"1 " + again), once)
        check("the equation and it again", curves_of(b"2 0 " + EQUATION + again), once)
    check("the equation", once, [b"1 3 1", b"2 3 1", b"3 6 1"])
    check("as at least and at most", curves_of(b"2 1 " + EQUATION + b"2 " + EQUATION),
          [b"1 2 1", b"2 3 1", b"3 5 1"])


@test
def texts_said_otherwise():
    """Document 02, (ii): “Two restated problems must now have the same ideals too”. The
    reader's ideals go by the rows of the text, so that other rows, which the same lists
    satisfy, may set others: a sum of both rows brings curve 3 beside curve 1."""
    curves = b"4 1 100 0 0 1 100 0 0 1 100 7000 7000 -50 50 0 0 2 0 0 2 2 1 3 -1 0 0 3 1 1 "
    first = listing.problem_of(text.read(curves + b"2 -1 4 -1 0"))
    second = listing.problem_of(text.read(curves + b"3 -1 4 -1 0"))
    check("starting lists and bases", solved(second), solved(first))
    check("ideals", (set_ideals(first), set_ideals(second)),
          ([None, 7, None, None], [7, 7, None, 7]))
    (one, lent), (two, again) = solve(first), solve(second)
    check("intervals", (lent.values, again.values), ([1, 7, 7, -6], [7, 7, 7, 0]))
    check("strides", again.strides, lent.strides)
    two, again = solve(with_ideals(second, first.given, first.ideals))
    check("with the same ideals", (two, again.values), (one, lent.values))
