"""The generator of random problems and texts: what it must make often enough to tell."""

import engine
import generate
import pairs
import text
from engine import FITTED, OUTSIDE, PROBLEM_LISTS, SPENT, goal_ideal, into_bounds
from tests.tools import all_numbers, check, test

BIGGEST, SMALLEST = 2 ** 63 - 1, -2 ** 63


@test
def generator_is_the_same_for_the_same_seed():
    one = [all_numbers(c.problem, c.lent) for c in generate.problems(50, 5)]
    two = [all_numbers(c.problem, c.lent) for c in generate.problems(50, 5)]
    other = [all_numbers(c.problem, c.lent) for c in generate.problems(50, 6)]
    check("same problems", one == two, True)
    check("other problems", one == other, False)
    check("same texts", list(generate.texts(50, 5)) == list(generate.texts(50, 5)), True)
    outcomes = {case.run()[0] for case in generate.problems(1500, 7)}
    wanted = {FITTED, OUTSIDE, SPENT, 1, 2, 3, 4, 5, 6, 7, 8, 9, 10}
    check("every outcome is met", wanted - outcomes, set())


def has_its_lengths(problem):
    """Whether every list of a problem has its length."""
    n, m = problem.n, problem.m
    return [len(getattr(problem, name)) for name in PROBLEM_LISTS] == [m * n, m] + [n] * 6


def kinds_of_ideals(problem):
    """What a problem whose lists have their lengths shows of ideals."""
    columns = list(zip(problem.lower, problem.upper, problem.low, problem.given,
                       problem.ideals))
    handed = [column for column in columns if column[3] != 0]
    free = [column for column in handed if column[2] == 0]
    return {
        "none": not handed,
        "some": 0 < len(handed) < len(columns),
        "all": len(handed) == len(columns),
        "a mark other than 1": any(mark != 1 for _, _, _, mark, _ in handed),
        "a mark below 0": any(mark < 0 for _, _, _, mark, _ in handed),
        "the greatest mark": any(mark == BIGGEST for _, _, _, mark, _ in handed),
        "the least mark": any(mark == SMALLEST for _, _, _, mark, _ in handed),
        "a number beside the mark 0": any(mark == 0 != number
                                          for _, _, _, mark, number in columns),
        "within the bounds": any(low <= x <= high for low, high, _, _, x in free),
        "below the bounds": any(x < low for low, _, _, _, x in free),
        "above the bounds": any(x > high for _, high, _, _, x in free),
        "the ideal 0": any(x == 0 for _, _, _, _, x in free),
        "an ideal below 0": any(x < 0 for _, _, _, _, x in free),
        "the greatest ideal": any(x == BIGGEST for _, _, _, _, x in free),
        "the least ideal": any(x == SMALLEST for _, _, _, _, x in free),
        "beside a goal": len(free) < len(handed),
    }


def check_met(what, many, least):
    """Each of the kinds that some things show is met often enough."""
    met = {}
    for kinds in many:
        for kind, shown in kinds.items():
            met[kind] = met.get(kind, 0) + shown
    for kind, count in met.items():
        check("%s: %s, %d times" % (what, kind, count), count >= least, True)


@test
def generator_hands_in_ideals():
    check_met("problems", (kinds_of_ideals(case.problem) for case in generate.problems(1000, 8)
                           if has_its_lengths(case.problem)), 50)


def kinds_of_damage(case):
    """Which of the lists of ideals has a wrong length, and which cause is then named."""
    problem, n = case.problem, case.problem.n
    given, ideals = len(problem.given) - n, len(problem.ideals) - n
    number = case.run()[0] if (given, ideals) != (0, 0) else 0
    later = (engine.row_number_outside(problem) or engine.bound_outside(problem)
             or engine.goal_outside(problem) or engine.limit_outside(problem))
    return {"given shorter": given < 0 == ideals, "given longer": given > 0 == ideals,
            "ideals shorter": ideals < 0 == given, "ideals longer": ideals > 0 == given,
            "as long together": given == -ideals != 0, "refused by 1 before": number == 1,
            "refused by 2": number == 2, "refused by 2 before others": number == 2 and later}


@test
def generator_damages_ideals():
    check_met("damage", (kinds_of_damage(case) for case in generate.problems(3000, 9)), 8)


def kinds_of_intervals(deck):
    """What a read text shows of plain intervals and their neighbours."""
    n, shown = deck.n, set()
    for j in (j for j in range(deck.intervals) if deck.low[j] == 0):
        rows = [deck.coefficients[i * n:(i + 1) * n] for i in range(deck.m)
                if deck.coefficients[i * n + j]]
        shared = [sum(row[h] != 0 for row in rows) for h in range(deck.intervals)]
        beside = [h for h in range(deck.intervals) if shared[h] and deck.low[h]]
        if not beside:
            shown.add("without neighbours")
            if any(shared[:j] + shared[j + 1:]):
                shown.add("beside plain ones only")
            continue
        wanted = [goal_ideal(deck.low[h], deck.high[h]) for h in beside]
        ideals = [into_bounds(number, deck.lower[h], deck.upper[h])
                  for h, number in zip(beside, wanted)]
        shown.add("one neighbour" if len(beside) == 1 else "several neighbours")
        if any(shared[h] > 1 for h in beside):
            shown.add("a neighbour in two rows")
        if sum(ideals) % len(ideals):
            shown.add("a mean that is not whole")
        if ideals != wanted:
            shown.add("a neighbour cut by its bounds")
        if not deck.lower[j] <= deck.ideals[j] <= deck.upper[j]:
            shown.add("a mean outside the bounds")
        if any(any(row[deck.intervals:n]) for row in rows):
            shown.add("a slack in the row")
    return shown


KINDS = ["without neighbours", "beside plain ones only", "one neighbour", "several neighbours",
         "a neighbour in two rows", "a mean that is not whole", "a neighbour cut by its bounds",
         "a mean outside the bounds", "a slack in the row"]


@test
def generator_puts_plain_intervals_beside_goals():
    decks = [text.read(data) for data in generate.texts(1500, 10)]
    shown = [kinds_of_intervals(deck) for deck in decks if not isinstance(deck, int)]
    check_met("texts", ({kind: kind in some for kind in KINDS} for some in shown), 50)


def kinds_of_pairs(case):
    """What a problem's columns show of pairs, and which number is then named."""
    problem = case.problem
    shown = {pairs.pair_kind(*column) for column in zip(problem.lower, problem.low, problem.high)}
    kinds = {kind: kind in shown for kind in pairs.READ_KINDS[:3] + pairs.BROKEN_KINDS}
    broken = engine.goal_outside(problem)
    number = case.run()[0] if broken else 0
    return dict(kinds, **{"broken and refused by 5": number == 5,
                          "broken and refused before": broken and number in (1, 2, 3, 4)})


@test
def generator_parts_goals():
    check_met("pairs", (kinds_of_pairs(case) for case in generate.problems(3000, 12)), 25)
    met = pairs.kinds_met(generate.texts(2500, 13))
    check("kinds", list(met), pairs.TEXT_KINDS)
    for kind, count in met.items():
        check("texts: %s, %d times" % (kind, count), count >= 10, True)
    for kind in ("goals apart", "an ideal of neither goal alone", "a neighbour with goals apart"):
        check("texts: %s, %d times" % (kind, met[kind]), met[kind] >= 100, True)


@test
def generator_tells_pairs():
    """What text_kinds tells of texts by hand."""
    apart = ["goals apart", "an ideal of neither goal alone"]
    for lines, kinds in (
            (b"1 1 9 0 0", ["no goal"]), (b"2 1 9 0 0 1 9 4000 4000", ["no goal", "equal goals"]),
            (b"1 1 9 4000 4100", ["goals apart"]),
            (b"1 1 9 4000 6000", apart),
            (b"1 1 9 4000 9000", apart + ["an ideal other than the mean's"]),
            (b"1 1 9 4000 5000", ["goals apart", "an ideal other than the mean's",
                                  "a product at the middle between two"]),
            (b"1 1 9 4000 5001", ["goals apart", "a product just above it"]),
            (b"1 1 9 -1", ["5 by a low goal outside"]),
            (b"1 1 9 -1 x", ["5 by a low goal outside", "5 by a low goal, then no number"]),
            (b"1 0 9 1 x", ["5 by a lower bound below 1", "5 by a low goal, then no number"]),
            (b"1 0 9 1 1", ["5 by a lower bound below 1"]),
            (b"1 1 9 1 -1", ["5 by a high goal outside"]),
            (b"1 1 9 0 1", ["5 by a high goal alone"]), (b"1 1 9 1 0", ["5 by a low goal alone"]),
            (b"1 1 9 2 1", ["5 by a low goal above the high one"]),
            (b"2 1 9 0 0 1 9 2 1", ["5 by a low goal above the high one"]),
            (b"1 1 9 x", ["11 at a low goal"]), (b"1 1 9 1 x", ["11 at a high goal"]),
            (b"1 9 1 x", []), (b"1 1 x", []), (b"1 x", []), (b"x", [])):
        check("kinds of %r" % lines, pairs.text_kinds(lines + b" 0 0"), kinds)
    for short, kinds in ((b"1 1 9", ["11 at a low goal"]), (b"1 1 9 1", ["11 at a high goal"]),
                         (b"1 1", []), (b"1 1 9 0 0 49 x", [])):
        check("kinds of %r" % short, pairs.text_kinds(short), kinds)
    check("by a neighbour", pairs.text_kinds(b"2 1 9 0 0 1 9 4000 6000 1 0 0 2 1 1 2 -1 0"),
          ["no goal"] + apart + ["a neighbour with goals apart"])


@test
def generator_sweeps_volumes():
    """Volumes in texts that are read, and each refusal of a third section at its place."""
    met = generate.volumes_met(generate.texts(2000, 11))
    check("kinds", list(met), generate.VOLUME_KINDS)
    for kind, count in met.items():
        check("texts: %s, %d times" % (kind, count), count >= 10, True)
    for kind in ("volumes", "a path row", "an interval on both paths"):
        check("texts: %s, %d times" % (kind, met[kind]), met[kind] >= 100, True)


@test
def generator_tells_places():
    """What volume_kinds tells of texts by hand."""
    head = b"2 1 9 0 0 1 9 3000 3000 1 1 0 0 "
    for section, kinds in (
            (b"0", []), (b"1 1 1 1", ["volumes", "a volume of one path", "a slack beside volumes"]),
            (b"-1", ["13 at a count of volumes"]), (b"1 0", ["13 at a count of paths"]),
            (b"1 49", ["1 at a count of paths"]), (b"1 1 0", ["13 at a count of intervals"]),
            (b"1 1 1 3", ["13 at an index outside"]), (b"1 1 2 2 2", ["13 at an index twice"]),
            (b"1 2 1 1 0", ["13 at a count of intervals"]),
            (b"2 1 1 1 0", ["13 at a count of paths"]),
            (b"", ["11 in the third section"]), (b"0 0", ["11 in the third section"]),
            (b"1 1 1 x", ["11 in the third section"]),
            (b"1 2 1 1 1 2", ["volumes", "a path row", "a slack beside volumes",
                              "an ideal by the row of a path"]),
            (b"1 2 2 2 1 2 1 2", ["volumes", "a path row", "two equal paths",
                                  "indices that do not rise", "a slack beside volumes"]),
            (b"1 2 2 1 2 1 2", ["volumes", "a path row", "an interval on both paths",
                                "a slack beside volumes"])):
        check("kinds of %r" % section, generate.volume_kinds(head + section), kinds)
    check("nothing before the third section", generate.volume_kinds(b"2 1 9 0 0 9 1 0 0 0 -1"), [])
