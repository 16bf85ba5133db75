"""Document 02, (vii), “A ceiling on elimination rounds”: rounds made by hand, the ceiling, what
the two quotients have in common, restated problems, refusals, and wrong answers that are told
apart.
"""

import engine
import generate
import rounds
from engine import FITTED, ROUNDS_PER_COLUMN, nearest, rounded_down
from rounds import half_down, rounds_by
from tests.form import floor, half_up, worked
from tests.restated import is_verdict, restated
from tests.restated import pairs as restated_pairs
from tests.tools import (ORDINARY, chain, check, counted, counted_from, form_of, make,
                         marked_lent, random_problems, test, with_limit)

HEAVY = [generate.heavy_problem, generate.heavy_wild_problem, generate.chain_problem,
         generate.near_m_problem] + [generate.brink_problem] * 4


def wide(*rows, rights=None):
    """A problem of these rows, whose right sides are 0 where none are given."""
    return make(len(rows[0]), rows, rights or [0] * len(rows), (-1000000, 1000000))


# ------------------------------------------------------------------ rounds made by hand

# What is counted, the problem, and the rounds of each table column that has a pivot.
ROUNDS = [
    # a lone entry is a round, and a column of zeros none
    ("no rows, one column", make(1, [], [], (3, 5)), [1]),
    ("no rows, three columns", make(3, [], [], (3, 5)), [1, 1, 1]),
    ("2v = 2", wide([2], rights=[2]), [1]),
    ("0v = 0", wide([0]), [1]),
    ("0 = 0, then v1 = v2", wide([0, 0], [1, -1]), [1, 1]),
    # the look after the last subtraction finds only zeros, and is none
    ("v1 = v2", wide([1, -1]), [1, 1]),
    ("v1 + v2 + v3 = 0", wide([1, 1, 1]), [1, 1, 1]),
    # 2, then 3 less 2 times 2 is -1
    ("3v1 = 2v2", wide([3, -2]), [2, 1]),
    # the smallest entries are 5, 2, 1; 12, 5, 2, 1; 29, 12, 5, 2, 1: as many as 5, 12 and 29 have
    # binary digits
    ("5v1 + 12v2 = 0", wide([5, 12]), [3, 1]),
    ("12v1 + 29v2 = 0", wide([12, 29]), [4, 1]),
    ("70v1 - 29v2 = 0", wide([70, -29]), [5, 1]),
    # 610, 233, 89, 34, 13, 5, 2, 1
    ("987v1 + 610v2 = 0", wide([987, 610]), [8, 1]),
    # 6 by 4 is a half: it goes up, to 2, and leaves -2; the second column is then 5 and -4
    ("4v1 + 5v2 + 6v3 = 0", wide([4, 5, 6]), [2, 2, 1]),
    # -6 by 4 is a half: it goes up, to -1, and leaves -2; the second column is then 5 and -1
    ("4v1 + 5v2 - 6v3 = 0", wide([4, 5, -6]), [2, 1, 1]),
    # document 01's chain: each column has 1000 and -1, or -1 and what came of it
    ("chain of four", chain(4, (0, 10)), [1, 1, 1, 1]),
]


@test
def rounds_by_hand():
    for what, problem, wanted in ROUNDS:
        check(what, rounds_by(problem, nearest), wanted)
        check(what + ", written again", [count for _, count in worked(problem).columns], wanted)
        answer, total, lent = counted(problem)
        check(what + ", by a whole assignment", (is_verdict(answer), total), (True, sum(wanted)))
        check(what + ", by Continue", counted_from(problem, lent.values)[1], sum(wanted))
        check(what + ", by a preview",
              engine.preview(problem, lent.values, marked_lent(problem.n, problem.m))[2],
              sum(wanted))


@test
def the_nearest_quotient():
    """“floor((2 × entry + p) / 2p)”: a half goes up, below 0 too."""
    for entry, p, wanted in ((3, 2, 2), (-3, 2, -1), (1, 2, 1), (-1, 2, 0), (5, 2, 3), (-5, 2, -2),
                             (6, 4, 2), (-6, 4, -1), (4, 3, 1), (5, 3, 2), (-4, 3, -1),
                             (-5, 3, -2), (7, 7, 1), (-7, 7, -1), (0, 5, 0), (9, 1, 9)):
        check("%d by %d" % (entry, p), nearest(entry, p), wanted)
    for p in range(1, 40):
        entries = range(-130, 130)
        check("by %d at most the half is left" % p,
              [e for e in entries if not -p <= 2 * (e - nearest(e, p) * p) < p], [])
        check("by %d, written again" % p, [half_up(e, p) for e in entries],
              [nearest(e, p) for e in entries])


@test
def rows_above_are_rounded_down():
    """v1 + v2 = 0 with 2v1 + 5v2 = 0: above the lead 3 stands 2, which stays. The nearest
    quotient, 1, would leave -1."""
    problem = wide([1, 1], [2, 5])
    check("the form", form_of(problem), [1, 2, 1, 0, 0, 3, -1, 1])
    check("above by the nearest", engine.flat(worked(problem, above=half_up).table),
          [1, -1, 2, -1, 0, 3, -1, 1])
    # and so is the right side: the starting list of v1 + 3v2 = 2 has 2 at v1, and not -1
    found = worked(wide([1, 3], rights=[2]))
    check("the starting list", found.start, [2, 0])


# ------------------------------------------------------------------------- the ceiling

def check_ceiling(problem, found):
    """“for each table column they are at most the bit length of its first pivot”."""
    for pivot, count in found.columns:
        check("at most the bit length of %d" % pivot, count <= pivot.bit_length(), True)
    check("a round for each table row at least",
          (len(found.columns), all(count >= 1 for _, count in found.columns)), (problem.n, True))


@test
def property_ceiling():
    """“so at most 31 × n in all”: what is returned, and over unbounded numbers the rounds of
    each column."""
    met = {"more rounds than columns": 0, "as many as the bit length": 0, "past the limit": 0}
    for _, problem, _ in random_problems(41, 1500, ORDINARY + HEAVY):
        found = worked(problem)
        check_ceiling(problem, found)
        answer, total, _ = counted(problem)
        if is_verdict(answer):
            check("the rounds that are returned", total, sum(count for _, count in found.columns))
            check("at most 31 a column", total <= ROUNDS_PER_COLUMN * problem.n, True)
        else:
            check("no rounds with refusal %d" % answer[0], total, 0)
        met["more rounds than columns"] += total > problem.n
        met["past the limit"] += answer[0] == 7
        met["as many as the bit length"] += any(count == pivot.bit_length() > 1
                                                for pivot, count in found.columns)
    for kind, count in met.items():
        check("problems with %s, %d" % (kind, count), count >= 100, True)


@test
def the_rounded_down_quotient_has_no_such_ceiling():
    """987 and 610 stand in Fibonacci's row: 14 rounds, where 610 has 10 binary digits."""
    problem = wide([987, 610])
    check("by the rounded-down", worked(problem, floor).columns[0], (610, 14))
    check("by the nearest", worked(problem).columns[0], (610, 8))
    # one a column, of the largest pivots: M has 31 binary digits
    check("the digits of M", engine.M.bit_length(), ROUNDS_PER_COLUMN)


# --------------------------------------------- “Forms and starting lists are unchanged”

@test
def property_forms_unchanged():
    """“where neither way meets 7”; over unbounded numbers everywhere."""
    met = {"other rounds": 0, "beyond by both": 0, "beyond by the rounded-down alone": 0,
           "beyond by the nearest alone": 0, "none": 0}
    for _, problem, _ in random_problems(42, 1500, ORDINARY + HEAVY):
        one, two = worked(problem), worked(problem, floor)
        check("the same form", two.table, one.table)
        check("the same start", (two.start, two.none), (one.start, one.none))
        met["other rounds"] += one.columns != two.columns
        met["none"] += bool(one.none)
        met["beyond by both"] += bool(one.beyond and two.beyond)
        met["beyond by the nearest alone"] += bool(one.beyond) > bool(two.beyond)
        met["beyond by the rounded-down alone"] += bool(two.beyond) > bool(one.beyond)
        check("7 by the rounded-down exactly", rounds_by(problem, rounded_down, False) is None,
              bool(two.beyond & {"below", "above"}))
    for kind, count in met.items():
        check("problems with %s, %d" % (kind, count), count >= 30, True)


@test
def refusal_7_moves():
    """“Refusal 7 is read from the new quotients”: some problems meet it by one alone."""
    for what, problem, number in (
            ("by the rounded-down", wide([-602, -681, -534], [-975, 408, -418]), FITTED),
            ("by the rounded-down", wide([-546, -675, 896, -175], [-586, -26, 574, -658]), FITTED),
            ("by the nearest", wide([-724, -495, 448], [-793, -977, -877]), 7),
            ("by the nearest", wide([649, 562, -471, -427], [867, -761, 525, 522]), 7),
            # without whole numbers, and 8 by the rounded-down quotient
            ("by the nearest", wide([0, -468, -603, 0], [-518, 515, -825, 575],
                                    rights=[-1000000, 1000000]), 7)):
        down = rounds_by(problem, rounded_down)
        check("beyond M " + what, down is None, what == "by the rounded-down")
        answer, total, _ = counted(problem)
        check("the answer where it is beyond M " + what, (answer[0], total > 0),
              (number, number != 7))


# --------------------------------------------------------------- calls, and no rounds

@test
def property_rounds_of_all_calls():
    """Every call that forms returns the rounds, whatever its step limit."""
    for _, problem, hidden in random_problems(43, 300, ORDINARY + [generate.brink_problem]):
        by_form = rounds_by(problem, nearest, False)
        total = 0 if by_form is None else sum(by_form)
        for limit in (0, 1, 40):
            answer, count, lent = counted(with_limit(problem, limit))
            if is_verdict(answer):
                check("by a whole assignment", count, total)
                check("by Continue", counted_from(with_limit(problem, limit), lent.values)[1],
                      total)
        if engine.satisfies_rows(problem, hidden):
            check("by a preview",
                  engine.preview(problem, hidden, marked_lent(problem.n, problem.m))[2], total)


@test
def refusals_return_no_rounds():
    """“A refusal returns 0 rounds”: 8 and 9 too, which come after all rounds were made."""
    for what, problem, number in (
            ("chain of five", chain(5, (0, 10)), 7), ("2v = 1", wide([2], rights=[1]), 8),
            ("v1 + v2 = 1 with v1 - v2 = 0", wide([1, 1], [1, -1], rights=[1, 0]), 8),
            ("chain of three", chain(3, (1, 1000000), [10 ** 9, 0, 0]), 9)):
        answer, total, lent = counted(problem)
        check(what, (answer, total), ((number, 0, 0), 0))
        check(what + ": the tableau", any(lent.tableau), number != 7)
        made = rounds_by(problem, nearest, False)
        check(what + ": rounds were made", made is not None, number != 7)
    for value in (0, 1):
        check("10 by Continue", counted_from(wide([2], rights=[1]), [value])[:2], ((10, 0, 0), 0))
        check("10 by a preview",
              engine.preview(wide([2], rights=[1]), [value], marked_lent(1, 1)), (10, None, 0))
    check("7 by Continue", counted_from(chain(5, (0, 10)), [0] * 5)[:2], ((7, 0, 0), 0))
    check("7 by a preview", engine.preview(chain(5, (0, 10)), [0] * 5, marked_lent(5, 4)),
          (7, None, 0))


# ---------------------------------------------------------------- “Restated problems”

@test
def restated_problems_may_differ_in_rounds():
    """v1 = v2 = 0 in two ways, and random problems: the same answers, other rounds."""
    plain, other = wide([1, 0], [0, 1]), wide([5, 2], [2, 1])
    check("the same answer", counted(plain)[0], counted(other)[0])
    check("other rounds", (counted(plain)[1], counted(other)[1]), (2, 3))
    differing = 0
    for _, problem, again in restated_pairs(44, 700, restated, ORDINARY + HEAVY):
        (one, first, _), (two, second, _) = counted(problem), counted(again)
        check("restated: answer", two[0], one[0])
        check("restated: steps", two[1:], one[1:])
        differing += first != second
    check("restated problems with other rounds, %d" % differing, differing >= 20, True)


# --------------------------------------------------------------------- wrong answers

def leads_of(problem):
    return engine.bring_to_form(engine.fill(problem))[0]


def last_pivots(problem):
    """What each table column is left with at its lead."""
    return [row[lead] for row, lead in zip(worked(problem).table, leads_of(problem))]


def empty_looks_too(problem):
    """Each look that finds only zeros below is a round more."""
    return [count + 1 for _, count in worked(problem).columns]


def zeros_too(problem):
    """Each table column that is looked at is a round at least."""
    columns = worked(problem).columns
    zeros = leads_of(problem)[-1] + 1 - problem.n
    return [count for _, count in columns] + [1] * zeros


def lone_entries_not(problem):
    """A column with one entry is no round."""
    return [count - (count == 1) for _, count in worked(problem).columns]


def by(quotient):
    return lambda problem: [count for _, count in worked(problem, quotient).columns]


WRONG = [
    ("the last empty look counted", empty_looks_too),
    ("columns of zeros counted", zeros_too),
    ("lone entries not counted", lone_entries_not),
    ("the rounded-down quotient", by(floor)),
    ("halves rounded down", by(half_down)),
]


@test
def wrong_rounds_are_told_apart():
    """By the rounds that are returned, their sum."""
    for what, wrong in WRONG:
        differing = sum(sum(wrong(problem)) != sum(wanted) for _, problem, wanted in ROUNDS)
        check("wrong and told apart: " + what, differing > 0, True)
    check("another way to the same rounds", [by(half_up)(problem) for _, problem, _ in ROUNDS],
          [wanted for _, _, wanted in ROUNDS])
    check("the bit length of the last pivot is no ceiling",
          any(count > pivot.bit_length() for _, problem, wanted in ROUNDS
              for pivot, count in zip(last_pivots(problem), wanted)), True)


# ----------------------------------------------------------------------- the generator

@test
def generator_makes_rounds():
    """Each kind that comparisons with the engine ask for is there."""
    met = dict.fromkeys(rounds.KINDS, 0)
    for case in generate.problems(4000, 1):
        for kind in rounds.kinds(case, case.left_with()[0][0]):
            met[kind] += 1
    for kind, count in met.items():
        check("problems: %s, %d times" % (kind, count), count >= 8, True)
