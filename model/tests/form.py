"""The tableau and the right side: the Hermite form, numbers beyond M in each
place, and “none”.
"""

import collections
import itertools
from fractions import Fraction

import engine
import generate
from engine import FITTED, M, OUTSIDE, Problem, twice, unset
from tests.tools import ORDINARY, check, make, random_problems, resume, solve, test


@test
def reading_lone_negative_lead():
    problem = make(1, [[-1]], [-3], (1, 9))
    got, lent = solve(problem)
    check("lone negative lead", (got, lent.values, lent.tableau),
          ((FITTED, 0, 0), [3], [1, -1]))


class Worked(collections.namedtuple("Worked", ["table", "columns", "start", "beyond", "none"])):
    """What the second writing below comes to: the table, the first pivot and the rounds of
    each table column that has a pivot, the last n numbers of the right side, where numbers
    beyond M are left, and whether there are no whole numbers."""


def half_up(entry, p):
    """The nearest quotient, of two the higher: p is positive."""
    return (entry + p // 2) // p


def floor(entry, p):
    return entry // p


def worked(problem, quotient=half_up, above=floor):
    """A second writing of the elimination, without any bound; with the quotients of the rows
    below and above."""
    n, m = problem.n, problem.m
    table = engine.fill(problem)
    beyond = set()

    def less(row, other, times, place):
        left = [x - times * y for x, y in zip(row, other)]
        if max(abs(x) for x in left) > M:
            beyond.add(place)
        return left

    leads, columns = [], []
    for c in range(m + n):
        k = len(leads)
        pivots = []
        while any(row[c] for row in table[k:]):
            _, chosen = min((abs(table[j][c]), j) for j in range(k, n) if table[j][c])
            table[k], table[chosen] = table[chosen], table[k]
            if table[k][c] < 0:
                table[k] = [-x for x in table[k]]
            p = table[k][c]
            pivots.append(p)
            for j in range(k + 1, n):
                if table[j][c]:
                    table[j] = less(table[j], table[k], quotient(table[j][c], p), "below")
            if not any(row[c] for row in table[k + 1:]):
                leads.append(c)
                columns.append((pivots[0], len(pivots)))
                for j in range(k):
                    table[j] = less(table[j], table[k], above(table[j][c], p), "above")
                break
    rest = [-b for b in problem.rights] + [0] * n
    for row, lead in zip(table, leads):
        if lead < m:
            rest = less(rest, row, rest[lead] // row[lead], "right side, first half")
    none = any(rest[:m])
    for row, lead in zip(table, leads):
        if lead >= m:
            rest = less(rest, row, rest[lead] // row[lead], "right side, second half")
    return Worked(table, columns, rest[m:], beyond, none)


def check_beyond(n, coefficients, rights, place, none, number):
    """A problem that goes beyond M in one place only."""
    rows = [coefficients[i:i + n] for i in range(0, len(coefficients), n)]
    problem = make(n, rows, rights, (-1000000, 1000000))
    got = worked(problem)
    check("beyond M only %s" % place, (got.beyond, got.none), ({place}, none))
    check("answer to beyond M %s" % place, solve(problem)[0], (number, 0, 0))


@test
def reading_beyond_m_in_each_place():
    """Judged in the rows below, the rows above and both halves of the right side;
    “none” is found after the first half, so 7 can be met before it."""
    digits = [2, -1, 0, 0, 0, 147, 1000, -1, 0, 0, 483, 0, 1000, -1, 0,
              648, 0, 0, 1000, -1]
    check_beyond(5, digits, [0] * 4, "below", False, 7)
    check_beyond(3, [-257, 0, -689, -521, -760, -698], [0, 0], "above", False, 7)
    check_beyond(3, [0, 604, 588, -49, -965, 621], [51078, 0], "above", True, 7)
    first, second = "right side, first half", "right side, second half"
    check_beyond(2, [25, 206, 0, -979], [-1000000, 0], first, False, 7)
    check_beyond(2, [557, -929, -971, 0], [-1000000, -195266], first, True, 7)
    # the first row shows already that there are none, the second goes beyond M
    check_beyond(3, [0, 78, -16, 25, 10, -93], [1, 1000000], first, True, 7)
    check_beyond(4, [-376, 264, 841, 405, 0, 342, 818, 0], [1000000, 1000000], second,
                 False, 7)
    check_beyond(4, [-615, 104, -654, 198, 0, 636, 666, 0], [1000000, 1000000], second,
                 True, 8)


@test
def numbers_at_m_are_not_beyond():
    """A chain that builds up M itself, then M + 1, in the table and the right side."""
    for last, answer in ((646, FITTED), (647, FITTED), (648, 7)):
        rows = [[2, -1, 0, 0, 0], [147, 1000, -1, 0, 0], [483, 0, 1000, -1, 0],
                [last, 0, 0, 1000, -1]]
        problem = make(5, rows, [0] * 4, (-1000000, 1000000))
        check("table with last digits %d" % last, solve(problem)[0][0], answer)
        rows = [[1, 0, 0, 0, 0]] + rows
        problem = make(5, rows, [1, 0, 0, 0, 0], (-1000000, 1000000))
        got, lent = solve(problem)
        check("right side with last digits %d" % last, got[0],
              7 if answer == 7 else OUTSIDE)
        if answer != 7:
            check("its value", lent.values[4], M - 647 + last)


def determinant(rows):
    """By fractions."""
    rows = [[Fraction(x) for x in row] for row in rows]
    result = Fraction(1)
    for c in range(len(rows)):
        pivot = next((j for j in range(c, len(rows)) if rows[j][c]), None)
        if pivot is None:
            return 0
        if pivot != c:
            rows[c], rows[pivot] = rows[pivot], rows[c]
            result = -result
        result *= rows[c][c]
        for j in range(c + 1, len(rows)):
            factor = rows[j][c] / rows[c][c]
            rows[j] = [x - factor * y for x, y in zip(rows[j], rows[c])]
    return result


def is_hermite(table):
    """Leads positive and moving right; above a lead 0 to p − 1, below it 0."""
    last = -1
    for k, row in enumerate(table):
        lead = next((c for c, x in enumerate(row) if x), None)
        if lead is None or lead <= last or row[lead] < 0:
            return False
        if not all(0 <= above[lead] < row[lead] for above in table[:k]):
            return False
        if any(below[lead] for below in table[k + 1:]):
            return False
        last = lead
    return True


def spans_the_lattice(problem, table):
    """Each row is (A x, x), and the x together have determinant 1 or −1."""
    n, m = problem.n, problem.m
    for row in table:
        sums = generate.products(n, m, problem.coefficients, row[m:])
        if sums != row[:m]:
            return False
    return abs(determinant([row[m:] for row in table])) == 1


@test
def property_hermite_form():
    for _, problem, _ in random_problems(11, 300, ORDINARY + [generate.heavy_problem]):
        (outcome, _, _), lent = solve(problem)
        width = problem.m + problem.n
        table = [lent.tableau[j * width:(j + 1) * width] for j in range(problem.n)]
        if outcome == 7:
            check("tableau all 0 after 7", any(lent.tableau), False)
        else:
            check("Hermite form", is_hermite(table), True)
            check("same lattice", spans_the_lattice(problem, table), True)


@test
def property_refusal_7_exact():
    families = [generate.heavy_problem, generate.heavy_wild_problem,
                generate.chain_problem, generate.near_m_problem,
                generate.small_problem, generate.wild_problem]
    for _, problem, hidden in random_problems(12, 500, families):
        beyond, none = worked(problem)[3:]
        second = "right side, second half"
        outcome = solve(problem)[0][0]
        if beyond - {second}:
            wanted = 7
        elif none:
            wanted = 8
        elif beyond:
            wanted = 7
        else:
            wanted = "neither"
        check("7 and 8 exactly", outcome if outcome in (7, 8) else "neither", wanted)
        if engine.satisfies_rows(problem, hidden):
            outcome = resume(problem, hidden)[0][0]
            check("7 by Continue exactly", outcome == 7,
                  bool(beyond & {"below", "above"}))


@test
def property_none_by_brute_force():
    """8 exactly where no list satisfies the rows: for coefficients and right sides
    −2 to 2, a box of −8 to 8 holds a list if there is any."""
    for number in range(400):
        rng = generate.rng_for(13, number)
        n, m = rng.randint(1, 3), rng.randint(1, 2)
        coefficients = [rng.randint(-2, 2) for _ in range(m * n)]
        rights = [rng.randint(-2, 2) for _ in range(m)]
        found = any(generate.products(n, m, coefficients, values) == rights
                    for values in itertools.product(range(-8, 9), repeat=n))
        problem = Problem(n, m, coefficients, rights, [-99] * n, [99] * n, *twice([0] * n),
                          *unset(n), 0)
        check("none by brute force", solve(problem)[0][0] == 8, not found)
