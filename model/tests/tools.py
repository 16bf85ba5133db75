"""Tools of the tests: single checks, problems, calls, and problems of the generator."""

import copy

import engine
import generate
from engine import LENT_LISTS, PROBLEM_LISTS, Lent, Problem, twice, unset
from pairs import part_goals

TESTS = []
COUNTS = {"passed": 0, "failed": 0}


def test(function):
    """Marks a function as a test."""
    TESTS.append(function)
    return function


def tests_of(name):
    """The tests of the module with this name, in their order."""
    return [function for function in TESTS if function.__module__ == name]


def check(what, got, wanted):
    """One single check."""
    if got == wanted:
        COUNTS["passed"] += 1
    else:
        COUNTS["failed"] += 1
        print("FAILED %s: got %r, wanted %r" % (what, got, wanted))


def make(n, rows, rights, bounds, goals=None, limit=10000):
    """A problem; bounds is one pair for all columns or a list of pairs. Both goals of a
    column are the same one."""
    every = [bounds] * n if isinstance(bounds, tuple) else bounds
    return Problem(n, len(rows), [a for row in rows for a in row], list(rights),
                   [lower for lower, _ in every], [upper for _, upper in every],
                   *twice(goals or [0] * n), *unset(n), limit)


def with_goals(problem, low, high):
    """The same problem with these low and high goals."""
    again = copy.copy(problem)
    again.low, again.high = list(low), list(high)
    return again


def with_ideals(problem, given, ideals):
    """The same problem with these ideals handed in."""
    again = copy.copy(problem)
    again.given, again.ideals = list(given), list(ideals)
    return again


def marked_lent(n, m):
    """Lent buffers full of marks, to see what a call writes."""
    return Lent([777] * (n * (m + n)), [-888] * n, [999] * n)


# Where the tableau and the values stand in all_numbers: behind the problem's lists.
TABLEAU = len(PROBLEM_LISTS)
VALUES = TABLEAU + 1


def all_numbers(problem, lent):
    """Copies of all buffers of a call."""
    return ([list(getattr(problem, name)) for name in PROBLEM_LISTS]
            + [list(getattr(lent, name)) for name in LENT_LISTS])


def counted(problem):
    """A whole assignment: the answer, the rounds and the lent buffers after it."""
    lent = marked_lent(problem.n, problem.m)
    *answer, rounds = engine.assign(problem, lent)
    return tuple(answer), rounds, lent


def solve(problem):
    """The same without the rounds."""
    answer, _, lent = counted(problem)
    return answer, lent


def counted_from(problem, values):
    """A Continue: the answer, the rounds and the lent buffers after it."""
    lent = marked_lent(problem.n, problem.m)
    lent.values = list(values)
    *answer, rounds = engine.cont(problem, lent)
    return tuple(answer), rounds, lent


def resume(problem, values):
    """The same without the rounds."""
    answer, _, lent = counted_from(problem, values)
    return answer, lent


def form_of(problem):
    """The form of the tableau, flat."""
    table = engine.fill(problem)
    engine.bring_to_form(table)
    return engine.flat(table)


def check_case(what, problem, answer, values=None, strides=None):
    """One deck case on buffers; a refusal must leave the lists as before."""
    got, lent = solve(problem)
    check(what, got, answer)
    if values is not None:
        check(what + ": values", lent.values, values)
    if strides is not None:
        check(what + ": strides", lent.strides, strides)
    if isinstance(answer[0], int):
        check(what + ": lists as before", (lent.values, lent.strides),
              ([-888] * problem.n, [999] * problem.n))


def with_limit(problem, limit):
    """The same problem under another step limit."""
    again = copy.copy(problem)
    again.limit = limit
    return again


def chain(n, bounds, goals=None, limit=10000):
    """1000 × v(k) = v(k + 1)."""
    rows = [[1000 if j == k else -1 if j == k + 1 else 0 for j in range(n)]
            for k in range(n - 1)]
    return make(n, rows, [0] * (n - 1), bounds, goals, limit)


def sound_problem():
    """v1 + v2 = 4, fitted by (2, 2)."""
    return make(2, [[1, 1]], [4], (1, 9), [2000, 2000])


def random_problems(seed, count, families):
    """Problems of some families of the generator, with the list hidden in them, with the
    two goals apart for none, some or all columns, and with ideals handed in likewise."""
    for number in range(count):
        rng = generate.rng_for(seed, number)
        problem, hidden = rng.choice(families)(rng)
        part_goals(rng, problem)
        generate.hand_in(rng, problem)
        problem.limit = min(problem.limit, 200)
        yield rng, problem, hidden


ORDINARY = [generate.small_problem, generate.small_problem, generate.middle_problem,
            generate.wild_problem, generate.strided_problem]
