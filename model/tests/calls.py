"""Whole assignments and Continue: close readings of both calls, and sound answers."""

import engine
import generate
from engine import FITTED, M, OUTSIDE, SPENT, Lent
from tests.tools import (ORDINARY, chain, check, form_of, make, random_problems, resume,
                         solve, sound_problem, test, with_limit)


@test
def reading_exact_lengths():
    lent = Lent([0] * 4608, [2, 2], [0, 0])
    check("the greatest tableau for a small problem",
          engine.assign(sound_problem(), lent), (2, 0, 0, 0))
    lent = Lent([0] * 6, [2, 2, 0], [0, 0])
    check("Continue's list too long", engine.cont(sound_problem(), lent), (2, 0, 0, 0))
    lent = Lent([0] * 6, [5], [0, 0])
    check("Continue's list too short", engine.cont(sound_problem(), lent), (2, 0, 0, 0))


@test
def reading_continue_may_start_out_of_bounds():
    got, lent = resume(make(2, [[1, -1]], [0], [(1, 10), (5, 10)]), [-3, -3])
    check("out of bounds", (got, lent.values), ((FITTED, 8, 0), [5, 5]))
    check("strides and form", (lent.strides, lent.tableau), ([1, 1], [1, 0, -1, 0, 1, 1]))


@test
def reading_continue_takes_no_right_side():
    """A problem can be 7 for a whole assignment and fitted by Continue."""
    problem = make(2, [[25, 206], [0, -979]], [-1000000, 0], (-1000000, 1000000))
    check("7 in the right side", solve(problem)[0], (7, 0, 0))
    got, lent = resume(problem, [-40000, 0])
    check("fitted by Continue", (got, lent.values, lent.strides),
          ((FITTED, 0, 0), [-40000, 0], [0, 0]))
    check("and the form", lent.tableau, form_of(problem))


@test
def continue_takes_no_seating():
    """A problem can be 9 for a whole assignment and be settled by Continue."""
    problem = chain(3, (1, 1000000), [10 ** 9, 0, 0])
    got, lent = resume(problem, [1, 1000, 1000000])
    check("9 by assignment only", (got, lent.values),
          ((FITTED, 0, 0), [1, 1000, 1000000]))
    # the list stays where it is, although seating would move it
    got, lent = resume(make(2, [], [], (1, 9)), [2, 7])
    check("no seating", (got, lent.values), ((FITTED, 0, 0), [2, 7]))


@test
def continue_at_m():
    """Lists at ±M are taken, and no move may go beyond: x1 = x2 + 1000 x3 + 294."""
    problem = make(3, [[1, -1, -1000]], [294],
                   [(0, 1000000), (1000000, 1000000), (-1000000, 1000000)], limit=0)
    values = [M, -M, 4294967]
    check("the list satisfies the row", engine.satisfies_rows(problem, values), True)
    table = engine.fill(problem)
    leads, _ = engine.bring_to_form(table)
    basis = engine.basis_of(table, leads, 1)
    check("basis", basis, [[1, 1, 0], [0, 1000, -1]])
    check("+N1 would bring column 2 nearer, but column 1 beyond M",
          engine.improves_bounds(problem, values, [(0, 1), (1, 1)], M + 1000000), False)
    check("one less is within M",
          engine.improves_bounds(problem, [M - 1, -M, 4294967], [(0, 1), (1, 1)],
                                 M + 1000000), True)
    got, lent = resume(with_limit(problem, 1), values)
    check("first step from ±M", (got, lent.values),
          ((SPENT, 1, 0), [M, 1000 - M, 4294966]))


@test
def continue_without_whole_numbers():
    """Continue takes no right-side step, so it cannot give 8: no list passes 10."""
    problem = make(1, [[2]], [1], (0, 9))
    check("8", solve(problem)[0], (8, 0, 0))
    for value in range(-3, 4):
        check("Continue without whole numbers is 10", resume(problem, [value])[0],
              (10, 0, 0))


@test
def property_answers_are_sound():
    for _, problem, hidden in random_problems(14, 800, ORDINARY + [generate.large_problem]):
        (outcome, bounds_count, goals_count), lent = solve(problem)
        if isinstance(outcome, int):
            check("counts of a refusal", (bounds_count, goals_count), (0, 0))
            continue
        check("rows", engine.satisfies_rows(problem, lent.values), True)
        inside = all(low <= v <= high for low, v, high in
                     zip(problem.lower, lent.values, problem.upper))
        if outcome == FITTED:
            check("FITTED is in bounds", inside, True)
        elif outcome == OUTSIDE:
            check("OUTSIDE is not, and has no goal steps", (inside, goals_count),
                  (False, 0))
        else:
            check("SPENT takes all steps", bounds_count + goals_count, problem.limit)


@test
def property_continue_after_fitted():
    for _, problem, _ in random_problems(16, 400, ORDINARY):
        (outcome, _, _), lent = solve(problem)
        if outcome not in (FITTED, OUTSIDE):
            continue
        got, again = resume(problem, lent.values)
        check("no step after the end", got, (outcome, 0, 0))
        check("nor a change", (again.tableau, again.values, again.strides),
              (lent.tableau, lent.values, lent.strides))


@test
def property_spent_and_continued():
    """Stopping under a limit and going on by Continue ends at the same place."""
    for rng, problem, _ in random_problems(17, 400, ORDINARY):
        problem.limit = 60
        whole, lent = solve(problem)
        first = rng.randint(0, 6)
        part, halfway = solve(with_limit(problem, first))
        if part[0] != SPENT:
            check("the limit was not reached", part, whole)
            continue
        rest, end = resume(with_limit(problem, 60 - first), halfway.values)
        check("counts add up", (rest[0], part[1] + rest[1], part[2] + rest[2]), whole)
        check("same end", (end.values, end.strides), (lent.values, lent.strides))


@test
def property_strides():
    """Every interval of a restarted list differs by a multiple of the stride."""
    for _, problem, hidden in random_problems(20, 300, [generate.small_problem]):
        (outcome, _, _), lent = solve(problem)
        if isinstance(outcome, int):
            continue
        for stride, value, other in zip(lent.strides, lent.values, hidden):
            difference = value - other
            check("stride divides", difference % stride if stride else difference, 0)
