"""Problems stated anew (demand 3), as document 02, (ii), has it: “Two restated problems
must now have the same ideals too before their verdicts, refusals, counts and intervals can
be compared; their starting lists and bases are compared as before, and their strides where
both have a verdict.”
"""

import copy

import engine
import generate
from engine import FITTED
from pairs import part_goals
from tests.tools import (ORDINARY, check, make, random_problems, solve, test, with_ideals,
                         with_limit)

FAMILIES = ORDINARY + [generate.large_problem, generate.there_and_back_problem,
                       generate.chain_problem]


def with_rows(problem, rows):
    """The same problem with other rows, each with its right side last; None where a number
    would leave its limits."""
    n = problem.n
    if any(abs(a) > 1000 for row in rows for a in row[:n]) or len(rows) > 48:
        return None
    if any(abs(row[n]) > 1000000 for row in rows):
        return None
    again = copy.copy(problem)
    again.m = len(rows)
    again.coefficients = [a for row in rows for a in row[:n]]
    again.rights = [row[n] for row in rows]
    return again


def rows_of(problem):
    """The rows, each with its right side last."""
    n = problem.n
    return [problem.coefficients[i * n:(i + 1) * n] + [problem.rights[i]]
            for i in range(problem.m)]


def restated(rng, problem):
    """The same lists by other rows: permuted, negated, added up, repeated, or a row
    of zeros more. None if a number would leave its limits."""
    rows = rows_of(problem)
    for _ in range(rng.randint(1, 5)):
        what = rng.randrange(5)
        if what == 0 or not rows:
            rows.insert(rng.randrange(len(rows) + 1), [0] * (problem.n + 1))
        elif what == 1:
            rows.append(list(rng.choice(rows)))
        elif what == 2:
            i = rng.randrange(len(rows))
            rows[i] = [-x for x in rows[i]]
        elif what == 3:
            rows.insert(0, rows.pop(rng.randrange(len(rows))))
        elif len(rows) > 1:
            i, j = rng.sample(range(len(rows)), 2)
            factor = rng.choice([-3, -1, 1, 2])
            rows[i] = [x + factor * y for x, y in zip(rows[i], rows[j])]
    return with_rows(problem, rows)


def altered(rng, problem):
    """Other rows, which may leave the same lists or others: one is left out, doubled, or
    changed in a number. None as above."""
    rows = rows_of(problem)
    if rows:
        i = rng.randrange(len(rows))
        what = rng.randrange(3)
        if what == 0:
            del rows[i]
        elif what == 1:
            rows[i] = [2 * x for x in rows[i]]
        else:
            rows[i][rng.randrange(len(rows[i]))] += rng.choice([-1, 1])
    return with_rows(problem, rows)


def set_ideals(problem):
    """“the same ideals”: the same are set, to the same numbers. None where none is set."""
    return [number if mark != 0 else None
            for mark, number in zip(problem.given, problem.ideals)]


def said_otherwise(rng, problem):
    """The same ideals by other marks, and other numbers where none is set."""
    given = [rng.choice(generate.MARKS) if mark != 0 else 0 for mark in problem.given]
    ideals = [number if mark != 0 else rng.choice([0, 5, -5, 2 ** 63 - 1, -2 ** 63])
              for mark, number in zip(problem.given, problem.ideals)]
    return with_ideals(problem, given, ideals)


def other_columns(rng, problem):
    """The same rows with other bounds, goals, ideals and step limit."""
    again = copy.copy(problem)
    spread = rng.choice([3, 10, 100])
    again.lower, again.upper, again.low, again.high = generate.random_columns(
        rng, problem.n, spread, rng.choice([0, 0.5, 1]))
    part_goals(rng, again)
    again.given, again.ideals = engine.unset(problem.n)
    generate.hand_in(rng, again)
    return with_limit(again, rng.choice([0, 1, 5, 50]))


def solved(problem):
    """The starting list and the basis, or “none”. Where the problem is past the elimination
    limit, this raises engine.Beyond."""
    table = engine.fill(problem)
    leads, _ = engine.bring_to_form(table)
    start = engine.starting_list(table, leads, problem.rights)
    return "none" if start is None else (start, engine.basis_of(table, leads, problem.m))


def pairs(seed, count, change, families=FAMILIES):
    """Random problems, each with one of other rows; neither is past the elimination limit."""
    for rng, problem, _ in random_problems(seed, count, families):
        other = change(rng, problem)
        if other is None:
            continue
        try:
            solved(problem), solved(other)
        except engine.Beyond:
            continue
        yield rng, problem, other


def is_verdict(answer):
    return not isinstance(answer[0], int)


# ---------------------------------------------------------- starting lists and bases

def admits(problem, found):
    """Whether the rows admit every list that a starting list and a basis reach."""
    start, basis = found
    return all(engine.satisfies_rows(problem, [s + x for s, x in zip(start, vector)])
               for vector in [[0] * problem.n] + basis)


def same_lists(one, other):
    """Whether the same lists satisfy the rows of both."""
    first, second = solved(one), solved(other)
    if "none" in (first, second):
        return first == second
    return admits(one, second) and admits(other, first)


@test
def property_restated_starts():
    """“starting lists and bases are equal, or both are "none", exactly when the same lists of
    whole numbers satisfy their rows”, whatever bounds, goals, ideals and limits they have."""
    met = dict.fromkeys([True, False], 0)
    for change in (restated, altered):
        for rng, problem, other in pairs(28, 500, change):
            other = other_columns(rng, other)
            same = same_lists(problem, other)
            met[same] += 1
            check("the same starts exactly for the same lists",
                  solved(problem) == solved(other), same)
            if change is restated:
                check("the same lists by other rows", same, True)
    for same, count in met.items():
        check("pairs whose lists are the same: %s" % same, count >= 100, True)


# --------------------------------------------------- answers, intervals and strides

@test
def property_restated_problems():
    """With the same bounds, goals, limit and ideals: the same verdict or refusal and counts,
    and with a verdict the same intervals."""
    marks = numbers = verdicts = 0
    for rng, problem, other in pairs(18, 700, restated):
        other = said_otherwise(rng, other)
        check("restated: the same ideals", set_ideals(other), set_ideals(problem))
        marks += other.given != problem.given
        numbers += other.ideals != problem.ideals
        one, lent = solve(problem)
        two, again = solve(other)
        check("restated: answer", two, one)
        if is_verdict(one):
            verdicts += 1
            check("restated: intervals", again.values, lent.values)
            check("restated: strides", again.strides, lent.strides)
    for what, count in (("marks differ", marks), ("numbers beside the mark 0 differ", numbers),
                        ("there is a verdict", verdicts)):
        check("restated problems where " + what, count >= 100, True)


@test
def property_restated_strides():
    """“their strides where both have a verdict”, whatever bounds, goals, ideals and limits."""
    met = {"the same intervals": 0, "other intervals": 0}
    for rng, problem, other in pairs(29, 900, restated):
        one, lent = solve(problem)
        two, again = solve(other_columns(rng, other))
        if is_verdict(one) and is_verdict(two):
            same = lent.values == again.values
            met["the same intervals" if same else "other intervals"] += 1
            check("restated: strides", again.strides, lent.strides)
    check("verdicts with other intervals", met["other intervals"] >= 100, True)


@test
def property_other_ideals():
    """The ideals must be the same: with others alone, answers or intervals may differ, and
    strides do not."""
    differing = 0
    for rng, problem, other in pairs(30, 500, restated):
        other = with_ideals(other, *engine.unset(other.n))
        generate.hand_in(rng, other)
        (one, lent), (two, again) = solve(problem), solve(other)
        if is_verdict(one) and is_verdict(two):
            check("other ideals: strides", again.strides, lent.strides)
        if (one, lent.values) != (two, again.values):
            differing += 1
            check("what differs has other ideals", set_ideals(other) != set_ideals(problem), True)
    check("other ideals, other answers", differing >= 50, True)


@test
def restated_by_hand():
    """v1 + v2 + v3 = 9 with v3 free, and the same rows negated and said twice."""
    problem = with_ideals(make(3, [[1, 1, 1]], [9], (-9, 9)), [1, 0, 0], [4, 2, 0])
    anew = make(3, [[-1, -1, -1], [2, 2, 2]], [-9, 18], (-9, 9))
    check("starting list and basis", solved(anew), solved(problem))
    got, lent = solve(problem)
    check("the first", (got, lent.values, lent.strides), ((FITTED, 0, 0), [4, 0, 5], [1, 1, 1]))
    for given, ideals in (([1, 0, 0], [4, 2, 0]), ([-7, 0, 0], [4, 2, 0]),
                          ([-2 ** 63, 0, 0], [4, -8, 2 ** 63 - 1])):
        two, again = solve(with_ideals(anew, given, ideals))
        check("the same ideals by %s, %s" % (given, ideals),
              (two, again.values, again.strides), (got, lent.values, lent.strides))
    for given, ideals, values in (([0, 0, 0], [4, 2, 0], [0, 0, 9]), ([1, 1, 0], [4, 2, 0], [4, 2, 3]),
                                  ([1, 0, 0], [3, 2, 0], [3, 0, 6])):
        two, again = solve(with_ideals(anew, given, ideals))
        check("other ideals, %s, %s" % (given, ideals), (two, again.values), (got, values))
        check("and the same strides", again.strides, lent.strides)
