"""The runs of settling: no list stands twice."""

from fractions import Fraction

import engine
import generate
import runs
from engine import M
from tests.tools import ORDINARY, check, make, random_problems, solve, test, with_limit


def far_list(rng, problem, hidden):
    """A list that satisfies the rows and may lie far outside: the hidden one and some
    vectors of the basis. Where the form meets refusal 7, this raises engine.Beyond."""
    table = engine.fill(problem)
    leads, _ = engine.bring_to_form(table)
    values = hidden
    for vector in engine.basis_of(table, leads, problem.m):
        times = rng.randint(-9, 9)
        values = [value + times * entry for value, entry in zip(values, vector)]
    return values


def random_runs(seed, count):
    """Runs from the hidden list and from a far one: the problem, the first list, the
    lists and what settling returns."""
    families = ORDINARY + [generate.chain_problem]
    for rng, problem, hidden in random_problems(seed, count, families):
        try:
            firsts = [hidden, far_list(rng, problem, hidden)]
        except engine.Beyond:
            continue
        for values in firsts:
            if all(abs(value) <= M for value in values):
                yield (problem, values) + runs.run_from(problem, values)


@test
def property_no_list_twice():
    """Document 02, (xiii): each step lowers the measures of its part, sorted largest
    first, and no list stands twice."""
    for problem, values, lists, answer in random_runs(23, 1500):
        _, bounds_count, goals_count, final = answer
        check("a run's faults", runs.faults(problem, lists), [])
        check("a list more than steps", len(lists), bounds_count + goals_count + 1)
        check("from the first list to the final one", (lists[0], lists[-1]), (values, final))
        check("the parts in order", [runs.part_of(problem, old) for old in lists[:-1]],
              [runs.BOUNDS] * bounds_count + [runs.GOALS] * goals_count)


@test
def runs_break_stronger_claims():
    """The random runs are telling: claims that say more than the request are broken."""
    broken = dict.fromkeys(["the sum of distances falls", "the largest distance falls",
                            "no distance's place rises", "no ratio's place rises"], 0)
    made, steps = 0, {runs.BOUNDS: 0, runs.GOALS: 0}
    for problem, _, lists, _ in random_runs(23, 1500):
        made += 1
        for old, new in zip(lists, lists[1:]):
            part = runs.part_of(problem, old)
            steps[part] += 1
            if part == runs.GOALS:
                before, after = runs.ratios(problem, old), runs.ratios(problem, new)
                broken["no ratio's place rises"] += any(a > b for a, b in zip(after, before))
                continue
            before, after = runs.distances(problem, old), runs.distances(problem, new)
            broken["no distance's place rises"] += any(a > b for a, b in zip(after, before))
            broken["the sum of distances falls"] += sum(after) >= sum(before)
            broken["the largest distance falls"] += after[0] == before[0]
    print("%d random runs, steps %s; steps that break a stronger claim: %s"
          % (made, steps, broken))
    for claim, count in broken.items():
        check("steps that break: " + claim, count >= 100, True)


@test
def runs_by_limits():
    """The list after k steps is what the same call with the step limit k leaves."""
    for rng, problem, _ in random_problems(24, 150, ORDINARY):
        problem.limit = 40
        (outcome, bounds_count, goals_count), lent = solve(problem)
        if isinstance(outcome, int):
            continue
        lists = [solve(with_limit(problem, k))[1].values
                 for k in range(bounds_count + goals_count + 1)]
        check("the run by limits", runs.run_from(problem, lists[0])[0], lists)
        check("its faults", runs.faults(problem, lists), [])
        check("its end", lists[-1], lent.values)


@test
def faults_are_found():
    """What faults() must see: a step that lowers nothing, and a list that returns."""
    problem = make(2, [[1, -1]], [0], [(1, 10), (5, 10)])
    up, down = [2, 2], [1, 1]
    check("a fall", runs.faults(problem, [down, up]), [])
    check("a rise", len(runs.faults(problem, [up, down])), 1)
    check("nothing changes", len(runs.faults(problem, [up, up])), 2)
    check("there and back", len(runs.faults(problem, [down, up, down])), 2)
    wished = make(2, [[3, -2]], [0], (1, 100), [2500, 4000])
    check("ratios", runs.ratios(wished, [4, 6]), [Fraction(8, 5), Fraction(3, 2)])
    check("a fall of ratios", runs.faults(wished, [[4, 6], [2, 3]]), [])
    check("a rise of ratios", len(runs.faults(wished, [[2, 3], [4, 6]])), 1)
