"""Document 02, (xiii), in the plain model: “No assignment comes twice.”

A run is the lists that stand while a call settles: the first, then the list after
each step. run_from(problem, values) makes one, faults(problem, lists) tells what a run
breaks of the request's words. Ratios are Python's fractions, compared exactly.
"""

from fractions import Fraction

from engine import (BOUNDS, GOALS, basis_of, bring_to_form, distance, fill, has_goal, part_of,
                    ratio_of, settle)


def run_from(problem, values):
    """The lists that stand while values are settled, and what settling returns. Where
    the form meets refusal 7, this raises engine.Beyond."""
    table = fill(problem)
    leads, _ = bring_to_form(table)
    basis = basis_of(table, leads, problem.m)
    lists = []
    answer = settle(problem, basis, values, lists)
    return lists, answer


def distances(problem, values):
    """“the list of distances, sorted largest first”: of all columns."""
    return sorted((distance(problem, j, value) for j, value in enumerate(values)),
                  reverse=True)


def ratios(problem, values):
    """“the same for ratios”: of the columns with a goal."""
    return sorted((Fraction(*ratio_of(problem, j, value))
                   for j, value in enumerate(values) if has_goal(problem.low[j])),
                  reverse=True)


def is_lower(new, old):
    """“lower at the first place where it differs”."""
    for a, b in zip(new, old):
        if a != b:
            return a < b
    return False


def faults(problem, lists):
    """What a run breaks; nothing, where the request holds."""
    found = []
    for place, (old, new) in enumerate(zip(lists, lists[1:])):
        part = part_of(problem, old)
        measure = distances if part == BOUNDS else ratios
        if not is_lower(measure(problem, new), measure(problem, old)):
            found.append("step %d does not lower its part, %s" % (place + 1, part))
    if len(set(map(tuple, lists))) != len(lists):
        found.append("a list stands twice")
    return found
