"""Every deck case of document 01, and slips that are to be ruled out."""

import engine
from engine import FITTED, OUTSIDE, SPENT
from tests.tools import chain, check, check_case, form_of, make, solve, test


@test
def deck_cases_without_whole_numbers():
    wide = (-100, 100)
    check_case("2v = 1", make(1, [[2]], [1], wide), (8, 0, 0))
    check_case("v1 + v2 = 1 with v1 - v2 = 0", make(2, [[1, 1], [1, -1]], [1, 0], wide),
               (8, 0, 0))
    check_case("v = 1 with v = 2", make(1, [[1], [1]], [1, 2], wide), (8, 0, 0))


@test
def deck_cases_fitted():
    check_case("2v = 2", make(1, [[2]], [2], (1, 9)), (FITTED, 0, 0), [1], [0])
    check_case("no rows, bounds 3..5", make(1, [], [], (3, 5)), (FITTED, 0, 0), [3], [1])


@test
def deck_case_ideals():
    for goal, wanted in ((400, 1), (1414, 1), (1415, 2), (2449, 2), (2450, 3)):
        problem = make(1, [], [], (1, 1000000), [goal])
        check("ideal of goal %d" % goal, engine.ideal(problem, 0, 0), wanted)
        check_case("goal %d alone" % goal, problem, (FITTED, 0, 0), [wanted], [1])


@test
def deck_case_three_to_two():
    problem = make(2, [[3, -2]], [0], (1, 100), [2500, 4000])
    table = engine.fill(problem)
    leads, _ = engine.bring_to_form(table)
    start = engine.starting_list(table, leads, problem.rights)
    basis = engine.basis_of(table, leads, 1)
    check("3v1 = 2v2: seated", engine.seat(problem, basis, start), [4, 6])
    check_case("3v1 = 2v2", problem, (FITTED, 0, 1), [2, 3], [2, 3])


@test
def deck_case_outside():
    problem = make(2, [[1, -2]], [0], [(1, 1), (1, 10)])
    check_case("v1 = 2v2", problem, (OUTSIDE, 0, 0), [2, 1])


@test
def deck_case_bounds_steps():
    bounds = [(1, 10), (5, 10)]
    check_case("v1 = v2", make(2, [[1, -1]], [0], bounds), (FITTED, 4, 0), [5, 5])
    check_case("v1 = v2, limit 3", make(2, [[1, -1]], [0], bounds, limit=3),
               (SPENT, 3, 0), [4, 4])


@test
def deck_case_chain():
    check_case("chain of four", chain(4, (0, 10)), (FITTED, 0, 0), [0, 0, 0, 0])
    check_case("chain of five", chain(5, (0, 10)), (7, 0, 0))
    check_case("chain of three with a goal", chain(3, (1, 1000000), [10 ** 9, 0, 0]),
               (9, 0, 0))


@test
def slips_to_rule_out():
    got, lent = solve(make(1, [], [], (-9, -3)))
    check("seating below 0", (got, lent.values), ((FITTED, 0, 0), [-3]))
    # 2v1 = 3v2 - 1: v1 = 1 and v2 = 1, not fractions of an echelon form
    got, lent = solve(make(2, [[2, -3]], [-1], (1, 9)))
    check("whole lattice", (got, lent.values, lent.strides),
          ((FITTED, 0, 0), [1, 1], [3, 2]))
    check("quotient rounded down", form_of(make(2, [[2, -3]], [0], (0, 9))),
          [1, 2, 1, 0, 3, 2])
