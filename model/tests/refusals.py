"""Every row of the table of refusals, for calls on buffers: its number, what
it leaves, and which of two causes is named.
"""

import engine
import generate
from engine import FITTED, M, PROBLEM_LISTS, Lent
from tests.tools import (TABLEAU, VALUES, all_numbers, chain, check, form_of, make, marked_lent,
                         solve, sound_problem, test, with_limit)


def spoilt(name, index, value):
    """The sound problem with one number changed."""
    problem = sound_problem()
    getattr(problem, name)[index] = value
    return problem


def check_refusal(what, call, problem, lent, number, tableau=None):
    """A refusal: number, counts and rounds 0, and each buffer as the table says (the
    tableau as before if none is given)."""
    before = all_numbers(problem, lent)
    if tableau is not None:
        before[TABLEAU] = tableau
    run = engine.assign if call == "assign" else engine.cont
    answer = run(problem, lent)
    check("%s by %s" % (what, call), answer, (number, 0, 0, 0))
    check("%s by %s: what is left" % (what, call), all_numbers(problem, lent), before)


def check_cause(what, problem, number):
    """One of causes 1, 3, 4, 5, 6, for both calls."""
    for call in ("assign", "continue"):
        lent = Lent([777] * 6, [2, 2], [999, 999])
        check_refusal(what, call, problem, lent, number)


@test
def refusal_1():
    for n, m in ((0, 1), (49, 1), (-1, 1), (2, 49), (2, -1), (10 ** 9, 10 ** 9)):
        problem = sound_problem()
        problem.n, problem.m = n, m
        check_cause("n %d, m %d" % (n, m), problem, 1)


@test
def refusal_2():
    for name in PROBLEM_LISTS:
        for change in (-1, 1):
            problem = sound_problem()
            buffer = getattr(problem, name)
            if change == 1:
                buffer.append(0)
            else:
                buffer.pop()
            check_cause("length of %s by %+d" % (name, change), problem, 2)
    for name in ("tableau", "values", "strides"):
        for change in (-1, 1):
            for call in ("assign", "continue"):
                lent = Lent([777] * 6, [2, 2], [999, 999])
                buffer = getattr(lent, name)
                if change == 1:
                    buffer.append(0)
                else:
                    buffer.pop()
                check_refusal("length of %s by %+d" % (name, change), call,
                              sound_problem(), lent, 2)
    for n, m in ((3, 1), (2, 2), (2, 0), (1, 1)):
        problem = sound_problem()
        problem.n, problem.m = n, m
        check_cause("lengths for other counts %d, %d" % (n, m), problem, 2)


@test
def refusal_3():
    for value in (1001, -1001, 2 ** 63 - 1, -2 ** 63):
        check_cause("coefficient %d" % value, spoilt("coefficients", 1, value), 3)
    for value in (1000001, -1000001, 2 ** 63 - 1, -2 ** 63):
        check_cause("right side %d" % value, spoilt("rights", 0, value), 3)


@test
def refusal_4():
    for value in (10, 1000001, -1000001, 2 ** 63 - 1, -2 ** 63):
        check_cause("lower %d" % value, spoilt("lower", 1, value), 4)
    for value in (0, 1000001, -1000001, 2 ** 63 - 1, -2 ** 63):
        check_cause("upper %d" % value, spoilt("upper", 1, value), 4)


@test
def refusal_5():
    for value in (-1, 1000000001, 2 ** 63 - 1, -2 ** 63):
        for name in ("low", "high"):
            check_cause("%s goal %d" % (name, value), spoilt(name, 1, value), 5)
    check_cause("goals with lower 0", spoilt("lower", 1, 0), 5)
    check_cause("goals with lower -5", spoilt("lower", 0, -5), 5)


@test
def refusal_6():
    for value in (-1, 65536, 2 ** 63 - 1):
        check_cause("limit %d" % value, with_limit(sound_problem(), value), 6)


@test
def limits_themselves_are_allowed():
    for name, index, value in (("coefficients", 0, 1000), ("coefficients", 1, -1000),
                               ("rights", 0, 1000000), ("rights", 0, -1000000),
                               ("upper", 0, 1000000), ("high", 0, 10 ** 9),
                               ("low", 1, 1), ("lower", 0, 9), ("upper", 0, 1)):
        problem = spoilt(name, index, value)
        check("%s %d" % (name, value),
              engine.first_cause(problem, Lent([0] * 6, [0, 0], [0, 0])), 0)
    low = make(2, [[1, 1]], [4], (-1000000, 1000000))
    check("lower -1000000", engine.first_cause(low, Lent([0] * 6, [0, 0], [0, 0])), 0)
    for limit in (0, 65535):
        check("limit %d" % limit, solve(with_limit(sound_problem(), limit))[0],
              (FITTED, 0, 0))
    check("n 48, m 48", solve(make(48, [[0] * 48] * 48, [0] * 48, (1, 1)))[0],
          (FITTED, 0, 0))
    check("n 1, m 0", solve(make(1, [], [], (1, 1)))[0], (FITTED, 0, 0))


@test
def refusal_7_leaves_a_tableau_of_zeros():
    problem = chain(5, (0, 10))
    check_refusal("chain of five", "assign", problem, marked_lent(5, 4), 7, [0] * 45)
    lent = marked_lent(5, 4)
    lent.values = [0] * 5
    check_refusal("chain of five", "continue", problem, lent, 7, [0] * 45)


@test
def refusal_8_leaves_the_form():
    problem = make(2, [[1, 1], [1, -1]], [1, 0], (-9, 9))
    check("form of the pair", form_of(problem), [1, 1, 1, 0, 0, 2, 1, -1])
    check_refusal("odd pair", "assign", problem, marked_lent(2, 2), 8,
                  [1, 1, 1, 0, 0, 2, 1, -1])


@test
def refusal_9_leaves_the_form():
    problem = chain(3, (1, 1000000), [10 ** 9, 0, 0])
    check("form of the chain", form_of(problem),
          [1, 0, 0, -1, -1000, 0, 1, 0, 0, -1, 0, 0, 1, 1000, 1000000])
    check_refusal("chain of three", "assign", problem, marked_lent(3, 2), 9,
                  form_of(problem))


@test
def refusal_10_leaves_all():
    for values in ([2, 3], [4, 1], [M + 1, 4 - (M + 1)], [-M - 1, M + 5]):
        lent = Lent([777] * 6, list(values), [999, 999])
        check_refusal("list %r" % values, "continue", sound_problem(), lent, 10)
    for value in (M + 1, -M - 1):
        lent = Lent([777], [value], [999])
        check_refusal("list of %d without rows" % value, "continue",
                      make(1, [], [], (0, 9)), lent, 10)


@test
def order_of_refusals():
    """“Order: 1 to 6, then 10, then 7 and 8 as met, then 9”: each cause is added
    before the ones that are there, and is then the one named."""
    problem = chain(5, (0, 10))
    lent = marked_lent(5, 4)
    check("7", engine.assign(problem, lent)[0], 7)
    check("10 before 7", engine.cont(problem, lent)[0], 10)
    problem.limit = 65536
    check("6 before 10", engine.cont(problem, lent)[0], 6)
    problem.low[4] = problem.high[4] = 1
    check("5 before 6", engine.cont(problem, lent)[0], 5)
    problem.upper[4] = -1
    check("4 before 5", engine.cont(problem, lent)[0], 4)
    problem.rights[3] = 1000001
    check("3 before 4", engine.cont(problem, lent)[0], 3)
    for name in ("given", "ideals"):
        getattr(problem, name).append(0)
        check("2 before 3: " + name, engine.cont(problem, lent)[0], 2)
        getattr(problem, name).pop()
    lent.strides.append(0)
    check("2 before 3", engine.cont(problem, lent)[0], 2)
    problem.given.pop()
    problem.m = 49
    check("1 before 2", engine.cont(problem, lent)[0], 1)
    # without whole numbers and with a seating that would go beyond M
    far = chain(3, (1, 1000000), [10 ** 9, 0, 0])
    far.coefficients += [0, 0, 0]
    far.rights.append(1)
    far.m = 3
    check("8 before 9", solve(far)[0], (8, 0, 0))


@test
def random_cases_leave_what_the_table_says():
    for case in generate.problems(1500, 21):
        before = all_numbers(case.problem, case.lent)
        answer = case.run()
        after = all_numbers(case.problem, case.lent)
        check("problem buffers are only read", after[:TABLEAU], before[:TABLEAU])
        if answer[0] in (1, 2, 3, 4, 5, 6, 10):
            check("all as before", (answer[1:], after), ((0, 0, 0), before))
        elif answer[0] == 7:
            check("tableau all 0, lists as before", (answer[1:], after[TABLEAU:]),
                  ((0, 0, 0), [[0] * len(before[TABLEAU])] + before[VALUES:]))
        elif answer[0] in (8, 9):
            check("tableau the form, lists as before",
                  (case.call, answer[1:], after[TABLEAU:]),
                  ("assign", (0, 0, 0), [form_of(case.problem)] + before[VALUES:]))
        else:
            check("tableau the form", after[TABLEAU], form_of(case.problem))
            check("values satisfy the rows",
                  engine.satisfies_rows(case.problem, after[VALUES]), True)
