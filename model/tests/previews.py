"""Document 02, (i), “Show the next step before taking it”: steps made by hand, each
refusal, what makes it Continue with limit 1, and wrong answers that are told apart.
"""

import engine
import generate
import runs
from engine import (BOUNDS, FITTED, GOALS, LENT_LISTS, M, OUTSIDE, PROBLEM_LISTS, Lent, Step)
from tests.settling import plain_distance, plain_improves, plain_ratio
from tests.steps import random_runs
from tests.tools import (TABLEAU, all_numbers, chain, check, counted_from, form_of, make,
                         marked_lent, random_problems, sound_problem, test, with_limit)

PLUS, MINUS = 1, -1


def shown(preview, problem, standing):
    """A preview's answer, and the list after, the tableau and the strides then, in
    buffers that held marks."""
    lent = marked_lent(problem.n, problem.m)
    answer = preview(problem, standing, lent)
    return answer, lent.values, lent.tableau, lent.strides


# --------------------------------------------------------------- steps made by hand

def tied(limit=10000):
    """v1 = v2, bounds 1..10 and 5..10, no goals; N1 = (1, 1)."""
    return make(2, [[1, -1]], [0], [(1, 10), (5, 10)], limit=limit)


def three_to_two():
    """3v1 = 2v2, bounds 1..100, goals 2500 and 4000; N1 = (2, 3)."""
    return make(2, [[3, -2]], [0], (1, 100), [2500, 4000])


def sum_of_two(bounds, goals=None):
    """v1 + v2 = v3; N1 = (1, 0, 1), N2 = (0, 1, 1)."""
    return make(3, [[1, 1, -1]], [0], bounds, goals)


def free(bounds, goals=None):
    """No rows; each vector is a column of its own."""
    return make(len(bounds), [], [], bounds, goals)


def step(part, column, *move):
    """A step by its names; column and vectors are counted from 1 here, as in document 01,
    and a minus stands for the sign."""
    return Step(part, column - 1, tuple((abs(s) - 1, PLUS if s > 0 else MINUS)
                                        for s in move))


FIXED = (4, 4)
WIDE = (0, 9)

# What is shown, the problem, the standing list, the step and the list after it.
STEPS = [
    # document 01's deck cases
    ("v1 = v2: the first step", tied(), [1, 1], step(BOUNDS, 2, 1), [2, 2]),
    ("v1 = v2: the last step", tied(), [4, 4], step(BOUNDS, 2, 1), [5, 5]),
    ("v1 = v2: fitted", tied(), [5, 5], None, [5, 5]),
    ("v1 = v2: from above", tied(), [11, 11], step(BOUNDS, 1, -1), [10, 10]),
    ("3v1 = 2v2: seated", three_to_two(), [4, 6], step(GOALS, 1, -1), [2, 3]),
    ("3v1 = 2v2: fitted", three_to_two(), [2, 3], None, [2, 3]),
    ("3v1 = 2v2: still outside", three_to_two(), [0, 0], step(BOUNDS, 1, 1), [2, 3]),
    ("v1 = 2v2: outside", make(2, [[1, -2]], [0], [(1, 1), (1, 10)]), [2, 1], None, [2, 1]),
    # v3 may not change, so that both vectors are needed
    ("+-", sum_of_two([(2, 9), WIDE, FIXED]), [1, 3, 4], step(BOUNDS, 1, 1, -2), [2, 2, 4]),
    ("-+", sum_of_two([(0, 2), WIDE, FIXED]), [3, 1, 4], step(BOUNDS, 1, -1, 2), [2, 2, 4]),
    ("+- for column 2", sum_of_two([WIDE, (0, 2), FIXED]), [1, 3, 4],
     step(BOUNDS, 2, 1, -2), [2, 2, 4]),
    ("++", make(3, [[1, -1, -1]], [0], [(5, 9), WIDE, (1, 1)]), [4, 3, 1],
     step(BOUNDS, 1, 1, 2), [5, 4, 1]),
    ("--", make(3, [[1, -1, -1]], [0], [(0, 3), WIDE, (1, 1)]), [4, 3, 1],
     step(BOUNDS, 1, -1, -2), [3, 2, 1]),
    ("+- in the goals part", sum_of_two([(1, 9), (1, 9), FIXED], [3000, 0, 0]), [1, 3, 4],
     step(GOALS, 1, 1, -2), [2, 2, 4]),
    # “first column”, “its first such move”
    ("the first of several moves", free([(5, 9), WIDE]), [1, 1], step(BOUNDS, 1, 1), [2, 1]),
    ("the largest distance", free([(5, 9), (6, 9)]), [1, 1], step(BOUNDS, 2, 2), [1, 2]),
    ("equal distances", free([(5, 9), (0, 3)]), [3, 5], step(BOUNDS, 1, 1), [4, 5]),
    ("the largest ratio", free([(1, 99), (1, 99)], [9000, 9000]), [8, 7],
     step(GOALS, 2, 2), [8, 8]),
    ("equal ratios", free([(1, 99), (1, 99)], [6000, 6000]), [9, 4],
     step(GOALS, 1, -1), [8, 4]),
    ("the first column has no move", make(2, [[1, 0]], [20], [(1, 10), (3, 9)]), [20, 1],
     step(BOUNDS, 2, 1), [20, 2]),
    ("no goal, no step", free([(1, 99)]), [50], None, [50]),
    ("a goal that is met", free([(1, 99)], [7000]), [7], None, [7]),
    ("no vector, outside", make(1, [[1]], [20], (1, 10)), [20], None, [20]),
    # +N1 would take column 1 beyond M
    ("at M", make(3, [[1, -1, -1000]], [294],
                  [(0, 1000000), (1000000, 1000000), (-1000000, 1000000)]),
     [M, -M, 4294967], step(BOUNDS, 2, 2), [M, 1000 - M, 4294966]),
]


@test
def preview_steps_by_hand():
    for what, problem, standing, wanted, after in STEPS:
        before = list(standing)
        got = shown(engine.preview, problem, standing)
        _, rounds, lent = counted_from(with_limit(problem, 1), standing)
        check(what, got[:2], ((0, wanted, rounds), after))
        check(what + ": the standing list is only read", standing, before)
        check(what + ": tableau and strides", got[2:], (form_of(problem), lent.strides))


@test
def preview_of_the_deck_cases_in_numbers():
    check("v1 = v2", shown(engine.preview, tied(), [1, 1]),
          ((0, Step(BOUNDS, 1, ((0, 1),)), 2), [2, 2], [1, 0, -1, 0, 1, 1], [1, 1]))
    check("3v1 = 2v2", shown(engine.preview, three_to_two(), [4, 6])[0],
          (0, Step(GOALS, 0, ((0, -1),)), 3))
    check("3v1 = 2v2: strides", shown(engine.preview, three_to_two(), [4, 6])[3], [2, 3])


@test
def preview_names_moves_in_order():
    one, two, three = ((s, PLUS) for s in range(3))
    less_one, less_two, less_three = ((s, MINUS) for s in range(3))
    check("names of three vectors", list(engine.move_names(3)),
          [(one,), (less_one,), (two,), (less_two,), (three,), (less_three,),
           (one, two), (one, less_two), (less_one, two), (less_one, less_two),
           (one, three), (one, less_three), (less_one, three), (less_one, less_three),
           (two, three), (two, less_three), (less_two, three), (less_two, less_three)])
    check("no vectors, no names", list(engine.move_names(0)), [])


# ------------------------------------------------------------------------- refusals

def check_refused(what, problem, standing, lent, number, tableau=None):
    """A refusal: its number, no step, no rounds, and every buffer as before, but the tableau
    if one is given."""
    before = all_numbers(problem, lent) + [list(standing)]
    if tableau is not None:
        before[TABLEAU] = tableau
    check(what, engine.preview(problem, standing, lent), (number, None, 0))
    check(what + ": what is left", all_numbers(problem, lent) + [standing], before)


def check_cause(what, number, problem):
    """One of causes 1, 2, 3, 4 and 5 in the sound problem's numbers."""
    check_refused(what, problem, [2, 2], marked_lent(2, 1), number)


def spoilt(name, index, value):
    """The sound problem with one number changed."""
    problem = sound_problem()
    getattr(problem, name)[index] = value
    return problem


@test
def preview_refusal_1():
    for n, m in ((0, 1), (49, 1), (-1, 1), (2, 49), (2, -1), (10 ** 9, 10 ** 9)):
        problem = sound_problem()
        problem.n, problem.m = n, m
        check_cause("n %d, m %d" % (n, m), 1, problem)


@test
def preview_refusal_2():
    """Both lists need n numbers, and every other buffer its own length."""
    for name in ["standing"] + PROBLEM_LISTS + LENT_LISTS:
        for change in (-1, 1):
            problem, standing, lent = sound_problem(), [2, 2], marked_lent(2, 1)
            owner = lent if hasattr(lent, name) else problem
            buffer = standing if name == "standing" else getattr(owner, name)
            if change == 1:
                buffer.append(0)
            else:
                buffer.pop()
            check_refused("length of %s by %+d" % (name, change), problem, standing, lent, 2)
    for standing, after in (([2], [9]), ([2, 2, 0], [9, 9, 9]), ([2], [9, 9, 9]), ([], [])):
        lent = Lent([777] * 6, after, [999, 999])
        check_refused("lists of %d and %d" % (len(standing), len(after)), sound_problem(),
                      standing, lent, 2)


@test
def preview_refusals_3_to_5():
    for value in (1001, -1001, 2 ** 63 - 1, -2 ** 63):
        check_cause("coefficient %d" % value, 3, spoilt("coefficients", 1, value))
    for value in (1000001, -1000001, 2 ** 63 - 1, -2 ** 63):
        check_cause("right side %d" % value, 3, spoilt("rights", 0, value))
    for value in (10, 1000001, -1000001):
        check_cause("lower %d" % value, 4, spoilt("lower", 1, value))
    for value in (0, 1000001, -1000001):
        check_cause("upper %d" % value, 4, spoilt("upper", 1, value))
    for value in (-1, 1000000001):
        check_cause("low goal %d" % value, 5, spoilt("low", 1, value))
        check_cause("high goal %d" % value, 5, spoilt("high", 1, value))
    for name in ("low", "high"):
        check_cause("no %s goal beside the other" % name, 5, spoilt(name, 1, 0))
    check_cause("a low goal above the high one", 5, spoilt("low", 1, 2001))
    check_cause("goals with lower 0", 5, spoilt("lower", 1, 0))


@test
def preview_refusal_7():
    """“tableau all 0, lists as before”."""
    check_refused("chain of five", chain(5, (0, 10)), [0] * 5, marked_lent(5, 4), 7, [0] * 45)


@test
def preview_refusal_10():
    for values in ([2, 3], [4, 1], [M + 1, 3 - M], [-M - 1, M + 5], [2 ** 63 - 1, -2 ** 63]):
        check_refused("list %r" % values, sound_problem(), values, marked_lent(2, 1), 10)
    for value, number in ((M, 0), (-M, 0), (M + 1, 10), (-M - 1, 10)):
        check("list of %d without rows" % value,
              shown(engine.preview, make(1, [], [], (0, 9)), [value])[0][0], number)


@test
def preview_never_answers_8():
    """It takes no right-side step, as Continue: no list passes 10."""
    for value in range(-3, 4):
        check_refused("2v = 1", make(1, [[2]], [1], (0, 9)), [value], marked_lent(1, 1), 10)


@test
def preview_order_of_refusals():
    """1 to 5, then 10, then 7: each cause is added before the ones that are there, and is
    then the one named."""
    problem, standing, lent = chain(5, (0, 10)), [0] * 5, marked_lent(5, 4)
    problem.limit = 65536

    def named():
        return engine.preview(problem, standing, Lent(*map(list, (
            lent.tableau, lent.values, lent.strides))))[0]

    check("7, and never 6", named(), 7)
    standing[4] = 1
    check("10 before 7", named(), 10)
    problem.low[4] = problem.high[4] = 1
    check("5 before 10", named(), 5)
    problem.upper[4] = -1
    check("4 before 5", named(), 4)
    problem.rights[3] = 1000001
    check("3 before 4", named(), 3)
    for name, buffer in (("the standing list", standing), ("the list after", lent.values),
                         ("given", problem.given), ("ideals", problem.ideals)):
        buffer.append(0)
        check("2 before 3: " + name, named(), 2)
        del buffer[3:]
        check("2 before 3, shorter: " + name, named(), 2)
        buffer += [0, 0]
    problem.m = 49
    check("1 before 3", named(), 1)
    standing.pop()
    check("1 before 2", named(), 1)


@test
def preview_knows_no_limit():
    """The limit held beside the problem plays no part, within its limits or outside."""
    for limit in (-1, 0, 1, 2, 65535, 65536, 2 ** 31, 2 ** 63 - 1):
        for standing in ([1, 1], [5, 5], [1, 2]):
            check("limit %d from %r" % (limit, standing),
                  shown(engine.preview, tied(limit), standing),
                  shown(engine.preview, tied(1), standing))
        check("limit %d: a step" % limit, shown(engine.preview, tied(limit), [1, 1])[1],
              [2, 2])


# -------------------------------------------- “It equals Continue with limit 1 on a copy”

def continued(problem, standing, lent):
    """What a preview must be by Continue with limit 1 on a copy of the list: the number,
    the part, the rounds, and the list after, the tableau and the strides then."""
    copy = Lent(list(lent.tableau), list(standing), list(lent.strides))
    outcome, bounds_count, goals_count, rounds = engine.cont(with_limit(problem, 1), copy)
    if isinstance(outcome, int):
        return outcome, None, 0, lent.values, copy.tableau, copy.strides
    part = {(1, 0): BOUNDS, (0, 1): GOALS, (0, 0): None}[bounds_count, goals_count]
    # without a step the verdict is that of a list at rest
    check("a verdict without a step", outcome in (FITTED, OUTSIDE) or part is not None, True)
    return 0, part, rounds, copy.values, copy.tableau, copy.strides


def previewed(problem, standing, lent):
    """The same of the preview itself."""
    number, told, rounds = engine.preview(problem, standing, lent)
    return number, told and told.part, rounds, lent.values, lent.tableau, lent.strides


@test
def property_preview_is_continue():
    kinds = dict.fromkeys([BOUNDS, GOALS, None, 1, 2, 3, 4, 5, 7, 10], 0)
    for number in range(2500):
        problem, standing, lent = generate.preview_case(generate.rng_for(25, number))
        if len(standing) != len(lent.values):
            continue
        before = list(standing)
        want = continued(problem, standing, lent)
        got = previewed(problem, standing, lent)
        kinds[got[0] or got[1]] += 1
        check("preview is Continue", got, want)
        check("the standing list is only read", standing, before)
    print("random previews by part or refusal: %s" % kinds)
    for kind, count in kinds.items():
        check("previews of the kind %s" % kind, count > 0, True)


@test
def property_preview_by_preview():
    """Previews in a chain, each list after the next standing list, make settling's run, up
    to its end; runs that the limit ends, or whose list fails a row, are left out."""
    steps = {BOUNDS: 0, GOALS: 0}
    for problem, values, lists, _ in random_runs(26, 200):
        if len(lists) > problem.limit or not engine.satisfies_rows(problem, values):
            continue
        chained, parts = [values], []
        # one list too many ends a chain that would never end
        while len(chained) <= len(lists):
            (number, told, _), after, _, _ = shown(engine.preview, problem, chained[-1])
            if told is None:
                check("the end of a chain", (number, after), (0, chained[-1]))
                break
            chained.append(after)
            parts.append(told.part)
            steps[told.part] += 1
        check("the run by previews", chained, lists)
        check("its parts", parts, [runs.part_of(problem, old) for old in lists[:-1]])
    for part, count in steps.items():
        check("steps of the part %s in chains" % part, count >= 100, True)


# -------------------------------------------------------------- steps word by word

def basis_of(problem):
    table = engine.fill(problem)
    leads, _ = engine.bring_to_form(table)
    return engine.basis_of(table, leads, problem.m)


def plain_step(problem, basis, values, ties=1, place=0):
    """The step word by word. The wrong answers have other ties, or take the improving move
    at this place of the column's."""
    columns = range(problem.n)
    distances = [plain_distance(problem, j, values[j]) for j in columns]
    if any(distances):
        part, ranked = BOUNDS, [(-d, ties * j, j) for j, d in enumerate(distances) if d]
    else:
        part, ranked = GOALS, [(-plain_ratio(problem.low[j], problem.high[j], values[j]),
                                ties * j, j) for j in columns if problem.low[j]]
    for _, _, i in sorted(ranked):
        found = [name for name in engine.move_names(len(basis)) if
                 plain_improves(problem, values, engine.move_named(basis, name), i)]
        if found:
            return Step(part, i, found[min(place, len(found) - 1)])
    return None


@test
def property_preview_word_by_word():
    """What is named is the step as document 01 has it, and makes the list after."""
    families = [generate.small_problem, generate.small_problem, generate.middle_problem]
    pairs = 0
    for _, problem, hidden in random_problems(27, 400, families):
        try:
            basis = basis_of(problem)
        except engine.Beyond:
            continue
        for values in (hidden, [v + 3 * x for v, x in
                                zip(hidden, (basis or [[0] * problem.n])[-1])]):
            (_, told, _), after, _, _ = shown(engine.preview, problem, values)
            check("the step", told, plain_step(problem, basis, values))
            pairs += told is not None and len(told.move) == 2
            made = [sum(sign * basis[s][j] for s, sign in told.move) if told else 0
                    for j in range(problem.n)]
            check("the list after it", [b - a for a, b in zip(values, after)], made)
    check("pairs are among them", pairs > 0, True)


# ------------------------------------------------------------------- wrong answers

def by_other_step(**other):
    """The preview that shows another step."""
    def wrong(problem, standing, lent):
        number, told, rounds = engine.preview(problem, standing, lent)
        if told is not None:
            basis = basis_of(problem)
            told = plain_step(problem, basis, standing, **other)
            lent.values[:] = engine.list_after(basis, standing, told)
        return number, told, rounds
    return wrong


def part_after(problem, standing, lent):
    number, told, rounds = engine.preview(problem, standing, lent)
    return number, told and told._replace(part=engine.part_of(problem, lent.values)), rounds


def first_vector_alone(problem, standing, lent):
    number, told, rounds = engine.preview(problem, standing, lent)
    return number, told and told._replace(move=told.move[:1]), rounds


def written_although_10(problem, standing, lent):
    number, told, rounds = engine.preview(problem, standing, lent)
    if number == 10:
        lent.values[:] = standing
    return number, told, rounds


def alone_at_rest(problem, standing, lent):
    before = list(lent.values)
    number, told, rounds = engine.preview(problem, standing, lent)
    if number == 0 and told is None:
        lent.values[:] = before
    return number, told, rounds


def no_rounds_at_rest(problem, standing, lent):
    number, told, rounds = engine.preview(problem, standing, lent)
    return number, told, 0 if told is None else rounds


def turned_back_by_6(problem, standing, lent):
    cause = engine.first_cause(problem, lent)
    return (6, None, 0) if cause == 6 else engine.preview(problem, standing, lent)


WRONG = [
    ("the column's second improving move", by_other_step(place=1)),
    ("ties to the higher column", by_other_step(ties=-1)),
    ("the part of the list after the step", part_after),
    ("the first vector alone of a pair", first_vector_alone),
    ("the list after written although 10 is answered", written_although_10),
    ("the list after left alone where no move improves", alone_at_rest),
    ("no rounds where no move improves", no_rounds_at_rest),
    ("a limit outside turned back", turned_back_by_6),
]


@test
def wrong_previews_are_told_apart():
    """Each wrong answer differs from the model on some of the cases made by hand, and the
    step word by word, which two of them are made of, differs on none."""
    cases = [(problem, standing) for _, problem, standing, _, _ in STEPS]
    cases += [(sound_problem(), [2, 3]), (tied(65536), [1, 1])]

    def differing(preview):
        return sum(shown(preview, *case) != shown(engine.preview, *case) for case in cases)

    for what, wrong in WRONG:
        check("wrong and told apart: " + what, differing(wrong) > 0, True)
    check("another way to the same step", differing(by_other_step()), 0)
    for place in (0, 1):
        ranked = free([(1, 99), (1, 99)], [6000, 6000])
        answer = by_other_step(place=place)(ranked, [9, 4], marked_lent(2, 0))
        check("place %d among the improving moves" % place, answer[1],
              step(GOALS, 1, *((-1,), (-1, 2))[place]))
