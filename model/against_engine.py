"""The proved engine against the plain model, on random calls.

    python3 model/against_engine.py [COUNT SEED RUNS PREVIEWS]

Builds the crate koralimbu as a static library, links that into a shared object below
target/, and calls koralimbu_assign and koralimbu_continue on the problems of
generate.py, valid and damaged, with ideals handed in for none, some or all columns
(document 02, (ii)) and goals that are equal or apart (document 02, (v)); in how many calls
the ideals and the high goals play a part is printed. The returned number, the report, with
the rounds of the elimination (document 02, (vii)), and every buffer afterwards must be the
model's, the problem's buffers and the numbers on both sides of each buffer must be as before,
and a report of a wrong length must be refused with nothing changed. How many calls show what
of rounds is printed too, and each kind of ROUND_KINDS must be among them: some 4,000 calls
have them all. Step limits beyond 32 bits, which C's type cannot hold, are left out.

Then RUNS runs are made list by list: the case's call with the step limit 0, and
Continue with the limit 1 until no step is made. The lists must be those of the
model's run, falling at each step, with no list twice (document 02, (xiii)). From the
first list the same run is made by previews alone, where each list after is the next
standing list. Runs of more than MOST_STEPS steps by the model are left out.

Last come PREVIEWS calls of koralimbu_preview (document 02, (i)) on lists from which
steps are to be made, and on damaged ones, watched in the same way; the standing list
must be as before too. “It equals Continue with limit 1 on a copy of the list,
refusals included”: so each call whose list after has n numbers is also compared with
the engine's own koralimbu_continue. How many previews showed what is printed, and each
kind of KINDS must be among them: some 1,000 calls have them all.

The last line is 'N passed, M failed'.
"""

import copy
import ctypes

import needs
import rounds
from boundary import Buffer, Tally, call, declare, load
from engine import (BOUNDS, FITTED, GOALS, LENT_LISTS, OUTSIDE, PROBLEM_LISTS,
                    ROUNDS_PER_COLUMN, SPENT, WRONG_LENGTH, Lent, preview)
from generate import Case, preview_case, problem_case, rng_for
from runs import faults, run_from

VERDICTS = {FITTED: 1, OUTSIDE: 2, SPENT: 3}
PARTS = {BOUNDS: 1, GOALS: 2}
SIGNS = {1: 1, -1: 2}
# A report has the verdict, both step counts and the rounds; a preview's the step, then the
# rounds.
REPORT_NUMBERS = 4
STEP_NUMBERS = 6
PREVIEW_NUMBERS = STEP_NUMBERS + 1
NUMBERS = {"strides": ctypes.c_uint64, "report": ctypes.c_uint32}
MOST_STEPS = 60

# What previews show: of each part a step by each sign and each pair of signs.
WORDS = {0: "", 1: "+", 2: "-"}
KINDS = ["%s step %s" % (part, signs) for part in (BOUNDS, GOALS)
         for signs in ("+", "-", "++", "+-", "-+", "--")]
KINDS += ["no move", "refusal 1", "refusal 2", "refusal 3", "refusal 4", "refusal 5",
          "refusal 7", "refusal 10", "a report of length 6", "a report of length 8"]

# What calls show of rounds.
ROUND_KINDS = rounds.KINDS + ["a report of length 3", "a report of length 5"]


def engine_functions(library):
    """The engine's functions by call."""
    numbers = [ctypes.c_size_t, ctypes.c_size_t, ctypes.c_uint32]
    # the lists and the report; a preview has the standing list beside them
    buffers = len(PROBLEM_LISTS) + len(LENT_LISTS) + 1
    return {"assign": declare(library.koralimbu_assign, numbers, buffers),
            "continue": declare(library.koralimbu_continue, numbers, buffers),
            "preview": declare(library.koralimbu_preview, numbers[:2], buffers + 1)}


def as_buffers(lists):
    """Lists by name as C holds them."""
    return {name: Buffer(NUMBERS.get(name, ctypes.c_int64), numbers)
            for name, numbers in lists.items()}


def engine_call(functions, case, report):
    """The returned number and every buffer after the engine's call."""
    problem = case.problem
    lists = {name: getattr(problem, name) for name in PROBLEM_LISTS}
    lists.update((name, getattr(case.lent, name)) for name in LENT_LISTS)
    lists["report"] = report
    return call(functions[case.call], [problem.n, problem.m, problem.limit],
                as_buffers(lists))


def model_call(case, report):
    """The same of the model, which knows no report: one of a wrong length is refusal 2
    and changes nothing."""
    after = {name: list(getattr(case.problem, name)) for name in PROBLEM_LISTS}
    if len(report) == REPORT_NUMBERS:
        outcome, *counts = case.run()
        after["number"] = 0 if outcome in VERDICTS else outcome
        after["report"] = [VERDICTS.get(outcome, 0), *counts]
    else:
        after["number"] = WRONG_LENGTH
        after["report"] = report
    after.update((name, list(getattr(case.lent, name))) for name in LENT_LISTS)
    after["edges"] = {}
    return after


def random_report(rng, right, wrong):
    """What a lent report may hold, mostly of the right length."""
    length = rng.choice(wrong) if rng.random() < 0.05 else right
    return [rng.randrange(2 ** 32) for _ in range(length)]


def model_run(case):
    """The model's lists: what its call leaves without a step, then what stands while
    that is settled. None where the call is refused, makes no step or too many."""
    case.problem.limit = 0
    if case.run()[0] not in VERDICTS:
        return None
    case.problem.limit = MOST_STEPS + 1
    lists, _ = run_from(case.problem, case.lent.values)
    return lists if 2 <= len(lists) <= MOST_STEPS + 1 else None


def engine_run(functions, case):
    """The engine's lists, first without a step, then a step at a time, up to the first
    call that makes none. One that is refused gives its number in place of a list, and a
    run that is longer than the model's longest ends where that is seen."""
    lists = []
    name, limit = case.call, 0
    while len(lists) <= MOST_STEPS + 1:
        case.problem.limit = limit
        after = engine_call(functions, Case(name, case.problem, case.lent),
                            [0] * REPORT_NUMBERS)
        if after["number"] != 0:
            return lists + [after["number"]]
        if limit == 1 and after["report"][1:3] == [0, 0]:
            break
        lists.append(after["values"])
        case.lent.values = after["values"]
        name, limit = "continue", 1
    return lists


def previewed_run(functions, case, first):
    """The engine's lists by previews alone, from the first on, up to the preview that
    shows no step; refusals and long runs as above."""
    lists = [first]
    while len(lists) <= MOST_STEPS + 1:
        after = engine_preview(functions, case.problem, lists[-1], case.lent,
                               [0] * PREVIEW_NUMBERS)
        if after["number"] != 0:
            return lists + [after["number"]]
        if after["report"][0] == 0:
            break
        lists.append(after["after"])
    return lists


def compare_runs(tally, functions, count, seed):
    """The first count runs of random problems that the model makes."""
    number = 0
    while count > 0:
        number += 1
        want = model_run(problem_case(rng_for(seed, number)))
        if want is None:
            continue
        count -= 1
        case = problem_case(rng_for(seed, number))
        got = engine_run(functions, case)
        wrong = faults(case.problem, got) if got == want else "not the model's run"
        tally.compare("run of case %d of seed %d" % (number, seed),
                      {"lists": got, "faults": wrong}, {"lists": want, "faults": []})
        tally.compare("run of case %d of seed %d by previews" % (number, seed),
                      {"lists": previewed_run(functions, case, want[0])}, {"lists": want})


def told(step):
    """What C is told of a step: the part, the column, and each of the move's vectors with
    its sign; column and vectors are counted from 1."""
    numbers = []
    if step is not None:
        numbers += [PARTS[step.part], step.column + 1]
        for vector, sign in step.move:
            numbers += [vector + 1, SIGNS[sign]]
    return numbers + [0] * (STEP_NUMBERS - len(numbers))


def engine_preview(functions, problem, standing, lent, report):
    """The returned number and every buffer after the engine's preview."""
    lists = {name: getattr(problem, name) for name in PROBLEM_LISTS}
    lists.update(standing=standing, tableau=lent.tableau, after=lent.values,
                 strides=lent.strides, report=report)
    return call(functions["preview"], [problem.n, problem.m], as_buffers(lists))


def model_preview(problem, standing, lent, report):
    """The same of the model; a report of a wrong length as above."""
    after = {name: list(getattr(problem, name)) for name in PROBLEM_LISTS}
    after.update(standing=list(standing), number=WRONG_LENGTH, report=report, edges={})
    if len(report) == PREVIEW_NUMBERS:
        after["number"], step, made = preview(problem, standing, lent)
        after["report"] = told(step) + [made]
    after.update(tableau=list(lent.tableau), after=list(lent.values),
                 strides=list(lent.strides))
    return after


def by_continue(functions, problem, standing, lent):
    """What a preview must leave by the engine's Continue with limit 1 on a copy of the
    list: the list after is as before where that is refused, the part is the one whose count
    is 1, and the rounds are the same."""
    once = copy.copy(problem)
    once.limit = 1
    beside = Lent(lent.tableau, standing, lent.strides)
    after = engine_call(functions, Case("continue", once, beside), [0] * REPORT_NUMBERS)
    _, bounds, goals, made = after["report"]
    return {"number": after["number"], "tableau": after["tableau"], "rounds": made,
            "strides": after["strides"], "part": bounds * PARTS[BOUNDS] + goals * PARTS[GOALS],
            "after": list(lent.values) if after["number"] else after["values"]}


def kind_of(got):
    """Which of KINDS a preview is, by what the engine tells."""
    report = got["report"]
    if len(report) != PREVIEW_NUMBERS:
        return "a report of length %d" % len(report)
    if got["number"] != 0:
        return "refusal %d" % got["number"]
    if report[0] == 0:
        return "no move"
    part = BOUNDS if report[0] == PARTS[BOUNDS] else GOALS
    return "%s step %s%s" % (part, WORDS.get(report[3], "?"), WORDS.get(report[5], "?"))


def compare_previews(tally, functions, count, seed):
    """Previews of random lists, by the model and by Continue."""
    met = dict.fromkeys(KINDS, 0)
    many = 0
    for number in range(1, count + 1):
        rng = rng_for(seed, number)
        problem, standing, lent = preview_case(rng)
        report = random_report(rng, PREVIEW_NUMBERS, [0, 1, 4, 6, 6, 8, 9])
        what = "preview %d of seed %d: n %d, m %d" % (number, seed, problem.n, problem.m)
        got = engine_preview(functions, problem, standing, lent, report)
        kind = kind_of(got)
        met[kind] = met.get(kind, 0) + 1
        many += kind == "no move" and got["report"][STEP_NUMBERS] > problem.n
        if len(report) == PREVIEW_NUMBERS and len(lent.values) == problem.n:
            by_itself = dict(got, part=got["report"][0], rounds=got["report"][STEP_NUMBERS])
            tally.compare(what + ", by Continue", by_itself,
                          by_continue(functions, problem, standing, lent), "Continue's")
        tally.compare(what, got, model_preview(problem, standing, lent, report))
    print("previews: " + ", ".join("%s %d" % pair for pair in met.items()))
    for kind in KINDS:
        tally.require("a preview of the kind: " + kind, met[kind] > 0)
    tally.require("a preview with no move and more rounds than columns", many > 0)


def round_kinds(case, report):
    """Which of ROUND_KINDS a call shows that is still to be made."""
    if len(report) != REPORT_NUMBERS:
        return ["a report of length %d" % len(report)]
    (outcome, *_), _ = case.left_with()
    return rounds.kinds(case, outcome)


def beyond_ceiling(case, got):
    """“at most 31 × n in all”: whether the engine returns more rounds."""
    made = got["report"][3] if len(got["report"]) == REPORT_NUMBERS else 0
    return made > ROUNDS_PER_COLUMN * case.problem.n


def compare_calls(tally, functions, count, seed):
    """Whole assignments and Continues of random problems."""
    left_out = moved = parted = beyond = 0
    met = dict.fromkeys(ROUND_KINDS, 0)
    for number in range(1, count + 1):
        rng = rng_for(seed, number)
        case = problem_case(rng)
        report = random_report(rng, REPORT_NUMBERS, [0, 1, 3, 3, 5, 9])
        problem = case.problem
        if problem.limit >= 2 ** 32:
            left_out += 1
            continue
        what = "case %d of seed %d: %s, n %d, m %d, limit %d" % (
            number, seed, case.call, problem.n, problem.m, problem.limit)
        moved += case.moved_by_ideals()
        parted += case.moved_by_high_goals()
        for kind in round_kinds(case, report):
            met[kind] = met.get(kind, 0) + 1
        got = engine_call(functions, case, report)
        beyond += beyond_ceiling(case, got)
        tally.compare(what, got, model_call(case, report))
    print("%d left out: a step limit beyond 32 bits" % left_out)
    print("%d calls in which ideals that are handed in play a part" % moved)
    print("%d calls in which high goals above the low ones do" % parted)
    print("rounds: " + ", ".join("%s %d" % pair for pair in met.items()))
    tally.require("a call in which an ideal plays a part", moved > 0)
    tally.require("a call in which a high goal plays a part", parted > 0)
    for kind in ROUND_KINDS:
        tally.require("a call of the kind: " + kind, met[kind] > 0)
    tally.require("no more than 31 rounds a column, but in %d calls" % beyond, beyond == 0)


def main(arguments):
    count, seed, runs, previews = needs.numbers(arguments, [4000, 1, 500, 3000], __doc__)
    tally = Tally()
    library = load("the engine is not compared with the plain model")
    if library is None:
        return tally.end()
    functions = engine_functions(library)
    compare_calls(tally, functions, count, seed)
    compare_runs(tally, functions, runs, seed)
    compare_previews(tally, functions, previews, seed)
    return tally.end()


if __name__ == "__main__":
    needs.tool(main)
