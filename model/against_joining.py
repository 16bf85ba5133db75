"""Joins by the proved library against the plain model, on random calls.

    python3 model/against_joining.py [COUNT SEED ASSIGNED]

Builds the crate koralimbu as against_engine.py does, and calls koralimbu_join (document 02,
(vi)) on COUNT joins of joins.py, valid and damaged; on joins in which one or two of the 26
buffers have a wrong count; on parts without any list; on very long lists of pairs; and on
parts that are joined with themselves, which then lie in the same buffers. The lent lists and
the sizes hold anything before the call, and of the buffers of count 0 most are null pointers.
The returned number, the sizes and every buffer afterwards must be the model's, and what is
only read and the numbers on both sides of each buffer must be as before. How many joins show
what of KINDS is printed, and there must be some of each.

Of the joins that are made the first ASSIGNED go on: a whole assignment of the lists that the
library left must be the model's of its own joined problem, and where it is FITTED, “its two
shares satisfy their own” rows and bounds. The last line is 'N passed, M failed'.
"""

import copy
import ctypes

import needs
from against_engine import (REPORT_NUMBERS, VERDICTS, engine_call, engine_functions,
                            model_call)
from boundary import LENT, Buffer, Tally, call_with, declare, handed, load
from engine import FITTED, PROBLEM_LISTS, WRONG_LENGTH, Problem
from generate import Case, noise, noisy_lent, rng_for
from joining import first_share, joined, satisfies, second_share
from joins import KINDS, Join, join_case, kinds_of, noisy_lists, valid_join

PARTS = ["first", "second"]
NUMBERS = {"pairs": ctypes.c_size_t, "sizes": ctypes.c_size_t}
LARGEST = 2 ** 64 - 1

# What assignments of joined problems end with; there must be some of each.
OUTCOMES = list(VERDICTS) + ["refusal 7", "refusal 8"]


# --------------------------------------------------------------------- the calls

def join_function(library):
    """The library's join: the counts and lists of the first part, those of the second, the
    pairs, the joined lists and the sizes."""
    counts = [ctypes.c_size_t, ctypes.c_size_t]
    front = counts + LENT * len(PROBLEM_LISTS) + counts
    return declare(library.koralimbu_join, front, 2 * len(PROBLEM_LISTS) + 2)


def lists_of(case, sizes):
    """The lists of a call by name, in the call's order."""
    lists = {"%s %s" % (part, name): getattr(getattr(case, part), name)
             for part in PARTS for name in PROBLEM_LISTS}
    lists["pairs"] = case.pairs
    lists.update(("joined " + name, getattr(case.lent, name)) for name in PROBLEM_LISTS)
    lists["sizes"] = sizes
    return lists


def library_join(function, case, sizes, null):
    """The returned number and every buffer after the library's call. Where a part is joined
    with itself, both lie in the same buffers."""
    buffers = {name: Buffer(NUMBERS.get(name, ctypes.c_int64), numbers)
               for name, numbers in lists_of(case, sizes).items()}
    if case.first is case.second:
        buffers.update(("second " + name, buffers["first " + name]) for name in PROBLEM_LISTS)
    for buffer in buffers.values():
        if null and buffer.count == 0:
            buffer.arguments[0] = None
    arguments = handed(buffers)
    # the second part's counts stand before its lists
    front = len(LENT) * len(PROBLEM_LISTS)
    arguments[front:front] = case.second.n, case.second.m
    return call_with(function, [case.first.n, case.first.m] + arguments, buffers)


def model_join(case, sizes):
    """The same of the model, which knows no sizes: those of a wrong length are refusal 2 and
    change nothing."""
    number = WRONG_LENGTH
    if len(sizes) == 2:
        number, *sizes = case.run()
    after = {name: list(numbers) for name, numbers in lists_of(case, sizes).items()}
    after.update(number=number, edges={})
    return after


def random_sizes(rng):
    """What lent sizes may hold, mostly two numbers."""
    length = rng.choice([0, 1, 3, 4]) if rng.random() < 0.03 else 2
    return noise(rng, length, 0, LARGEST)


# --------------------------------------------------------------------- the cases

def one_wrong(case, sizes):
    """Each of the 26 lists in turn empty, shorter, longer and twice as long: what is wrong,
    the call and its sizes. The numbers of a longer one are among those that it has."""
    for name, numbers in lists_of(case, sizes).items():
        right = len(numbers)
        for wrong in sorted({0, max(0, right - 1), right + 1, 2 * right} - {right}):
            again, others = copy.deepcopy((case, sizes))
            changed = lists_of(again, others)[name]
            changed[:] = ((numbers or [1]) * 3)[:wrong]
            yield "%s of %d" % (name, wrong), again, others


def two_wrong(case, sizes):
    """A list shorter and the next one longer, as many numbers together as there must be."""
    names = list(lists_of(case, sizes))
    for one, other in list(zip(names, names[1:])) + list(zip(names[1:], names)):
        again, others = copy.deepcopy((case, sizes))
        lists = lists_of(again, others)
        if lists[one]:
            lists[one].pop()
            lists[other].append(1)
            yield "%s shorter, %s longer" % (one, other), again, others


def empty_parts(rng):
    """No column, or one, and every list empty; the sizes too."""
    for n in (0, 1, 48):
        for length in (2, 0):
            parts = [Problem(n, 0, [], [], [], [], [], [], [], [], None) for _ in PARTS]
            case = Join(*parts, [], Problem(n, 0, [], [], [], [], [], [], [], [], None))
            yield "every list empty, n %d" % n, case, noise(rng, length, 0, LARGEST)


def many_pairs(rng):
    """Lists of more pairs than there can be, at most one of which is a pair."""
    for pairs in ([1, 1] * 1000, [1, 1] * 1000 + [1], [0] * 2000, [LARGEST] * 2000,
                  [number for k in range(1, 1001) for number in (k, k)]):
        case = valid_join(rng)
        case.pairs = pairs
        yield "%d numbers in the list of pairs" % len(pairs), case, [7, 7]


def with_itself(rng):
    """A part joined with itself, none, some or all of its columns with themselves or others."""
    part = valid_join(rng).first
    pairs = []
    shared = rng.randint(0, part.n)
    columns = rng.sample(range(1, part.n + 1), shared)
    others = columns if rng.random() < 0.5 else rng.sample(columns, shared)
    for i, j in zip(columns, others):
        pairs += [i, j]
    return Join(part, part, pairs, noisy_lists(rng, 2 * part.n - shared, 2 * part.m))


# The joins whose counts are made wrong, by what they have.
BASES = {
    "a pair and rows of both": lambda case: (len(case.pairs) == 2 and case.first.m > 0
                                             and case.second.m > 0),
    "pairs and no rows": lambda case: len(case.pairs) > 2 and case.first.m + case.second.m == 0,
    "no pair and rows of one": lambda case: not case.pairs and case.first.m == 0 < case.second.m,
    "48 columns": lambda case: len(case.lent.lower) == 48,
}


def base_join(rng, fits):
    """A join that is made and that fits."""
    while True:
        case = valid_join(rng)
        if fits(case) and case.run()[0] == 0:
            return case


def edge_cases(seed):
    """The cases that are no random joins: what they are, the calls and their sizes."""
    rng = rng_for(seed, 0)
    for base, fits in BASES.items():
        case = base_join(rng, fits)
        yield base, copy.deepcopy(case), [7, 7]
        for some in (one_wrong, two_wrong):
            for what, again, sizes in some(case, [7, 7]):
                yield "%s, %s" % (base, what), again, sizes
    yield from empty_parts(rng)
    yield from many_pairs(rng)
    for number in range(100):
        yield "part %d with itself" % number, with_itself(rng), [7, 7]


# ------------------------------------------------------------------ the comparisons

def compare_join(tally, function, what, case, sizes, null=True):
    """One call by the library and by the model; what the library left."""
    got = library_join(function, case, sizes, null)
    tally.compare(what, got, model_join(case, sizes))
    return got


def joined_by(got):
    """The joined problem that the library left, with no step limit yet."""
    lists = [got["joined " + name] for name in PROBLEM_LISTS]
    return Problem(*got["sizes"], *lists, None)


def compare_assignment(tally, functions, what, case, got, rng):
    """A whole assignment of what the library left, by the library, and of the model's joined
    problem by the model; and the shares of what is FITTED. Returns how it ended."""
    left, limit = joined_by(got), rng.choice([0, 1, 3, 20, 40, 40])
    left.limit = limit
    lent = noisy_lent(rng, left.n, left.m)
    after = engine_call(functions, Case("assign", left, lent), [0] * REPORT_NUMBERS)
    whole = joined(case.first, case.second, case.pairs, limit)
    tally.compare(what + ", assigned", after,
                  model_call(Case("assign", whole, lent), [0] * REPORT_NUMBERS))
    if after["number"] != 0:
        return "refusal %d" % after["number"]
    verdict = {number: word for word, number in VERDICTS.items()}[after["report"][0]]
    if verdict == FITTED:
        shares = {part: satisfies(getattr(case, part), share(case.first, case.second, case.pairs,
                                                             after["values"]))
                  for part, share in zip(PARTS, (first_share, second_share))}
        tally.compare(what + ", its shares", shares, dict.fromkeys(PARTS, True), "wanted")
    return verdict


def compare_joins(tally, join, engine, count, seed, assigned):
    """Random joins, the first made ones of which are assigned."""
    met, ended = dict.fromkeys(KINDS, 0), dict.fromkeys(OUTCOMES, 0)
    for number in range(1, count + 1):
        rng = rng_for(seed, number)
        case, sizes = join_case(rng), random_sizes(rng)
        for kind in kinds_of(case) if len(sizes) == 2 else []:
            met[kind] += 1
        what = "join %d of seed %d: n %d and %d, m %d and %d, %d numbers of pairs" % (
            number, seed, case.first.n, case.second.n, case.first.m, case.second.m,
            len(case.pairs))
        got = compare_join(tally, join, what, case, sizes, null=rng.random() < 0.5)
        if got["number"] == 0 and assigned > 0:
            assigned -= 1
            outcome = compare_assignment(tally, engine, what, case, got, rng)
            ended[outcome] = ended.get(outcome, 0) + 1
    print("joins: " + ", ".join("%s %d" % pair for pair in met.items()))
    print("assigned: " + ", ".join("%s %d" % pair for pair in ended.items()))
    for kind in KINDS:
        tally.require("a join that shows: " + kind, met[kind] > 0)
    for outcome in OUTCOMES:
        tally.require("an assignment that ends with " + outcome, ended[outcome] > 0)


def main(arguments):
    count, seed, assigned = needs.numbers(arguments, [6000, 1, 1500], __doc__)
    tally = Tally()
    library = load("joins are not compared with the plain model")
    if library is None:
        return tally.end()
    join = join_function(library)
    for what, case, sizes in edge_cases(seed):
        compare_join(tally, join, what, case, sizes)
    compare_joins(tally, join, engine_functions(library), count, seed, assigned)
    return tally.end()


if __name__ == "__main__":
    needs.tool(main)
