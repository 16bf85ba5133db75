"""The formal definitions against the plain model, on random cases.

    python3 model/against_definitions.py [PROBLEMS TEXTS SEED RUNS PREVIEWS IDEALS JOINS]

The definitions of crates/*/specs compute. This writes a crate of one equation
for each case in a folder of its own, with the model's answer on its right side,
and has the checker compute the left sides: whole assignments and Continue with
the rounds (document 02, (vii)) and every lent buffer afterwards, texts with the listing's
bytes, the runs of both calls with what falls at a step (document 02, (xiii)), previews with
what they tell and leave (document 02, (i)), many of which show a step, the two lists of ideals
that the reader hands in for what texts state (document 02, (ii)), and joins of two parts with
every lent list afterwards (document 02, (vi)). Ideals play a part in a quarter of the calls and
a sixth of the listed texts, high goals above the low ones (document 02, (v)) in another quarter
of the calls, and about as many show each of the kinds of rounds.py. A sixth of the texts has
rows by the paths of swept volumes (document 02, (iii)), about as many are refused by their
volumes, at each of the places where they can be, and about as many show what there is of pairs
of goals. The joins show each of the kinds of joins.py. Cases are kept small, since the checker
computes slowly. The last line is 'N passed, M failed'.
"""

import os
import re
import shutil
import subprocess
import tempfile
from fractions import Fraction

import needs
import rounds
import runs
from engine import PROBLEM_LISTS, has_goal, preview, ratio_of
from generate import (REFUSED_KINDS, Case, beside_deck, join, preview_case, problem_case,
                      rng_for, text_case, volume_kinds)
from joins import KINDS, join_case, kinds_of
from listing import blank_lent, listing, problem_of
from needs import ROOT
from pairs import TEXT_KINDS, share_curves, text_kinds
from text import read

MOST_NUMBERS = 60
MOST_STATED = 150
MOST_STEPS = 12
MOST_BYTES = 240
MOST_DIGITS = 5
MOST_JOINED = 200
# Joins about the largest size need more.
MOST_LARGE = 700
LARGE_KINDS = [kind for kind in KINDS if re.search("48|by joined|the size", kind)]

REFUSALS = ["Size", "Length", "Coefficient", "Bound", "Goal", "Limit", "Elimination",
            "NoWholeNumbers", "Seating", "Standing", "Layout", "Term", "Volume", "Pair",
            "PairBounds"]


# ------------------------------------------------------------- values as terms

def integer(z):
    return "pos %d" % z if z >= 0 else "negsuc %d" % (-z - 1)


def listed(items):
    return "(" + "".join(item + " ∷ " for item in items) + "[])"


def integers(numbers):
    return listed(integer(z) for z in numbers)


def naturals(numbers):
    return listed(str(n) for n in numbers)


def posed(problem):
    return ("(record { problem = record { columns = %d; rows = %d; limit = %d };"
            " coefficients = %s; rights = %s; lower = %s; upper = %s; low = %s; high = %s;"
            " given = %s; ideals = %s })"
            % (problem.n, problem.m, problem.limit,
               *[integers(getattr(problem, name)) for name in PROBLEM_LISTS]))


def eight_lists(problem):
    return "(lists %s)" % " ".join(integers(getattr(problem, name)) for name in PROBLEM_LISTS)


def part_record(problem):
    return ("(record { columns = %d; rows = %d; lists = %s })"
            % (problem.n, problem.m, eight_lists(problem)))


def buffers(lent):
    return ("tableau = %s; values = %s; strides = %s"
            % (integers(lent.tableau), integers(lent.values), naturals(lent.strides)))


def answer(outcome, bounds, goals):
    if isinstance(outcome, int):
        return "Err " + REFUSALS[outcome - 1]
    return "Ok (%s (record { bounds = %d; goals = %d }))" % (outcome.capitalize(), bounds, goals)


def seen(number, step):
    """What a preview tells. A single vector has no second one: its sign is 0."""
    if number:
        return "Err " + REFUSALS[number - 1]
    if step is None:
        return "Ok None"
    (s, a), (t, b) = step.move if len(step.move) == 2 else step.move + ((step.move[0][0], 0),)
    return ("Ok (Some (next %s %d (record { s = %d; a = %s; t = %d; b = %s })))"
            % (step.part.capitalize(), step.column, s, integer(a), t, integer(b)))


def join_answer(number, n, m):
    if number:
        return "(Err %s)" % REFUSALS[number - 1]
    return "(Ok (record { columns = %d; rows = %d }))" % (n, m)


# ------------------------------------------------------------------- the cases

def is_large(problem):
    """Whether its tableau is too large to compute."""
    return problem.n * (problem.m + problem.n) > MOST_NUMBERS


def problem_equation(rng, by_ideals=False, by_high=False, shown=None):
    """A call on buffers as an equation, or None where it is too large, or where ideals or
    high goals are to play a part and play none, or a kind of rounds is to be shown and is
    not."""
    case = problem_case(rng)
    problem = case.problem
    if is_large(problem):
        return None
    problem.limit = min(problem.limit, MOST_STEPS) if problem.limit <= 65535 else problem.limit
    if by_ideals and not case.moved_by_ideals() or by_high and not case.moved_by_high_goals():
        return None
    if shown is not None and shown not in rounds.kinds(case, case.left_with()[0][0]):
        return None
    before = "(record { %s })" % buffers(case.lent)
    *answered, made = case.run()
    return ("%s %s %s ≡ record { answer = %s; rounds = %d; %s }"
            % (case.call, posed(problem), before, answer(*answered), made, buffers(case.lent)))


def listed_by_ideals(deck):
    """Whether the ideals that the reader hands in play a part in a read text's listing."""
    problem = problem_of(deck)
    return Case("assign", problem, blank_lent(problem)).moved_by_ideals()


def text_equation(rng, is_read=False, by_ideals=False, shown=None):
    """A text and its listing as an equation, or None where it is too large, is to be read
    and is refused, where ideals are to play a part and play none, or a kind of volumes or of
    pairs is to be shown and is not."""
    data = text_case(rng)
    deck = read(data)
    refused = isinstance(deck, int)
    if len(data) > MOST_BYTES or not refused and is_large(deck):
        return None
    if is_read and refused or by_ideals and not listed_by_ideals(deck):
        return None
    if shown is not None and shown not in volume_kinds(data) + text_kinds(data):
        return None
    out = listing(data)
    first = out.split(b"\n")[0].split(b" ")
    many = len(first) == 3 and int(first[1]) + int(first[2]) > MOST_STEPS
    # the word in front is no number
    wide = any(len(word) > MOST_DIGITS for word in out.split()[1:])
    if many or wide:
        return None
    return "printed %s ≡ %s" % (naturals(data), naturals(out))


def measured(pairs):
    """Fractions as (top, bottom), largest first; those that do not differ stay in order."""
    return listed("fraction %d %d" % pair for pair in
                  sorted(pairs, key=lambda pair: Fraction(*pair), reverse=True))


def run_equation(rng):
    """The lists of a call's run, and what the last step lowers, before and after, as an
    equation; None where it is too large, refused or without a step."""
    case = problem_case(rng)
    problem = case.problem
    if is_large(problem) or problem.limit > 65535:
        return None
    limit, problem.limit = min(problem.limit, MOST_STEPS), 0
    before = "(record { %s })" % buffers(case.lent)
    if isinstance(case.run()[0], int):
        return None
    problem.limit = limit
    lists, _ = runs.run_from(problem, case.lent.values)
    if len(lists) < 2:
        return None
    part = runs.part_of(problem, lists[-2])
    fallen = []
    for values in lists[-2:]:
        if part == runs.BOUNDS:
            pairs = [(d, 1) for d in runs.distances(problem, values)]
        else:
            pairs = [ratio_of(problem, j, v) for j, v in enumerate(values)
                     if has_goal(problem.low[j])]
        name = "distances" if part == runs.BOUNDS else "ratios"
        fallen.append(("sorted below (%s (columns %s) %s)"
                       % (name, posed(problem), integers(values)), measured(pairs)))
    return ("(%s_run %s %s ≡ %s) × (%s ≡ %s) × (%s ≡ %s)"
            % (case.call, posed(problem), before, listed(map(integers, lists)),
               *fallen[0], *fallen[1]))


def preview_equation(rng):
    """A preview as an equation, or None where it is too large, or shows no step in a draw
    for one."""
    wanted = rng.random() < 0.75
    problem, standing, lent = preview_case(rng)
    if is_large(problem):
        return None
    before = "(record { %s })" % buffers(lent)
    number, step, made = preview(problem, standing, lent)
    if wanted and step is None:
        return None
    return ("preview %s %s %s ≡ record { seen = %s; rounds = %d; tableau = %s; after = %s;"
            " strides = %s }"
            % (posed(problem), integers(standing), before, seen(number, step), made,
               integers(lent.tableau), integers(lent.values), naturals(lent.strides)))


def ideals_equation(rng):
    """The two lists of ideals of a read text as an equation, or None where the text is
    refused or too large."""
    if rng.random() < 0.7:
        sketch = beside_deck(rng)
        share_curves(rng, sketch)
        deck = read(join(sketch.tokens()))
    else:
        deck = read(text_case(rng))
    if isinstance(deck, int) or deck.n * (deck.m + deck.n) > MOST_STATED:
        return None
    n, m = deck.n, deck.m
    lists = [deck.coefficients[:m * n], deck.lower[:n], deck.upper[:n], deck.low[:n],
             deck.high[:n]]
    stated = ("(stated_by %d %d %d %s)"
              % (n, m, deck.intervals, " ".join(map(integers, lists))))
    return ("(given_of %s %d ≡ %s) × (ideals_of %s %d ≡ %s)"
            % (stated, n, integers(deck.given[:n]), stated, n, integers(deck.ideals[:n])))


def numbers_of(case):
    """How many numbers a join is handed."""
    return len(case.pairs) + sum(len(getattr(lists, name)) for name in PROBLEM_LISTS
                                 for lists in (case.first, case.second, case.lent))


def join_equation(rng, shown=None):
    """A join as an equation, or None where it is too large, or a kind of joins is to be shown
    and is not."""
    case = join_case(rng)
    if numbers_of(case) > (MOST_LARGE if shown in LARGE_KINDS else MOST_JOINED):
        return None
    if shown is not None and shown not in kinds_of(case):
        return None
    before = eight_lists(case.lent)
    answered = join_answer(*case.run())
    return ("join %s %s %s %s ≡ left %s %s"
            % (part_record(case.first), part_record(case.second), naturals(case.pairs), before,
               answered, eight_lists(case.lent)))


def some(make, count, seed, **wanted):
    """The first count cases that are small enough, and as they are wanted."""
    found = []
    number = 0
    while len(found) < count:
        number += 1
        equation = make(rng_for(seed, number), **wanted)
        if equation is not None:
            found.append(equation)
    return found


def shown_equations(make, kinds, count, seed):
    """Of cases that show these kinds, as many of each and together at most count."""
    return [equation for number, kind in enumerate(kinds)
            for equation in some(make, count // len(kinds), seed + number, shown=kind)]


def problem_equations(count, seed):
    """Of calls: ideals play a part in a quarter of them, and high goals in another; a quarter
    shows each kind of rounds as often, and what does not go into these is any call."""
    quarter = count // 4
    shown = shown_equations(problem_equation, rounds.KINDS, quarter, seed + 3)
    return (some(problem_equation, count - 2 * quarter - len(shown), seed)
            + some(problem_equation, quarter, seed + 1, by_ideals=True)
            + some(problem_equation, quarter, seed + 2, by_high=True) + shown)


def text_equations(count, seed):
    """Of texts: a sixth are any, many of them refused, a sixth are read, a sixth are read
    and ideals play a part in them, and a sixth have rows by paths. A sixth is refused by its
    volumes, as often at each place, and a sixth shows each kind of pairs of goals as often;
    what does not go into these is any text."""
    sixth = count // 6
    shown = shown_equations(text_equation, REFUSED_KINDS, sixth, seed + 4)
    # plain curves and equal goals are in all the others
    shown += shown_equations(text_equation, TEXT_KINDS[2:], sixth,
                             seed + 4 + len(REFUSED_KINDS))
    return (some(text_equation, count - 3 * sixth - len(shown), seed)
            + some(text_equation, sixth, seed + 1, is_read=True)
            + some(text_equation, sixth, seed + 2, is_read=True, by_ideals=True)
            + some(text_equation, sixth, seed + 3, shown="a path row") + shown)


def join_equations(count, seed):
    """Of joins: each kind as often, those that are made and those that are refused, and what
    does not go into these is any join."""
    shown = shown_equations(join_equation, KINDS, count, seed + 1)
    return some(join_equation, count - len(shown), seed) + shown


# ------------------------------------------------------------- the scratch crate

def crates():
    """The repository's crates.txt without comments, as (name, line)."""
    lines = []
    for line in open(os.path.join(ROOT, "crates.txt"), encoding="utf-8"):
        line = line.split("#")[0].strip()
        if line:
            lines.append((line.split(":")[0].strip(), line))
    return lines


def needed(names):
    """The crates that the definitions of a whole run and of a join lie in: solve, runs,
    joining and what they know."""
    lines = dict(names)
    want, todo = [], ["solve", "runs", "joining"]
    while todo:
        name = todo.pop()
        if name in lines and name not in want:
            want.append(name)
            todo += lines[name].split(":")[1].split()
    return want


def shut_definitions(names):
    """The definitions marked `unfoldable`, by module: the checker opens those named."""
    modules = {}
    for name in names:
        folder = os.path.join(ROOT, "crates", name, "specs")
        for file in sorted(os.listdir(folder)) if os.path.isdir(folder) else []:
            if not file.endswith(".antt"):
                continue
            text = open(os.path.join(folder, file), encoding="utf-8").read()
            shut = re.findall(r"^ *unfoldable pub (\S+) ", text, re.M)
            if shut:
                modules["Rattle.%s.specs.%s" % (name, file[:-5])] = shut
    return modules


HEAD = """use mathlib.Core.Path.{◌≡◌, refl}
use mathlib.Core.List.{List, [], ◌∷◌}
use Prim.Native.Nat.{ℕ}
use lib.IntN.{ℤ, pos, negsuc}
use Rattle.problem.specs.Checks.{Posed}
use Rattle.problem.specs.declared.Counts.{Counts}
use Rattle.problem.specs.declared.Refusal.TheVariants.{%s}
use Rattle.std.specs.Prelude.{None, Some, Ok, Err}
use Rattle.problem.specs.declared.Verdict.TheVariants.{Fitted, Outside, Spent}
use Rattle.settling.specs.Measures.{fraction, below}
use Rattle.settling.specs.declared.Move.{Move}
use Rattle.settling.specs.declared.Part.TheVariants.{Bounds, Goals}
use Rattle.engine.specs.Assign.{Buffers, Done, columns, assign, continue}
use Rattle.engine.specs.Preview.{Shown, next, preview}
use Rattle.pairing.specs.declared.Sizes.{Sizes}
use Rattle.pairing.specs.Parts.{Part, lists}
use Rattle.joining.specs.Join.{left, join}
use Rattle.runs.specs.Sorted.{sorted}
use Rattle.runs.specs.Runs.{distances, ratios}
use Rattle.runs.specs.CallRuns.{assign_run, continue_run}
use Rattle.neighbours.specs.Neighbours.{stated_by, given_of, ideals_of}
use Rattle.solve.specs.Program.{printed}
""" % ", ".join(REFUSALS)


def write_crate(equations, scratch):
    """The crate of the cases beside copies of the crates that they need, outside this checkout: what a check of the same
    crates has proved here is not proved again."""
    names = crates()
    want = needed(names)
    cases = os.path.join(scratch, "crates", "cases")
    for part in ("src", "proofs"):
        os.makedirs(os.path.join(cases, part))
    for name in want:
        shutil.copytree(os.path.join(ROOT, "crates", name), os.path.join(scratch, "crates", name),
                        ignore=shutil.ignore_patterns("out"))
    with open(os.path.join(scratch, "crates.txt"), "w", encoding="utf-8") as out:
        out.write("".join(line + "\n" for name, line in names if name in want))
        out.write("cases: " + " ".join(want) + "\n")
    with open(os.path.join(cases, "src", "lib.rt"), "w") as out:
        out.write("// Cases.\n")
    with open(os.path.join(cases, "proofs", "Lib.antt"), "w") as out:
        out.write("pub mod Cases\n")
    modules = shut_definitions(want)
    uses, opened = "", []
    for number, (module, shut) in enumerate(sorted(modules.items())):
        uses += "use %s as open%d\n" % (module, number)
        opened += ["open%d.%s" % (number, name) for name in shut]
    with open(os.path.join(cases, "proofs", "Cases.antt"), "w", encoding="utf-8") as out:
        out.write(HEAD + uses)
        for number, equation in enumerate(equations, 1):
            proofs = ["refl"] * (1 + equation.count(" × "))
            proof = "(%s)" % ", ".join(proofs) if len(proofs) > 1 else "refl"
            out.write("\ncase%d : %s\nunfolding %s\ncase%d = %s\n"
                      % (number, equation, " ".join(opened), number, proof))
    return cases


def main(arguments):
    counts = needs.numbers(arguments, [80, 90, 1, 20, 30, 40, 70], __doc__)
    rt = needs.rt()
    equations = problem_equations(counts[0], counts[2])
    equations += text_equations(counts[1], counts[2])
    equations += some(run_equation, counts[3], counts[2])
    equations += some(preview_equation, counts[4], counts[2])
    equations += some(ideals_equation, counts[5], counts[2])
    equations += join_equations(counts[6], counts[2])
    with tempfile.TemporaryDirectory() as scratch:
        folder = write_crate(equations, scratch)
        run = subprocess.run([rt, "check"], cwd=folder, capture_output=True, text=True)
    log = run.stdout + run.stderr
    bad = set(re.findall(r"error: `(case\d+)`", log))
    for name in sorted(bad, key=lambda name: int(name[4:])):
        print("%s: %s" % (name, equations[int(name[4:]) - 1]))
    failed = len(bad)
    if run.returncode != 0 and failed == 0:
        print(log[-4000:])
        failed = len(equations)
    print("%d passed, %d failed" % (len(equations) - failed, failed))
    return 1 if failed else 0


if __name__ == "__main__":
    needs.tool(main)
