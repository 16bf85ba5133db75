"""Times the proved engine beside unverified engines and other libraries.

    python3 bench/run.py [--quick] [--no-callgrind] [--write]

builds what it needs under target/bench/, prints the results and writes them to
target/bench/results.md and target/bench/growth.svg. --quick takes few decks and
few rounds; --no-callgrind leaves the instruction counts out; --write also puts
the results into docs/PERFORMANCE.md and the plot beside it. Every engine's answer
is compared with ours on every deck before it is timed. docs/PERFORMANCE.md says
what is timed and how.
"""

import ctypes
import glob
import os
import re
import shutil
import subprocess
import sys

sys.dont_write_bytecode = True
ROOT = os.path.dirname(os.path.dirname(os.path.abspath(__file__)))
sys.path.insert(1, os.path.join(ROOT, "model"))

import build
import chart
import decks
import results
import text

DECKS = os.path.join(build.TARGET, "decks")
DUMPS = os.path.join(build.TARGET, "callgrind")
DOCUMENT = os.path.join(ROOT, "docs", "PERFORMANCE.md")
LISTING = os.path.join(ROOT, "target", "bin", "listing")
START, END = "<!-- results: written by bench/run.py --write -->", "<!-- end of results -->"

# The listing program's step limit.
LIMIT = 10000
ROUNDS, QUICK_ROUNDS = 9, 3
# How often the listing program is started for its memory.
STARTS = 9
# Numbers of ptrace: trace a running program, let it go, and stop it where it exits.
SEIZE, DETACH, STOP_AT_EXIT = 0x4206, 17, 0x40

SIZES = (8, 16, 24, 32, 48)
RADISH_SIZES = (2, 8, 16, 48)
# mixed 48 with seed 2 is named in the targets, and plotted with the smaller ones.
MIXED = [("mixed", n, 2) for n in SIZES] + [("mixed", 48, 1), ("mixed", 48, 3)]
QUICK = [("mapped", 16, 1), ("mapped", 48, 1), ("paved", 48, 1), ("tied", 48, 1),
         ("mixed", 16, 2), ("mixed", 32, 2), ("mixed", 48, 2), ("parity", 16, 1),
         ("slow", 48, 1), ("worst", 48, 1)]
LARGEST = "mixed-48-2"


# -------------------------------------------------------------------- the decks

def full_set():
    """Every family in every size that it has."""
    wanted = []
    for family in decks.FAMILIES:
        sizes = RADISH_SIZES if family == "radish" else SIZES
        wanted += MIXED if family == "mixed" else [(family, n, 1) for n in sizes]
    return wanted


def numbers_of(deck):
    """A read deck as the timing program takes it: a line for each buffer."""
    n, m = deck.n, deck.m
    buffers = [[n, m, LIMIT], deck.coefficients[:n * m], deck.rights[:m], deck.lower[:n],
               deck.upper[:n], deck.low[:n], deck.high[:n], deck.given[:n], deck.ideals[:n]]
    return "".join(" ".join(map(str, numbers)) + "\n" for numbers in buffers)


def write(path, words):
    with open(path, "w") as file:
        file.write(words)


def write_decks(wanted):
    """Writes each deck as text and as numbers; returns the paths of the numbers."""
    os.makedirs(DECKS, exist_ok=True)
    paths = []
    for family, n, seed in wanted:
        made = decks.make(family, n, seed)
        if made is None:
            build.say("%s has no deck of %d columns" % (family, n))
            continue
        path = os.path.join(DECKS, "%s-%02d-%d" % (family, n, seed))
        write(path + ".txt", made.text())
        write(path + ".numbers", numbers_of(text.read(made.text().encode())))
        paths.append(path + ".numbers")
    return paths


# -------------------------------------------------------------------- measuring

def program(*words):
    """The fields of the lines that the timing program prints."""
    return [line.split("\t") for line in build.run([build.PROGRAM, *words]).splitlines()]


def has_goals(path):
    """Whether a low goal is set, and so the high one."""
    with open(path) as file:
        return any(goal != "0" for goal in file.read().splitlines()[5].split())


def time_deck(path, rounds):
    """The result of one deck, without its counts."""
    answer, *times = program("times", str(rounds), path)
    result = results.Result(answer[1], *map(int, answer[2:]))
    result.has_goals = has_goals(path)
    for _, _, engine, rounds, note in times:
        result.add_rounds(engine, [float(time) for time in rounds.split()])
        result.notes[engine] = note
    return result


def callgrind(mode, functions, paths):
    """The instructions in some functions, by (deck, engine): a dump for each call."""
    shutil.rmtree(DUMPS, ignore_errors=True)
    os.makedirs(DUMPS)
    toggles = ["--toggle-collect=" + function for function in functions]
    build.run(["valgrind", "--tool=callgrind", "--collect-atstart=no", *toggles,
               "--callgrind-out-file=" + os.path.join(DUMPS, "dump"),
               build.PROGRAM, mode, *paths])
    counts = {}
    for path in glob.glob(os.path.join(DUMPS, "dump.*")):
        with open(path) as file:
            dump = file.read()
        deck, engine = re.search(r"^desc: Trigger: Client Request: (\S+) (.+)$", dump,
                                 re.M).groups()
        counts[deck, engine] = int(re.search(r"^totals: (\d+)$", dump, re.M).group(1))
    return counts


def add_counts(measured, paths):
    """Whole calls, and of ours the function of the form in them."""
    counts = callgrind("counts", ["koralimbu_assign", "tuned_assign", "plain_assign"], paths)
    counts.update(callgrind("forms", ["tableau::form", "tuned_form", "plain_form"], paths))
    for result in measured:
        result.counts = {engine: count for (deck, engine), count in counts.items()
                         if deck == result.name and count > 0}


def peak_of_start(words):
    """The listing program's most resident memory in KiB; None where it cannot be traced.

    wait4 would tell that of this Python, which the child still is when exec is called. So the
    program is stopped at its exit, where the peak of its own memory can still be read.
    """
    ptrace = ctypes.CDLL(None).ptrace
    child = subprocess.Popen([LISTING], stdin=subprocess.PIPE, stdout=subprocess.DEVNULL)
    # It waits for its text, and so is traced before it can exit.
    traced = ptrace(SEIZE, child.pid, None, ctypes.c_void_p(STOP_AT_EXIT)) == 0
    child.stdin.write(words)
    child.stdin.close()
    peak = None
    if traced:
        os.waitpid(child.pid, 0)
        with open("/proc/%d/status" % child.pid) as file:
            peak = int(re.search(r"^VmHWM:\s+(\d+) kB$", file.read(), re.M).group(1))
        ptrace(DETACH, child.pid, None, None)
    child.wait()
    return peak


def peaks_of_listing(deck):
    """The peaks of some starts, least first; empty where they cannot be measured."""
    if not os.path.exists(LISTING):
        build.say("no target/bin/listing: its memory is left out")
        return []
    with open(os.path.join(DECKS, deck + ".txt"), "rb") as file:
        words = file.read()
    peaks = [peak_of_start(words) for _ in range(STARTS)]
    if None in peaks:
        build.say("no ptrace: the listing program's memory is left out")
        return []
    return sorted(peaks)


# -------------------------------------------------------------------- reporting

def first_line(*command):
    """The first line that a tool says of itself; None where it is not there or says nothing."""
    if not shutil.which(command[0]):
        return None
    said = subprocess.run(command, cwd=ROOT, text=True, stdout=subprocess.PIPE,
                          stderr=subprocess.DEVNULL)
    return said.stdout.partition("\n")[0] or None


def machine():
    with open("/proc/cpuinfo") as file:
        model = re.search(r"^model name\s*: (.*)$", file.read(), re.M)
    facts = [model.group(1) if model else None, "Linux " + os.uname().release,
             first_line("rt", "version"), first_line("g++", "--version"),
             first_line("rustc", "--version"),
             first_line("valgrind", "--version")]
    facts += [fields[1] for fields in program("versions")]
    return "Machine: " + "; ".join(fact for fact in facts if fact) + "."


def memory(deck):
    """One line on the memory that a call takes."""
    stacks = {engine: int(bytes_) for _, _, engine, bytes_ in
              program("stack", os.path.join(DECKS, deck + ".numbers"))}
    words = "Memory on {}: one call takes {:,} bytes of stack beside the lent buffers".format(
        deck, stacks["ours"])
    peaks = peaks_of_listing(deck)
    if peaks:
        words += ("; the listing program's peak is {:,} KiB resident, the median of {} starts"
                  " ({:,} to {:,})").format(peaks[STARTS // 2], STARTS, peaks[0], peaks[-1])
    return words + "."


def report(measured):
    parts = [machine(), results.table(measured), results.targets(measured), memory(LARGEST)]
    return "\n\n".join(parts) + "\n"


def put_into_document(words):
    """Replaces what stands between the two marks."""
    with open(DOCUMENT) as file:
        before, rest = file.read().split(START)
    write(DOCUMENT, before + START + "\n\n" + words + "\n" + END + rest.split(END)[1])


def main(options):
    unknown = set(options) - {"--quick", "--no-callgrind", "--write"}
    if unknown:
        sys.exit(__doc__)
    quick = "--quick" in options
    can_count = build.build() and shutil.which("valgrind")
    paths = write_decks(QUICK if quick else full_set())
    measured = []
    for path in paths:
        build.say(os.path.basename(path).split(".")[0])
        measured.append(time_deck(path, QUICK_ROUNDS if quick else ROUNDS))
    if "--no-callgrind" not in options:
        if can_count:
            add_counts(measured, paths)
        else:
            build.say("no valgrind: no instruction counts")
    words = report(measured)
    plot = chart.draw(results.PLOT_TITLE, results.series(measured), results.PLOT_NOTES)
    write(os.path.join(build.TARGET, "results.md"), words)
    write(os.path.join(build.TARGET, "growth.svg"), plot)
    print(words, end="")
    if "--write" in options:
        put_into_document(words)
        write(os.path.join(ROOT, "docs", "growth.svg"), plot)


if __name__ == "__main__":
    main(sys.argv[1:])
