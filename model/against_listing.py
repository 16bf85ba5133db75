"""The proved listing program against the plain model, byte for byte.

    python3 model/against_listing.py [COUNT SEED]

Builds the program, and runs it on document 01's deck cases, decks of plain curves
beside others (document 02, (ii)), of swept volumes (document 02, (iii)) and of two goals
(document 02, (v)), the sample decks, texts at and past the longest, and COUNT texts of
generate.py: as laid out, damaged, truncated and binary. Each listing must be the expected
one or the model's, and the program must end with status 0 and write nothing else. How many
texts show what of volumes and of pairs of goals is printed; there must be some of each
kind. The sample decks of one goal have the listings of the version before, so that these
are seen to stay. Then the program is tried at its edges
(edges.py): standard files that cannot be read or written, a terminal, an argument,
texts that come in pieces. The last line is 'N passed, M failed'.
"""

import glob
import os
import subprocess
import sys

import edges
import needs
from generate import rng_for, text_case, volumes_met
from listing import listing
from needs import ROOT
from pairs import kinds_met
from text import MAX_TEXT

PROGRAM = os.path.join(ROOT, "target", "bin", "listing")
MOST_SHOWN = 5

CHAIN = "0 0 2 %d 1000 %d -1\n"

# Document 01's deck cases under the program's limit of 10,000 steps, each goal written
# twice. A case that gives no bounds has wide ones here.
DECK_CASES = [
    ("1\n-100 100 0 0\n1\n0 1 1 1 2\n0\n", "NONE\n"),
    ("1\n1 9 0 0\n1\n0 2 1 1 2\n0\n", "FITTED 0 0\n1 1 0\n"),
    ("2\n-100 100 0 0\n-100 100 0 0\n2\n0 1 2 1 1 2 1\n0 0 2 1 1 2 -1\n0\n", "NONE\n"),
    ("1\n-100 100 0 0\n2\n0 1 1 1 1\n0 2 1 1 1\n0\n", "NONE\n"),
    ("1\n3 5 0 0\n0\n0\n", "FITTED 0 0\n1 3 1\n"),
    ("1\n1 1000000 400 400\n0\n0\n", "FITTED 0 0\n1 1 1\n"),
    ("1\n1 1000000 1414 1414\n0\n0\n", "FITTED 0 0\n1 1 1\n"),
    ("1\n1 1000000 1415 1415\n0\n0\n", "FITTED 0 0\n1 2 1\n"),
    ("1\n1 1000000 2449 2449\n0\n0\n", "FITTED 0 0\n1 2 1\n"),
    ("1\n1 1000000 2450 2450\n0\n0\n", "FITTED 0 0\n1 3 1\n"),
    ("2\n1 100 2500 2500\n1 100 4000 4000\n1\n0 0 2 1 3 2 -2\n0\n", "FITTED 0 1\n1 2 2\n2 3 3\n"),
    ("2\n1 1 0 0\n1 10 0 0\n1\n0 0 2 1 1 2 -2\n0\n", "OUTSIDE 0 0\n1 2 2\n2 1 1\n"),
    ("2\n1 10 0 0\n5 10 0 0\n1\n0 0 2 1 1 2 -1\n0\n", "FITTED 4 0\n1 5 1\n2 5 1\n"),
    ("4\n" + "0 10 0 0\n" * 4 + "3\n" + "".join(CHAIN % (k, k + 1) for k in (1, 2, 3)) + "0\n",
     "FITTED 0 0\n1 0 1\n2 0 1000\n3 0 1000000\n4 0 1000000000\n"),
    ("5\n" + "0 10 0 0\n" * 5 + "4\n" + "".join(CHAIN % (k, k + 1) for k in (1, 2, 3, 4)) + "0\n",
     "REFUSED 7\n"),
    ("3\n1 1000000 1000000000 1000000000\n1 1000000 0 0\n1 1000000 0 0\n2\n" + CHAIN % (1, 2)
     + CHAIN % (2, 3) + "0\n",
     "REFUSED 9\n"),
]

# Document 02, (ii), by hand: in a row of kind 1 over all curves each of them leads, so that
# each is seated at its ideal. A curve with goal 0 is a plain one.
BESIDE = "1 0 3 1 1 2 1 3 1\n"
NEIGHBOUR_CASES = [
    # “the mean, rounded down”: 4 and 7 have 5
    ("3\n1 100 0 0\n1 100 4000 4000\n1 100 7000 7000\n1\n" + BESIDE + "0\n",
     "FITTED 0 0\n1 5 1\n2 4 1\n3 7 1\n4 16 1\n"),
    # “each counted once”: 4, in two rows, and 10 have 7
    ("3\n1 100 0 0\n1 100 4000 4000\n1 100 10000 10000\n2\n" + BESIDE
     + "1 0 2 1 1 2 1\n0\n",
     "FITTED 0 0\n1 7 1\n2 4 1\n3 10 1\n4 21 1\n5 11 1\n"),
    # an ideal is in its bounds: 5, for a goal of 9, and 7 have 6
    ("3\n1 100 0 0\n1 5 9000 9000\n1 100 7000 7000\n1\n" + BESIDE + "0\n",
     "FITTED 0 0\n1 6 1\n2 5 1\n3 7 1\n4 18 1\n"),
    # “brought into the bounds”: 5 is above 1..3, and below 20..30
    ("3\n1 3 0 0\n1 100 4000 4000\n1 100 7000 7000\n1\n" + BESIDE + "0\n",
     "FITTED 0 0\n1 3 1\n2 4 1\n3 7 1\n4 14 1\n"),
    ("3\n20 30 0 0\n1 100 4000 4000\n1 100 7000 7000\n1\n" + BESIDE + "0\n",
     "FITTED 0 0\n1 20 1\n2 4 1\n3 7 1\n4 31 1\n"),
    # “intervals with a goal”: the second plain curve does not count for the first
    ("3\n1 100 0 0\n50 100 0 0\n1 100 7000 7000\n1\n" + BESIDE + "0\n",
     "FITTED 0 0\n1 7 1\n2 50 1\n3 7 1\n4 64 1\n"),
    # “in some row with it”: the third curve is in no row with the first
    ("3\n1 100 0 0\n1 100 4000 4000\n1 100 9000 9000\n2\n1 0 2 1 1 2 1\n1 0 2 2 1 3 1\n0\n",
     "FITTED 0 0\n1 4 1\n2 4 1\n3 9 1\n4 8 1\n5 13 1\n"),
    # “unset if there are none”: plain curves alone stay where the rows put them
    ("3\n-9 9 0 0\n-9 9 0 0\n1 100 7000 7000\n1\n0 13 2 1 1 2 -5\n0\n",
     "FITTED 0 0\n1 3 5\n2 -2 1\n3 7 1\n"),
    ("2\n3 9 0 0\n1 100 7000 7000\n0\n0\n", "FITTED 0 0\n1 3 1\n2 7 1\n"),
]


# Document 02, (iii), by hand. Three curves, and a text of one curve and its y.
THREE = "3\n1 100 4000 4000\n1 100 3000 3000\n1 100 7000 7000\n0\n"
ONE = "1\n1 9 0 0\n1\n1 0 1 1 1\n"
VOLUME_CASES = [
    # “Path 1 less path k equals 0”: 4 and 6 wanted, 5 and 5 had
    ("2\n1 100 4000 4000\n1 100 6000 6000\n0\n1\n2\n1 1\n1 2\n", "FITTED 0 1\n1 5 1\n2 5 1\n"),
    # “their indices in any order”: 4 and 3 have 7 together
    (THREE + "1\n2\n2 2 1\n1 3\n", "FITTED 0 0\n1 4 1\n2 3 1\n3 7 1\n"),
    # “An interval on both paths cancels”: the second curve is free
    ("3\n1 100 4000 4000\n1 100 2000 2000\n1 100 4000 4000\n0\n1\n2\n2 1 2\n2 2 3\n",
     "FITTED 0 0\n1 4 1\n2 2 1\n3 4 1\n"),
    # “for each later path”: two equal paths have an empty row, one path has none
    (THREE + "2\n2\n3 1 2 3\n3 3 1 2\n1\n2 3 2\n", "FITTED 0 0\n1 4 1\n2 3 1\n3 7 1\n"),
    # “after all rows so far”: a row has curve 1 at 2, a volume curve 2 too, another curve 3
    ("3\n1 9 0 0\n1 9 0 0\n1 9 0 0\n1\n0 2 1 1 1\n2\n2\n1 1\n1 2\n2\n1 3\n1 2\n",
     "FITTED 0 0\n1 2 0\n2 2 0\n3 2 0\n"),
    # a y before it: the paths name intervals 1 and 2, and column 3 is the y
    ("2\n1 9 3000 3000\n1 9 0 0\n1\n1 0 1 1 1\n1\n2\n1 2\n1 1\n",
     "FITTED 0 0\n1 3 1\n2 3 1\n3 3 1\n"),
    # rows and paths without a list together
    ("2\n1 9 0 0\n1 9 0 0\n2\n0 1 1 1 1\n0 2 1 2 1\n1\n2\n1 1\n1 2\n", "NONE\n"),
    # “in some row with it”: the plain curve starts from 6, by the row of a path
    ("2\n1 100 0 0\n1 100 6000 6000\n0\n1\n2\n1 1\n1 2\n", "FITTED 0 0\n1 6 1\n2 6 1\n"),
    # 49 paths make 48 rows; “a count of paths that makes a 49th row is 1”
    ("2\n1 9 3000 3000\n1 9 3000 3000\n0\n1\n49\n" + "1 1\n" + "1 2\n1 1\n" * 24,
     "FITTED 0 0\n1 3 1\n2 3 1\n"),
    ("2\n1 9 3000 3000\n1 9 3000 3000\n0\n1\n50\n" + "1 1\n1 2\n" * 25, "REFUSED 1\n"),
    (ONE + "2\n48\n" + "1 1\n" * 48 + "2\n1 1\n1 1\n", "REFUSED 1\n"),
    # 13: a count of volumes, of paths, of intervals, an index of a y, an index twice
    (ONE + "-1\n", "REFUSED 13\n"),
    (ONE + "1\n0\n", "REFUSED 13\n"),
    (ONE + "1\n1\n0\n", "REFUSED 13\n"),
    (ONE + "1\n2\n1 1\n1 2\n", "REFUSED 13\n"),
    (THREE + "1\n1\n3 2 1 2\n", "REFUSED 13\n"),
    # too large a count: an index comes twice, or the text ends
    (ONE + "1\n1\n9999999999 1 1\n", "REFUSED 13\n"),
    (ONE + "1\n1\n2 1\n", "REFUSED 11\n"),
    (ONE + "9999999999\n1\n1 1\n", "REFUSED 11\n"),
    # “Older texts gain a closing 0.”
    ("1\n3 5 0 0\n0\n", "REFUSED 11\n"),
]


# Document 02, (v), by hand.
PAIR_CASES = [
    # “the whole part of (square root of low times high) / 1,000”: 6 of 4 and 9
    ("1\n1 100 4000 9000\n0\n0\n", "FITTED 0 0\n1 6 1\n"),
    ("1\n1 1000000 1 1000000000\n0\n0\n", "FITTED 0 0\n1 32 1\n"),
    # “k + 1 exactly if k(k + 1) × 1,000,000 < low × high, and 1 for k = 0”
    ("1\n1 100 2000 3000\n0\n0\n", "FITTED 0 0\n1 2 1\n"),
    ("1\n1 100 2000 3001\n0\n0\n", "FITTED 0 0\n1 3 1\n"),
    ("1\n1 100 1 999999\n0\n0\n", "FITTED 0 0\n1 1 1\n"),
    # “the larger of 1000v/low and high/1000v”: at 6 the second curve has 12/6, at 7 the first
    # has 7/4
    ("2\n1 100 4000 9000\n1 100 12000 12000\n1\n0 0 2 1 1 2 -1\n0\n",
     "FITTED 0 1\n1 7 1\n2 7 1\n"),
    ("2\n1 100 4000 9000\n1 100 3000 3000\n1\n0 0 2 1 1 2 -1\n0\n",
     "FITTED 0 1\n1 5 1\n2 5 1\n"),
    # a plain curve starts from 6, the ideal of both goals
    ("2\n1 100 0 0\n1 100 4000 9000\n1\n0 0 2 1 1 2 -1\n0\n", "FITTED 0 0\n1 6 1\n2 6 1\n"),
    # “both 0 or both set, low at most high”
    ("1\n1 9 0 4000\n0\n0\n", "REFUSED 5\n"),
    ("1\n1 9 4000 0\n0\n0\n", "REFUSED 5\n"),
    ("1\n1 9 4000 3999\n0\n0\n", "REFUSED 5\n"),
    ("1\n1 9 4000 1000000001\n0\n0\n", "REFUSED 5\n"),
    ("1\n0 9 4000 9000\n0\n0\n", "REFUSED 5\n"),
    # each at its place: a bad low goal before a word that is no number, and a good one
    ("1\n1 9 -1 x\n0\n0\n", "REFUSED 5\n"),
    ("1\n0 9 4000 x\n0\n0\n", "REFUSED 5\n"),
    ("1\n1 9 4000 x\n0\n0\n", "REFUSED 11\n"),
    # “four numbers”: a line as it was
    ("1\n1 9 4000\n0\n0\n", "REFUSED 5\n"),
    ("1\n1 9 0\n0\n0\n", "REFUSED 11\n"),
]


def by_hand():
    """What a case is, its deck, and its listing, by document 01 and by document 02."""
    for what, some in (("deck", DECK_CASES), ("neighbour", NEIGHBOUR_CASES),
                       ("volume", VOLUME_CASES), ("pair", PAIR_CASES)):
        for number, (deck, wanted) in enumerate(some, 1):
            yield "%s case %d" % (what, number), deck.encode(), wanted.encode()


def samples():
    """The sample decks with their listings, by name."""
    for name in sorted(glob.glob(os.path.join(ROOT, "decks", "*.txt"))):
        with open(name, "rb") as deck, open(name[:-len(".txt")] + ".listing", "rb") as wanted:
            yield os.path.basename(name), deck.read(), wanted.read()


def long_texts():
    """A deck filled up to the longest text, one byte past it, and far past it."""
    deck = DECK_CASES[4][0].encode()
    for length in (MAX_TEXT - 1, MAX_TEXT, MAX_TEXT + 1, MAX_TEXT + 2, 9 * MAX_TEXT):
        data = deck + b"\n" * (length - len(deck))
        yield "a text of %d bytes" % length, data, listing(data)
    data = b"\0" * (3 * MAX_TEXT)
    yield "a long text of no deck", data, listing(data)


def cases(count, seed):
    """What a case is, its text, and the listing wanted."""
    yield from by_hand()
    yield from samples()
    yield from long_texts()
    yield from made(count, seed)


def made(count, seed):
    """The random texts among the cases."""
    for number in range(1, count + 1):
        data = text_case(rng_for(seed, number))
        yield "text %d of seed %d" % (number, seed), data, listing(data)
        # cut short at a place of its own
        if number % 4 == 0:
            data = data[:rng_for(seed + 1, number).randrange(len(data) + 1)]
            yield "text %d of seed %d, cut short" % (number, seed), data, listing(data)


def listed(count, seed):
    """What a case is, how the program ended on it and how it is to end: its status,
    what it printed and what it said."""
    for what, data, wanted in cases(count, seed):
        done = subprocess.run([PROGRAM], input=data, stdout=subprocess.PIPE, stderr=subprocess.PIPE)
        yield what, (done.returncode, done.stdout, done.stderr), (0, wanted, b"")
    yield from edges.edges(PROGRAM)


def main(arguments):
    count, seed = needs.numbers(arguments, [2000, 1], __doc__)
    needs.rt()
    if subprocess.run([os.path.join(ROOT, "tools", "program")], stdout=subprocess.DEVNULL).returncode != 0:
        sys.exit("tools/program failed")
    needs.built(PROGRAM, "tools/program")
    passed = failed = 0
    texts = [data for _, data, _ in made(count, seed)]
    met = dict(volumes_met(texts), **kinds_met(texts))
    print("texts: " + ", ".join("%s %d" % pair for pair in met.items()))
    for kind in (kind for kind in met if met[kind] == 0):
        failed += 1
        print("no text shows: " + kind)
    for what, got, wanted in listed(count, seed):
        if got == wanted:
            passed += 1
            continue
        failed += 1
        if failed <= MOST_SHOWN:
            print("%s: status, output, error output %.600r, wanted %.600r" % (what, got, wanted))
    print("%d passed, %d failed" % (passed, failed))
    return 1 if failed else 0


if __name__ == "__main__":
    needs.tool(main)
