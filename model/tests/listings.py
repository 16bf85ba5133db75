"""The listing, as a function and as a program, and the sample decks."""

import glob
import os
import subprocess
import sys

import listing
from against_listing import by_hand
from tests.tools import check, test

MODEL = os.path.dirname(os.path.dirname(os.path.abspath(__file__)))
DECKS = os.path.join(os.path.dirname(MODEL), "decks")

PAVING = b"3\n" + b"1 1000000 3000 3000\n" * 3 + b"1\n3 2 3 1 1 2 1 3 1\n0\n"
PAVING_LISTING = b"FITTED 0 0\n1 3 1\n2 3 1\n3 4 1\n4 5 1\n"


@test
def deck_case_paving():
    check("paving", listing.listing(PAVING), PAVING_LISTING)
    with open(os.path.join(DECKS, "paving.txt"), "rb") as file:
        check("paving as a sample deck", file.read(), PAVING)


@test
def decks_by_hand():
    """Document 01's deck cases as texts, and plain curves beside others."""
    for what, deck, wanted in by_hand():
        check(what, listing.listing(deck), wanted)


@test
def listing_forms():
    check("NONE", listing.listing(b"1 1 9 0 0 1 0 1 1 1 2 0"), b"NONE\n")
    check("REFUSED", listing.listing(b"1 1 9 0 0 1 0 1 1 1 0 0"), b"REFUSED 12\n")
    check("REFUSED 7", listing.listing(
        b"5 " + b"0 10 0 0 " * 5 + b"4 0 0 2 1 1000 2 -1 0 0 2 2 1000 3 -1 "
        b"0 0 2 3 1000 4 -1 0 0 2 4 1000 5 -1 0"), b"REFUSED 7\n")
    check("OUTSIDE", listing.listing(b"2 1 1 0 0 1 10 0 0 1 0 0 2 1 1 2 -2 0"),
          b"OUTSIDE 0 0\n1 2 2\n2 1 1\n")
    check("negative values", listing.listing(b"1 -7 -5 0 0 0 0"), b"FITTED 0 0\n1 -5 1\n")
    # the limit is 10,000 steps
    check("SPENT", listing.listing(b"2 1 1000000 0 0 20000 1000000 0 0 1 0 0 2 1 1 2 -1 0"),
          b"SPENT 10000 0\n1 10001 1\n2 10001 1\n")


def run_listing(data):
    done = subprocess.run([sys.executable, os.path.join(MODEL, "listing.py")], input=data,
                          stdout=subprocess.PIPE, check=True)
    return done.stdout


@test
def listing_as_a_program():
    check("paving", run_listing(PAVING), PAVING_LISTING)
    check("nothing", run_listing(b""), b"REFUSED 11\n")
    padding = 32768 - len(PAVING)
    check("32,768 bytes", run_listing(PAVING + b" " * padding), PAVING_LISTING)
    check("32,769 bytes", run_listing(PAVING + b" " * (padding + 1)), b"REFUSED 11\n")
    check("very long", run_listing(PAVING + b" " * 200000), b"REFUSED 11\n")


@test
def sample_decks():
    names = sorted(glob.glob(os.path.join(DECKS, "*.txt")))
    check("there are sample decks", len(names) >= 8, True)
    for name in names:
        with open(name, "rb") as file:
            data = file.read()
        with open(name[:-len(".txt")] + ".listing", "rb") as file:
            wanted = file.read()
        check("listing of %s" % os.path.basename(name), listing.listing(data), wanted)
    listings = sorted(glob.glob(os.path.join(DECKS, "*.listing")))
    check("a listing for each deck", [n[:-len(".listing")] for n in listings],
          [n[:-len(".txt")] for n in names])
