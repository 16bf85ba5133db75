"""The text: what the reader fills, each refusal of a text, and close readings
of its rules.
"""

import engine
import generate
import listing
import text
from engine import PROBLEM_LISTS
from tests.tools import check, make, solve, test

SOUND = b"2\n1 9 1000 1000\n1 9 0 0\n2\n0 4 2 1 1 2 1\n3 2 1 2 1\n0\n"


def refusal_of(data):
    """The refusal's number of a text, 0 if it is read."""
    got = text.read(data)
    return got if isinstance(got, int) else 0


def check_text(data, number):
    check("text %r" % data[:60], refusal_of(data), number)


def buffers_of(deck):
    return (deck.n, deck.m) + tuple(getattr(deck, name) for name in PROBLEM_LISTS)


@test
def reader_fills_the_buffers():
    data = (b"2\n1 9 1000 1000\n-3 9 0 0\n5\n0 4 2 1 1 2 -1\n1 -5 1 2 7\n2 6 1 1 -1000\n"
            b"3 12 2 1 1 2 1\n0 0 0\n0\n")
    deck = text.Deck()
    for name in PROBLEM_LISTS:
        buffer = getattr(deck, name)
        buffer[:] = [5] * len(buffer)
    got = text.read(data, deck)
    check("the lent deck is filled", got is deck, True)
    check("n, m and intervals", (deck.n, deck.m, deck.intervals), (5, 5, 2))
    rows = [[1, -1, 0, 0, 0], [0, 7, -1, 0, 0], [-1000, 0, 0, 1, 0], [1, 1, 0, 0, -2],
            [0, 0, 0, 0, 0]]
    check("coefficients, n to a row, the rest 0", deck.coefficients,
          sum(rows, []) + [0] * (2304 - 25))
    check("right sides", deck.rights, [4, -5, 6, 0, 0] + [0] * 43)
    check("lower", deck.lower, [1, -3, 0, 0, 12] + [0] * 43)
    check("upper", deck.upper, [9, 9, 1000000, 1000000, 1000000] + [0] * 43)
    check("low goals", deck.low, [1000, 0, 0, 0, 0] + [0] * 43)
    check("high goals", deck.high, [1000, 0, 0, 0, 0] + [0] * 43)
    check("whether an ideal is set", deck.given, [0, 1, 0, 0, 0] + [0] * 43)
    check("ideals", deck.ideals, [0, 1, 0, 0, 0] + [0] * 43)


@test
def reader_lengths():
    for name in PROBLEM_LISTS:
        for change in (-1, 1):
            deck = text.Deck()
            buffer = getattr(deck, name)
            buffer[:] = [5] * (len(buffer) + change)
            before = [list(b) for b in buffers_of(deck)[2:]]
            for data in (SOUND, b"x", b" " * 40000):
                check("reader's %s by %+d" % (name, change), text.read(data, deck), 2)
            check("reader's buffers as before", [list(b) for b in buffers_of(deck)[2:]],
                  before)


@test
def text_length():
    for size, number in ((32767, 0), (32768, 0), (32769, 11), (70000, 11)):
        missing = size - len(SOUND)
        check("padded to %d" % size, refusal_of(SOUND + b" " * missing), number)
        check("opened to %d" % size, refusal_of(b"\n" * missing + SOUND), number)
    check("too long before any other rule", refusal_of(b"0 " * 20000), 11)


@test
def refusals_1_to_5_in_a_text():
    for count in (b"0", b"49", b"-1", b"9999999999"):
        check_text(count, 1)
        check_text(SOUND.replace(b"2\n1", count + b"\n1", 1), 1)
    for count in (b"49", b"-1", b"9999999999"):
        check_text(b"1\n1 9 0 0\n" + count, 1)
    for row in (b"0 1000001 0", b"0 -1000001 0", b"1 1000001 0", b"2 -1000001 0",
                b"3 -1 0", b"3 1000001 0", b"0 0 1 1 1001", b"0 0 1 1 -1001",
                b"3 9999999999 0"):
        check_text(b"1\n1 9 0 0\n1\n" + row + b"\n0\n", 3)
    for interval in (b"1000001 1000001 0 0", b"-1000001 5 0 0", b"1 1000001 0 0",
                     b"5 4 0 0", b"1 -1000001 0 0", b"9999999999 1 1 1"):
        check_text(b"1\n" + interval + b"\n0\n0\n", 4)
    for goal in (b"1 9 -1", b"1 9 1000000001", b"0 9 1", b"-4 9 1000", b"0 9 -1"):
        # older cases, with the goal twice
        check_text(b"1\n" + goal + b" " + goal.split()[2] + b"\n0\n0\n", 5)


@test
def limits_in_a_text_are_allowed():
    for data in (b"1\n-1000000 1000000 0 0\n0", b"1\n1 1 1000000000 1000000000\n0",
                 b"1\n1 1 1 1000000000\n0", b"1\n5 5 0 0\n0",
                 b"1\n0 9 0 0\n1\n0 -1000000 1 1 -1000",
                 b"1\n0 9 0 0\n1\n2 1000000 1 1 1000",
                 b"1\n0 9 0 0\n1\n3 0 0", b"1\n0 9 0 0\n1\n3 1000000 0",
                 b"48\n" + b"1 9 0 0 " * 48 + b"48 " + b"0 0 0 " * 48,
                 b"47\n" + b"1 9 0 0 " * 47 + b"2 3 2 1 47 1 0 5 1 1 1",
                 b" \n1 \n 1 9 0 0\n\n0 \n"):
        check_text(data + b" 0", 0)


@test
def refusal_11_in_a_text():
    for data in (b"", b" ", b"\n\n", b"-", b"x", SOUND + b"0", SOUND + b"\n 7 \n",
                 SOUND + b"x", SOUND + b"\x00", SOUND + b"\t"):
        check_text(data, 11)
    tokens = SOUND.split()
    for count in range(len(tokens)):
        check_text(b" ".join(tokens[:count]), 11)


@test
def refusal_12_in_a_text():
    head = b"2\n1 9 0 0\n1 9 0 0\n1\n"
    for row in (b"4 0 0", b"-1 0 0", b"9999999999 0 0", b"0 0 3 1 1", b"0 0 -1",
                b"0 0 1 0 1", b"0 0 1 3 1", b"0 0 1 -1 1", b"0 0 2 2 1 1 1",
                b"0 0 2 1 1 1 1", b"0 0 1 1 0", b"3 5 2 1 1 3 1"):
        check_text(head + row + b" 0", 12)
    full = b"48 " + b"1 9 0 0 " * 48
    for kind in (b"1", b"2", b"3"):
        check_text(full + b"1 " + kind + b" 0 0 0", 12)
    check_text(full + b"1 0 0 0 0", 0)
    check_text(b"47 " + b"1 9 0 0 " * 47 + b"2 1 0 0 2 0 0 0", 12)


@test
def a_refused_text_leaves_the_deck():
    for data in (b"", b"0", b"1 1 9 0 0 1 0 0 1 1 0 0", SOUND + b"1", b"x" * 40000,
                 b"1 5 4 0 0 0 0", b"1 0 4 1 1 0 0", b"1 1 9 0 0 1 0 1000001 0 0",
                 b"1 1 9 0 0 0 -1", b"1 1 9 0 0 0 1 1 1 2", b"1 1 9 0 0 0 1 50"):
        deck = text.Deck()
        deck.coefficients[7] = 5
        deck.low[47] = deck.high[46] = 6
        deck.given[0] = deck.ideals[47] = 7
        before = (deck.n, deck.m) + tuple(list(b) for b in buffers_of(deck)[2:])
        check("refused", isinstance(text.read(data, deck), int), True)
        check("deck as before", buffers_of(deck), before)


@test
def reading_first_place_decides():
    """The first place decides, also among 1, 3, 4, 5, 11, 12 and 13."""
    check_text(b"1\n1 9 -1\n49", 5)
    check_text(b"2\n1 9 -1\n9 1 0\n49", 5)
    check_text(b"2\n9 1 -1\nx", 4)
    check_text(b"1\n1 9 0 0\n2\n0 0 1 1 0\n0 1000001 0", 12)
    check_text(b"1\n1 9 0 0\n2\n0 1000001 0\n0 0 1 1 0", 3)
    check_text(b"1\n1 9 0 0\n1\n0 0 1 1 1001 x", 3)
    check_text(b"1\n1 x 0 0\n99", 11)
    check_text(b"1\n1 9 0 0\n1\n0 0 1 1 0\n-1", 12)
    check_text(b"1\n1 9 0 0\n1\n0 0 1 1 1\n-1 x", 13)
    # on buffers the cause's number decides, over the whole problem
    problem = make(2, [[1, 1001]], [0], [(5, 4), (1, 9)], [-1, 0])
    check("3 before 4 before 5 on buffers", solve(problem)[0][0], 3)
    problem.coefficients[1] = 1
    check("4 before 5 on buffers", solve(problem)[0][0], 4)


@test
def reading_counts_at_their_place():
    check_text(b"0", 1)
    check_text(b"49", 1)
    check_text(b"1 1 9 0 0 49", 1)
    check_text(b"1 1 9 0 0 -1", 1)
    check_text(b"2 1 9 0 0 49", 11)


@test
def reading_ten_digits():
    """The minus is not one of the ten digits; eleven digits are 11."""
    check_text(b"1 -9999999999", 4)
    check_text(b"1 9999999999", 4)
    check_text(b"1 -10000000000", 11)
    check_text(b"1 10000000000", 11)
    check_text(b"1 00000000001", 11)
    check_text(b"1 1 1000000 9999999999", 5)


@test
def reading_runs_that_are_no_number():
    for run in (b"+5", b"007", b"00", b"-0", b"-", b"1-1", b"5\t", b"\t5", b"5\r",
                b"\r", b"5\x00", b"\xb2", b"5\xff", b"\xd9\xa5", b"--5", b"-05", b"5.",
                b"1_0", b"0x5", b"-00", b"5-", b"1e1", b"5\x0b", b"\x0c"):
        check_text(b"1\n1 " + run + b" 0 0\n0\n0\n", 11)
        check_text(run + b" 1 9 0 0 0 0", 11)
        check_text(b"1 1 9 0 0 0 " + run, 11)
    check_text(SOUND.replace(b"\n", b"\r\n"), 11)
    check_text(SOUND.replace(b" ", b"\t"), 11)


@test
def reading_places_of_4_and_5():
    check_text(b"1 5 4", 4)
    check_text(b"1 5", 11)
    check_text(b"1 0 4 1", 5)
    check_text(b"1 0 4", 11)
    check_text(b"1 0 -1 1", 4)


@test
def reading_even_and_coefficients():
    check_text(b"1 1 9 0 0 1 3 -1", 3)
    check_text(b"1 1 9 0 0 1 3 1000001", 3)
    check_text(b"1 1 9 0 0 1 0 -1 0 0", 0)
    check_text(b"1 1 9 0 0 1 0 0 1 1 0", 12)
    check_text(b"1 1 9 0 0 1 0 0 1 1 1001", 3)
    check_text(b"1 1 9 0 0 1 0 0 1 1 -1001", 3)


@test
def reading_49th_column_at_the_kind():
    full = b"48 " + b"1 9 0 0 " * 48
    check_text(full + b"1 3", 12)
    check_text(full + b"1 3 -1 0", 12)
    check_text(full + b"1 1 1000001 0", 12)
    check_text(full + b"1 4", 12)
    check_text(full + b"1 0", 11)


@test
def reading_indices_name_intervals_only():
    head = b"2 1 9 0 0 1 9 0 0 2 1 0 0 "
    check_text(head + b"0 0 1 3 1", 12)
    check_text(head + b"0 0 3 1 1 2 1 3 1", 12)
    check_text(head + b"0 0 2 1 1 2 1 0", 0)


@test
def reading_missing_and_too_many():
    check_text(b"1 1 9 0 0 1 0 0 1 1", 11)
    check_text(b"1 1 9 0 0 0", 11)
    check_text(b"1 1 9 0 0 0 0 0", 11)
    check_text(b"1 1 9 0 0 0 0 49", 11)
    check_text(b"1 1 9 0 0 0 0 x", 11)
    check_text(b"1 1 9 0 0 0 0  \n", 0)


@test
def random_texts():
    for data in generate.texts(800, 22):
        deck = text.Deck()
        deck.rights[47] = 9
        got = text.read(data, deck)
        if isinstance(got, int):
            check("number of a refused text", got in (1, 3, 4, 5, 11, 12, 13), True)
            check("refused text leaves the deck", (deck.n, deck.m, deck.rights),
                  (0, 0, [0] * 47 + [9]))
            continue
        problem = listing.problem_of(deck)
        check("an accepted text meets none of causes 1 to 6",
              engine.first_cause(problem, listing.blank_lent(problem)), 0)
        check("the rest is 0",
              any(deck.coefficients[deck.n * deck.m:] + deck.rights[deck.m:]
                  + deck.lower[deck.n:] + deck.upper[deck.n:] + deck.low[deck.n:]
                  + deck.high[deck.n:] + deck.given[deck.n:] + deck.ideals[deck.n:]), False)
        check("other runs of bytes 32 and 10 are the same text",
              buffers_of(text.read(b"\n ".join(data.split())[:32768])), buffers_of(deck))
