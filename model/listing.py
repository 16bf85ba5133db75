"""The listing program: python3 model/listing.py < deck

“The listing program reads the text from standard input, uses limit 10,000 and
prints FITTED, OUTSIDE, SPENT, NONE or REFUSED.”
"""

import sys

from engine import NO_WHOLE_NUMBERS, Lent, Problem, assign
from text import MAX_TEXT, read

LIMIT = 10000


def problem_of(deck):
    """The parts of the reader's buffers that n and m need, under the listing's limit."""
    n, m = deck.n, deck.m
    return Problem(n, m, deck.coefficients[:m * n], deck.rights[:m], deck.lower[:n],
                   deck.upper[:n], deck.low[:n], deck.high[:n], deck.given[:n],
                   deck.ideals[:n], LIMIT)


def blank_lent(problem):
    """Buffers of exactly the lengths that n and m need, all 0."""
    n, m = problem.n, problem.m
    return Lent([0] * (n * (m + n)), [0] * n, [0] * n)


def refusal_lines(number):
    """“NONE stands alone (refusal 8). REFUSED is followed by the number.”"""
    return ["NONE"] if number == NO_WHOLE_NUMBERS else ["REFUSED %d" % number]


def verdict_lines(outcome, bounds_count, goals_count, lent):
    """“After the first three come both counts, then a line for each column: column,
    value, stride.”"""
    lines = ["%s %d %d" % (outcome, bounds_count, goals_count)]
    for j, (value, stride) in enumerate(zip(lent.values, lent.strides)):
        lines.append("%d %d %d" % (j + 1, value, stride))
    return lines


def listing_lines(data):
    """The lines of the listing of a text."""
    deck = read(data)
    if isinstance(deck, int):
        return refusal_lines(deck)
    problem = problem_of(deck)
    lent = blank_lent(problem)
    # the rounds are not listed
    outcome, bounds_count, goals_count, _ = assign(problem, lent)
    if isinstance(outcome, int):
        return refusal_lines(outcome)
    return verdict_lines(outcome, bounds_count, goals_count, lent)


def listing(data):
    """“Fields are parted by one space; each line ends with byte 10.”"""
    return "".join(line + "\n" for line in listing_lines(data)).encode("ascii")


def main():
    # By their numbers, since Python has no sys.stdin or sys.stdout for a closed one.
    try:
        with open(0, "rb", closefd=False) as file:
            # One byte past the limit is enough to know that a text is too long.
            data = file.read(MAX_TEXT + 1)
    except OSError as refused:
        sys.exit("listing: standard input: " + refused.strerror)
    try:
        with open(1, "wb", closefd=False) as file:
            file.write(listing(data))
    except OSError as refused:
        sys.exit("listing: standard output: " + refused.strerror)


if __name__ == "__main__":
    main()
