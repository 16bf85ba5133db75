"""Rounds of the elimination and refusals 7 by both quotients, measured (no part of the gate).

    python3 model/measure_rounds.py [PROBLEMS SEED]

Prints a line for the benchmark's decks, family by family, one for dense random problems of each
size and range of coefficients, PROBLEMS of each, and one for sparse ones: how many meet refusal 7 in the table or
the right side by document 01's rounded-down quotient, by document 02's nearest one, and by one
of them alone; and of those that neither refuses the mean and the largest rounds by each, and
the ceiling of 31 for each column. The right sides of the random problems are 0.
"""

import os
import sys

import needs
from engine import ROUNDS_PER_COLUMN, Problem, nearest, rounded_down, twice, unset
from generate import rng_for
from listing import problem_of
from rounds import rounds_by
from text import read

sys.path.append(os.path.join(needs.ROOT, "bench"))

COLUMNS = [4, 8, 16, 24, 32, 48]
SIZES = [1, 9, 99, 1000]
HEAD = ("n x m", "7 down", "7 nearest", "down alone", "nearest alone", "both formed",
        "rounds down", "largest", "rounds nearest", "largest", "31 n")


def dense(rng, n, m, size):
    """Coefficients from -size to size, all as likely."""
    coefficients = [rng.randint(-size, size) for _ in range(m * n)]
    return Problem(n, m, coefficients, [0] * m, [0] * n, [9] * n, *twice([0] * n), *unset(n), 0)


def sparse(rng, n, m, size, terms):
    """Rows of some terms, with coefficients from -size to size but 0."""
    coefficients = [0] * (m * n)
    for row in range(m):
        for j in rng.sample(range(n), terms):
            coefficients[row * n + j] = rng.choice((-1, 1)) * rng.randint(1, size)
    return Problem(n, m, coefficients, [0] * m, [0] * n, [9] * n, *twice([0] * n), *unset(n), 0)


def rows_beside(n):
    """Few rows, a quarter as many as columns, half as many and as many."""
    return sorted({1, 2, max(1, n // 4), n // 2, n})


def mean(numbers):
    return "%.1f" % (sum(numbers) / len(numbers)) if numbers else "-"


def measured(name, problems):
    """A line of the table: the name, and what the problems show."""
    pairs = [[rounds_by(problem, quotient) for quotient in (rounded_down, nearest)]
             for problem in problems]
    refused = [(down is None, near is None) for down, near in pairs]
    both = [(sum(down), sum(near)) for down, near in pairs if None not in (down, near)]
    columns = list(zip(*both)) or [[], []]
    line = [name, sum(down for down, _ in refused), sum(near for _, near in refused),
            refused.count((True, False)), refused.count((False, True)), len(both)]
    for counts in columns:
        line += [mean(counts), max(counts, default="-")]
    return line + ["%d" % (ROUNDS_PER_COLUMN * max(problem.n for problem in problems))]


def told(line):
    print("| " + " | ".join(str(word) for word in line) + " |", flush=True)


def deck_lines():
    """The benchmark's decks by family, in the sizes that bench/run.py takes."""
    import decks
    for family in decks.FAMILIES:
        made = [decks.make(family, n, seed) for n in (8, 16, 24, 32, 48) for seed in (1, 2, 3)]
        yield measured(family, [problem_of(read(deck.text().encode())) for deck in made
                                if deck is not None])


def main(arguments):
    count, seed = needs.numbers(arguments, [50, 1], __doc__)
    told(("decks",) + HEAD[1:])
    told(["---"] * len(HEAD))
    for line in deck_lines():
        told(line)
    for size in SIZES:
        print()
        told(("coefficients to %d, n x m" % size,) + HEAD[1:])
        told(["---"] * len(HEAD))
        for n in COLUMNS:
            for m in rows_beside(n):
                problems = [dense(rng_for(seed, number), n, m, size)
                            for number in range(1, count + 1)]
                told(measured("%d x %d" % (n, m), problems))
    for size in (1, 5):
        print()
        told(("sparse, coefficients to %d, n x m, terms" % size,) + HEAD[1:])
        told(["---"] * len(HEAD))
        for n in (8, 16, 32):
            for terms in (2, 3, 4):
                problems = [sparse(rng_for(seed, number), n, n - 2, size, terms)
                            for number in range(1, count + 1)]
                told(measured("%d x %d, %d" % (n, n - 2, terms), problems))
    return 0


if __name__ == "__main__":
    needs.tool(main)
