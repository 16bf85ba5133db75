"""The engine's Hermite form against FLINT's, which nobody here wrote.

    python3 model/against_flint.py [COUNT SEED]

A row Hermite form is unique, so the form that koralimbu_assign leaves in the tableau
must be, entry for entry, what FLINT's fmpz_mat_hnf makes of the same table: column j
of the matrix, then the j-th unit list. It is left with a verdict and with refusals 8
and 9; problems past the elimination limit (7) have none and are counted apart. FLINT
is called by a few lines of C, compiled below target/, so that the layout of its
matrices is its headers' matter. Where it is missing nothing is compared. The last
line is 'N passed, M failed'.
"""

import ctypes
import os
import subprocess
import sys

import needs
from against_engine import NUMBERS, REPORT_NUMBERS, engine_functions
from boundary import MOST_SHOWN, ROOT, Buffer, call, load, run
from engine import ELIMINATION_BEYOND, MAX_COLUMNS, MAX_ROWS, NO_WHOLE_NUMBERS, SEATING_BEYOND
from generate import rng_for

SOURCE = os.path.join(ROOT, "target", "against", "flint_form.c")
SHARED = os.path.join(ROOT, "target", "against", "libflint_form.so")
LIBRARIES = ["-lflint", "-lgmp"]
WHAT = "the Hermite form is not compared with FLINT's"

HEADERS = """
#include <stddef.h>
#include <stdint.h>
#include <flint/fmpz.h>
#include <flint/fmpz_mat.h>
"""

# The entries are compared there, since FLINT's may be of any size.
FORM = HEADERS + """
/* How many entries of FLINT's form of the table differ from the given form. */
size_t flint_differences(const int64_t *table, const int64_t *form, size_t rows, size_t width)
{
    fmpz_mat_t given, made;
    size_t i, j, differences = 0;

    fmpz_mat_init(given, rows, width);
    fmpz_mat_init(made, rows, width);
    for (i = 0; i < rows; i++)
        for (j = 0; j < width; j++)
            fmpz_set_si(fmpz_mat_entry(given, i, j), table[i * width + j]);
    fmpz_mat_hnf(made, given);
    for (i = 0; i < rows; i++)
        for (j = 0; j < width; j++)
            differences += !fmpz_equal_si(fmpz_mat_entry(made, i, j), form[i * width + j]);
    fmpz_mat_clear(given);
    fmpz_mat_clear(made);
    return differences;
}
"""


# ------------------------------------------------------------------------ FLINT

def links(compiler, program, libraries):
    """Whether a program compiles and links."""
    os.makedirs(os.path.dirname(SHARED), exist_ok=True)
    done = subprocess.run([compiler, "-x", "c", "-", "-o", SHARED + ".probe"] + libraries, input=program,
                          text=True, stdout=subprocess.DEVNULL, stderr=subprocess.DEVNULL)
    return done.returncode == 0


def has_flint(compiler):
    """Whether a program with FLINT's headers links. Where none does, it is not FLINT that is missing."""
    if not links(compiler, "int main(void) { return 0; }\n", []):
        sys.exit("the C compiler %s links no program" % compiler)
    return links(compiler, HEADERS + "int main(void) { fmpz_mat_t a; fmpz_mat_init(a, 1, 1); return 0; }\n", LIBRARIES)


def build_flint(compiler):
    with open(SOURCE, "w") as file:
        file.write(FORM)
    run(compiler, "-O2", "-shared", "-fPIC", "-o", SHARED, SOURCE, *LIBRARIES)
    function = ctypes.CDLL(SHARED).flint_differences
    function.restype = ctypes.c_size_t
    function.argtypes = [ctypes.c_void_p, ctypes.c_void_p, ctypes.c_size_t, ctypes.c_size_t]
    return function


# ----------------------------------------------------------------------- the rows

def mesh_row(rng, n):
    """A row as decks have it: a few curves, now and then the double of one."""
    row = [0] * n
    for j in rng.sample(range(n), min(n, rng.randint(2, 6))):
        row[j] = rng.choice([-1, 1, 1, 2 if rng.random() < 0.3 else -1])
    return row


def tied_row(rng, n):
    """Two curves are equal, or one is a multiple of the other."""
    row = [0] * n
    for j, sign in zip(rng.sample(range(n), min(n, 2)), (1, -1)):
        row[j] = sign * rng.choice([1, 1, 1, 1, 2, 3])
    return row


def dense_row(rng, n, size):
    return [rng.randint(-size, size) for _ in range(n)]


def mesh_rows(rng):
    n, m = rng.randint(1, MAX_COLUMNS), rng.randint(0, MAX_ROWS)
    return n, [mesh_row(rng, n) for _ in range(m)]


def tied_rows(rng):
    n, m = rng.randint(1, MAX_COLUMNS), rng.randint(0, MAX_ROWS)
    return n, [tied_row(rng, n) for _ in range(m)]


def repeated_rows(rng):
    """Rows among which some are 0, said again, negated or the sum of two others."""
    n, m = rng.randint(1, MAX_COLUMNS), rng.randint(1, MAX_ROWS)
    rows = []
    while len(rows) < m:
        again = rng.choice(rows) if rows else [0] * n
        rows.append(rng.choice([
            [0] * n, list(again), [-a for a in again], mesh_row(rng, n), tied_row(rng, n),
            [a + b for a, b in zip(again, rng.choice(rows) if rows else again)]]))
    return n, rows


def small_dense_rows(rng):
    n, m = rng.randint(1, 7), rng.randint(0, 7)
    return n, [dense_row(rng, n, rng.choice([1, 2, 9])) for _ in range(m)]


def large_entry_rows(rng):
    """Few columns, so that entries up to the largest stay within the limit."""
    n, m = rng.randint(1, 4), rng.randint(0, 4)
    return n, [dense_row(rng, n, 1000) for _ in range(m)]


def chained_rows(rng):
    """Each column is a multiple of the one before, so that the basis has large entries."""
    n = rng.randint(2, 5)
    rows = []
    for k in range(n - 1):
        rows.append([0] * n)
        rows[k][k:k + 2] = [rng.choice([2, 30, 1000]), -1]
    return n, rows


SHAPES = [mesh_rows, tied_rows, repeated_rows, small_dense_rows, large_entry_rows, chained_rows]


# ----------------------------------------------------------------------- the calls

def engine_form(assign, rng, n, rows):
    """The returned number and the tableau. Half of the right sides are random, so that there are refusals 8;
    goals at the largest with low upper bounds pull columns far enough for refusals 9. Ideals that are handed in
    leave the form as it is."""
    m = len(rows)
    rights = [rng.randint(-9, 9) for _ in range(m)] if rng.random() < 0.5 else [0] * m
    goals = [10 ** 9] * n if rng.random() < 0.2 else [0] * n
    lists = {"coefficients": [a for row in rows for a in row], "rights": rights, "lower": [1] * n,
             "upper": [10 ** 6] * n, "low": goals, "high": goals, "given": [rng.choice([0, 0, 1, -7]) for _ in range(n)],
             "ideals": [rng.randint(-99, 999) for _ in range(n)], "tableau": [7] * (n * (m + n)),
             "values": [0] * n, "strides": [0] * n, "report": [0] * REPORT_NUMBERS}
    buffers = {name: Buffer(NUMBERS.get(name, ctypes.c_int64), numbers)
               for name, numbers in lists.items()}
    # No step is taken: the form stands before settling.
    after = call(assign, [n, m, 0], buffers)
    return after["number"], after["tableau"]


def table_of(n, rows):
    """“table row j is column j of the matrix (m numbers), then the j-th unit list”."""
    return [number for j in range(n)
            for number in [row[j] for row in rows] + [1 if k == j else 0 for k in range(n)]]


def main(arguments):
    count, seed = needs.numbers(arguments, [4000, 1], __doc__)
    compiler = needs.compiler()
    if compiler is None or not has_flint(compiler):
        needs.left_out(WHAT, "no FLINT with its headers" if compiler else "no C compiler")
        print("0 passed, 0 failed")
        return 0
    flint_differences = build_flint(compiler)
    assign = engine_functions(load(WHAT))["assign"]
    passed = failed = 0
    numbers = {}
    for number in range(1, count + 1):
        rng = rng_for(seed, number)
        n, rows = rng.choice(SHAPES)(rng)
        width = len(rows) + n
        returned, form = engine_form(assign, rng, n, rows)
        numbers[returned] = numbers.get(returned, 0) + 1
        if returned == ELIMINATION_BEYOND:
            continue
        entries = ctypes.c_int64 * (n * width)
        differences = flint_differences(entries(*table_of(n, rows)), entries(*form), n, width)
        if returned in (0, NO_WHOLE_NUMBERS, SEATING_BEYOND) and differences == 0:
            passed += 1
            continue
        failed += 1
        if failed <= MOST_SHOWN:
            print("case %d of seed %d: n %d, rows %s: returned %d, %d entries differ"
                  % (number, seed, n, rows, returned, differences))
    print(", ".join("%d returned %d" % (numbers[returned], returned) for returned in sorted(numbers)))
    print("%d left out: past the elimination limit" % numbers.get(ELIMINATION_BEYOND, 0))
    print("%d passed, %d failed" % (passed, failed))
    return 1 if failed else 0


if __name__ == "__main__":
    needs.tool(main)
