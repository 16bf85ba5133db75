"""The calls from C, C++ and Rust.

    python3 bindings/test.py

Builds the static library; compiles the C example and runs it on every sample deck;
compiles and runs the C and C++ programs that try what the header says; builds, tests
and documents the Rust package, offline, and runs its examples on every sample deck. A
listing must be the deck's, byte for byte. A run step by step must be the one that lies
beside the example, where there is one, and end with the list and the verdict of the
deck's listing. The examples that join two blocks, in C and in Rust, must print what lies
beside the Rust one. What a machine has no tool for is told in a line 'left out: ..'. The
last line is 'N passed, M failed'.
"""

import glob
import os
import re
import shutil
import subprocess
import sys

ROOT = os.path.dirname(os.path.dirname(os.path.abspath(__file__)))
ARCHIVE = os.path.join("target", "staticlib", "libkoralimbu.a")
BUILT = os.path.join("target", "bindings")
RUST = os.path.join("bindings", "rust")
# The decks whose run lies beside the example: steps of both kinds of move, towards the bounds and towards the goals; a list seated by ideals.
RUNS = ["bounds-conflict", "paved-bulkhead", "plain-curves"]
# The sample blocks that are joined, and the curves that they share: one of the first block, one of the second, and so on.
BLOCKS = ["aft-block", "fore-block"]
SHARED = "1 2 2 3 6 1"
# Pairs of other columns, and with which number they are refused: curves whose bounds have nothing in common; columns outside; used before.
REFUSED = [("1 3", 15), ("0 1", 14), ("1 0", 14), ("10 1", 14), ("1 9", 14), ("1 2 1 4", 14), ("1 2 2 2", 14), ("1 2 1 3", 14), ("1 3 0 0", 15)]
STRICT = ["-Wall", "-Wextra", "-Wpedantic", "-Wconversion", "-Wsign-conversion", "-Wshadow", "-Wundef", "-Werror", "-Iinclude"]

passed = failed = 0


def run(command, folder=".", **variables):
    """What a command printed, as bytes; its error output is only kept to be told."""
    # The library just built is tested, not one that the environment names.
    environment = {name: value for name, value in os.environ.items() if name != "KORALIMBU_LIB_DIR"}
    return subprocess.run(command, cwd=os.path.join(ROOT, folder), env=dict(environment, **variables),
                          stdout=subprocess.PIPE, stderr=subprocess.PIPE)


def left_out(what):
    print("left out: " + what)


def count(what, good, said=b""):
    global passed, failed
    if good:
        passed += 1
    else:
        failed += 1
        print("\n".join([what + " failed"] + said.decode(errors="replace")[-3000:].splitlines()))
    return good


def ran(what, done):
    """Counts a command by its exit status."""
    return count(what, done.returncode == 0, done.stdout + done.stderr)


def add_counts(what, done, line):
    """Adds up the counts of a program's tests: line finds them in what it printed. One that has none, or fails besides, has failed."""
    global passed, failed
    counts = re.findall(line, done.stdout, re.MULTILINE)
    wrong = sum(int(bad) for _, bad in counts)
    passed += sum(int(good) for good, _ in counts)
    failed += wrong
    if wrong or done.returncode != 0 or not counts:
        print("%s: exit status %d\n%s" % (what, done.returncode, (done.stdout + done.stderr).decode(errors="replace")[-6000:]))
        failed += 0 if wrong else 1


def contents(*path):
    with open(os.path.join(ROOT, *path), "rb") as file:
        return file.read()


def on_every_deck(what, command, own, good, folder="."):
    """Runs the command with the file of each deck, and with none, for which it has the deck own; good(name, done) tells whether it did well."""
    names = sorted(os.path.basename(deck)[:-len(".txt")] for deck in glob.glob(os.path.join(ROOT, "decks", "*.txt")))
    for name in [None] + names:
        done = run(command + ([os.path.join(ROOT, "decks", name + ".txt")] if name else []), folder)
        count("%s on %s" % (what, name + ".txt" if name else "its own deck"), good(name or own, done), done.stdout + done.stderr)


def lists(name, done):
    """What is printed is the deck's listing."""
    return done.returncode == 0 and done.stdout == contents("decks", name + ".listing")


def shows_steps(name, done):
    """A run step by step is that beside the example, if the deck is one of RUNS, and ends as the deck's listing says."""
    if name in RUNS and done.stdout != contents(RUST, "examples", name + ".steps"):
        return False
    verdict, *columns = contents("decks", name + ".listing").decode().splitlines()
    if not columns:
        # NONE is refusal 8; a refused deck has no run.
        refusal = "refused with %s: " % ("8" if verdict == "NONE" else verdict.split()[1])
        return done.returncode != 0 and done.stdout == b"" and refusal.encode() in done.stderr
    values = [column.split()[1] for column in columns]
    lines = done.stdout.decode().splitlines()
    # The words between the values only part the curves from the added columns.
    return done.returncode == 0 and lines[-1:] == [verdict] and re.findall(r"-?\d+", " ".join(lines[-2:-1])) == values


def on_blocks(what, command, folder="."):
    """Joins the sample blocks by the pairs that they share, for which the output lies beside the Rust example, and by others."""
    decks = [os.path.join(ROOT, "decks", name + ".txt") for name in BLOCKS]
    joined = contents(RUST, "examples", "blocks.joined")
    for pairs, wanted in [(SHARED, joined)] + [(pairs, b"REFUSED %d\n" % number) for pairs, number in REFUSED]:
        done = run(command + decks + pairs.split(), folder)
        count("%s by the pairs %s" % (what, pairs), done.returncode == 0 and done.stdout == wanted, done.stdout + done.stderr)
    for words, why in [(decks[:1], b"usage: "), (decks + ["1", "x"], b"usage: "), (decks[:1] + ["no-such-file"], b"no-such-file: "),
                       (decks[:1] + [os.path.join(ROOT, "decks", "wrong-curve.txt")], b"wrong-curve.txt: refused with 12")]:
        done = run(command + words, folder)
        count("%s with %s" % (what, " ".join(words)), done.returncode == 1 and done.stdout == b"" and why in done.stderr, done.stdout + done.stderr)


def test_page():
    """README.md shows the joined blocks as they lie beside the example."""
    shown = "".join("    %s\n" % line for line in contents(RUST, "examples", "blocks.joined").decode().splitlines())
    count("README.md's joined blocks", "\n\n" + shown + "\n" in contents("README.md").decode())


def first_of(*names):
    """The first command there is that tells its version: a cargo may stand there without its tools."""
    for name in names:
        if shutil.which(name) and run([name, "--version"]).returncode == 0:
            return name
    return None


def compiled(command, source):
    """The program of a source file, linked with the library; None where it does not compile."""
    program = os.path.join(BUILT, os.path.splitext(os.path.basename(source))[0])
    done = run(command + STRICT + ["-pthread", "-o", program, source, ARCHIVE])
    return os.path.join(ROOT, program) if ran("compiling " + source, done) else None


def counts_itself(program):
    """Runs a program whose last line is 'N passed, M failed'."""
    if program:
        add_counts(os.path.basename(program), run([program]), rb"^(\d+) passed, (\d+) failed$")


def test_c(compiler):
    strict = [compiler, "-std=c99", "-Wstrict-prototypes"]
    example = compiled(strict, "bindings/c/paving.c")
    if example:
        on_every_deck("the C example", [example], "paving", lists)
    example = compiled(strict, "bindings/c/joining.c")
    if example:
        on_blocks("the C example joining", [example])
    counts_itself(compiled(strict, "bindings/c/edges.c"))


def test_cplusplus(compiler):
    counts_itself(compiled([compiler, "-std=c++11"], "bindings/c/vectors.cpp"))


def test_rust(cargo):
    add_counts("cargo test", run([cargo, "test", "--offline", "--no-fail-fast"], RUST),
               rb"^test result: .* (\d+) passed; (\d+) failed;")
    ran("cargo doc", run([cargo, "doc", "--offline", "--no-deps"], RUST, RUSTDOCFLAGS="-D warnings"))
    example = [cargo, "run", "--quiet", "--offline", "--example"]
    for name, own, good in [("paving", "paving", lists), ("steps", "paved-bulkhead", shows_steps)]:
        on_every_deck("the Rust example " + name, example + [name, "--"], own, good, RUST)
    on_blocks("the Rust example joining", example + ["joining", "--"], RUST)
    done = run(example + ["joining"], RUST)
    count("the Rust example joining on its own blocks", done.stdout == contents(RUST, "examples", "blocks.joined"), done.stdout + done.stderr)


def library():
    """Builds the library; whether there is one to test."""
    # The gate builds the library once and says so.
    wanted = not os.environ.get("LIBRARY_BUILT")
    if wanted and shutil.which("rt"):
        done = run(["tools/archive"])
        return done.returncode == 0 or ran("tools/archive", done)
    if not os.path.exists(os.path.join(ROOT, ARCHIVE)):
        return count("no %s, which the Rattle kit's command rt builds, and no rt: everything" % ARCHIVE if wanted
                     else "no %s: everything" % ARCHIVE, False)
    if wanted:
        left_out("no rt: the library is not built, but taken as it lies in target/staticlib")
    return True


def main():
    test_page()
    if library():
        os.makedirs(os.path.join(ROOT, BUILT), exist_ok=True)
        compiler = first_of("cc", "gcc", "clang")
        # Rust links with the C compiler.
        for test, tool, missing in [
                (test_c, compiler, "no C compiler: the programs in C are not tried"),
                (test_cplusplus, first_of("c++", "g++", "clang++"), "no C++ compiler: the header is not tried as C++"),
                (test_rust, compiler and first_of("cargo"), "no cargo or no C compiler: the Rust package is not tried")]:
            if tool:
                test(tool)
            else:
                left_out(missing)
    print("%d passed, %d failed" % (passed, failed))
    return 1 if failed else 0


if __name__ == "__main__":
    sys.exit(main())
