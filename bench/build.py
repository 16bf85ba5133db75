"""Builds the timing program under target/bench/, with whatever is found.

A missing library or tool is told in a line and left out; only the proved engine's
archive, or rt to make it, and a C++ compiler must be there.
"""

import os
import shutil
import subprocess
import sys

ROOT = os.path.dirname(os.path.dirname(os.path.abspath(__file__)))
BENCH = os.path.join(ROOT, "bench")
TARGET = os.path.join(ROOT, "target", "bench")
ARCHIVE = os.path.join(ROOT, "target", "staticlib", "libkoralimbu.a")
ENGINES = os.path.join(TARGET, "cargo", "release", "libengines.a")
PROGRAM = os.path.join(TARGET, "timing")

COMPILER = ["g++", "-std=c++17", "-O2"]
SYSTEM = ["-lpthread", "-ldl", "-lm"]

# Each peer: its name, its file, the header it needs, what it is linked with.
PEERS = [
    ("FLINT", "flint", "flint/fmpz_mat.h", ["-lflint", "-lgmp"]),
    ("PARI", "pari", "pari/pari.h", ["-lpari", "-lgmp"]),
    ("GLPK", "glpk", "glpk.h", ["-lglpk"]),
    ("lp_solve", "lpsolve", "lpsolve/lp_lib.h", ["-llpsolve55", "-lcolamd"]),
]


def say(line):
    print(line, file=sys.stderr, flush=True)


def run(command, **more):
    """Runs a command, whose output is shown only where it fails."""
    done = subprocess.run(command, cwd=ROOT, text=True, stdout=subprocess.PIPE,
                          stderr=subprocess.STDOUT, **more)
    if done.returncode != 0:
        sys.exit("%s\n%s: exit status %d"
                 % (done.stdout[-4000:], " ".join(command), done.returncode))
    return done.stdout


def compiles(header, libraries):
    """Whether a program that only includes the header compiles and links."""
    source = "#include <cstdio>\n#include <%s>\nint main() {}\n" % header
    command = COMPILER + ["-x", "c++", "-", "-o", os.path.join(TARGET, "probe")] + libraries
    return subprocess.run(command, input=source, text=True, stdout=subprocess.DEVNULL,
                          stderr=subprocess.DEVNULL).returncode == 0


def build_proved():
    """The proved engine and the listing program. What is proved already is not proved again."""
    if shutil.which("rt"):
        say("proving and compiling the engine (minutes where nothing was proved before)")
        run([os.path.join(ROOT, "tools", "archive")])
        run([os.path.join(ROOT, "tools", "program")])
    elif os.path.exists(ARCHIVE):
        say("no rt: the archive and the listing program are taken as they lie in target/")
    else:
        sys.exit("no rt, and no target/staticlib/libkoralimbu.a: there is no engine to time")


def build_engines():
    """The unverified engines; False where there is no cargo."""
    if not shutil.which("cargo"):
        say("no cargo: the plain and the tuned engine are left out")
        return False
    run(["cargo", "build", "--release", "--locked", "--offline",
         "--manifest-path", os.path.join(BENCH, "engines", "Cargo.toml"),
         "--target-dir", os.path.join(TARGET, "cargo")])
    return True


def compile_sources(sources, defines):
    """Compiles each source to an object; returns the objects."""
    objects = []
    for source in sources:
        name = os.path.splitext(os.path.basename(source))[0]
        objects.append(os.path.join(TARGET, name + ".o"))
        run(COMPILER + defines + ["-I", os.path.join(ROOT, "include"), "-c", source,
                                  "-o", objects[-1]])
    return objects


def build():
    """Builds all; returns whether callgrind can be told where a call ends."""
    os.makedirs(TARGET, exist_ok=True)
    if not shutil.which(COMPILER[0]):
        sys.exit("no %s: the timing program cannot be compiled" % COMPILER[0])
    build_proved()
    sources = [os.path.join(BENCH, "program", name + ".cpp")
               for name in ("main", "engines", "times", "counts", "stack")]
    defines, libraries = [], []
    if build_engines():
        defines.append("-DWITH_ENGINES")
        libraries.append(ENGINES)
    for name, file, header, linked in PEERS:
        if compiles(header, linked):
            defines.append("-DWITH_" + file.upper())
            sources.append(os.path.join(BENCH, "peers", file + ".cpp"))
            libraries += linked
        else:
            say("no %s: left out" % name)
    dumps = compiles("valgrind/callgrind.h", [])
    if dumps:
        defines.append("-DWITH_CALLGRIND")
    objects = compile_sources(sources, defines)
    run(COMPILER + ["-o", PROGRAM] + objects + [ARCHIVE] + libraries + SYSTEM)
    return dumps
