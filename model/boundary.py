"""The proved library as C calls it: what the comparisons with the plain model share.

To import: load() proves, builds and loads the library, declare() types one of its
functions, Buffer is a list of numbers as C holds it, call() makes a call and tells
what every buffer then holds, call_with() does where numbers stand between the buffers, Tally
counts the calls that agree with the model.
"""

import ctypes
import os
import subprocess
import sys

import needs
from needs import ROOT

ARCHIVE = os.path.join(ROOT, "target", "staticlib", "libkoralimbu.a")
SHARED = os.path.join(ROOT, "target", "against", "libkoralimbu.so")

MOST_SHOWN = 5
# How many numbers are watched on both sides of a buffer, and what they hold.
EDGE = 4
MARK = 1234567


# ------------------------------------------------------------------ the library

def run(*command):
    """Runs a command, whose output is shown only where it fails."""
    done = subprocess.run(command, cwd=ROOT, text=True, stdout=subprocess.PIPE,
                          stderr=subprocess.STDOUT)
    if done.returncode != 0:
        sys.exit(("%s\n%s: exit status %d"
                  % (done.stdout[-4000:], " ".join(command), done.returncode)).lstrip())


def load(what):
    """Proves, compiles and loads the library; None where there is no C compiler, and
    then it says what is left out."""
    compiler = needs.compiler()
    if compiler is None:
        needs.left_out(what, "no C compiler")
        return None
    # The gate builds the library once and says so.
    if not os.environ.get("LIBRARY_BUILT"):
        needs.rt()
        run(os.path.join(ROOT, "tools", "archive"))
    needs.built(ARCHIVE, "tools/archive")
    os.makedirs(os.path.dirname(SHARED), exist_ok=True)
    run(compiler, "-shared", "-o", SHARED, "-Wl,--whole-archive", ARCHIVE,
        "-Wl,--no-whole-archive")
    return ctypes.CDLL(SHARED)


# How a buffer is handed over: where it lies, and its count.
LENT = [ctypes.c_void_p, ctypes.c_size_t]


def declare(function, numbers, buffers):
    """The function, which takes numbers of these kinds and then so many buffers."""
    function.restype = ctypes.c_uint32
    function.argtypes = numbers + LENT * buffers
    return function


# --------------------------------------------------------------------- the calls

class Buffer:
    """A list of numbers as C holds it, with marks on both sides."""

    def __init__(self, kind, numbers):
        self.count = len(numbers)
        self.array = (kind * (self.count + 2 * EDGE))(
            *[MARK] * EDGE, *numbers, *[MARK] * EDGE)
        self.arguments = [ctypes.addressof(self.array) + EDGE * ctypes.sizeof(kind),
                          self.count]
        self.marks = self.edges()

    def numbers(self):
        return list(self.array[EDGE:EDGE + self.count])

    def edges(self):
        return list(self.array[:EDGE]) + list(self.array[EDGE + self.count:])


def call(function, numbers, buffers):
    """The returned number, every buffer after the call, and the edges, by buffer, that
    are not as they were: none may be."""
    return call_with(function, list(numbers) + handed(buffers), buffers)


def handed(buffers):
    """The arguments of buffers, one after the other."""
    return [argument for buffer in buffers.values() for argument in buffer.arguments]


def call_with(function, arguments, buffers):
    """The same with all arguments as they are handed over."""
    after = {"number": function(*arguments)}
    after.update((name, buffer.numbers()) for name, buffer in buffers.items())
    after["edges"] = {name: buffer.edges() for name, buffer in buffers.items()
                      if buffer.edges() != buffer.marks}
    return after


# --------------------------------------------------------------------- the count

def difference(name, got, want, whose):
    """Where two lists of one length first differ; otherwise both things whole."""
    if isinstance(want, list) and len(got) == len(want):
        at = [a == b for a, b in zip(got, want)].index(False)
        name, got, want = "%s[%d]" % (name, at), got[at], want[at]
    return "  %s: the engine's %s, %s %s" % (name, got, whose, want)


class Tally:
    """How many calls agree with the model; the first that do not are shown."""

    def __init__(self):
        self.passed = 0
        self.failed = 0

    def compare(self, what, got, want, whose="the model's"):
        wrong = [name for name in want if got[name] != want[name]]
        if not wrong:
            self.passed += 1
            return
        self.failed += 1
        if self.failed <= MOST_SHOWN:
            print(what)
            for name in wrong:
                print(difference(name, got[name], want[name], whose))

    def require(self, what, holds):
        """What must hold of a whole comparison, so that it is none in name only."""
        if holds:
            self.passed += 1
            return
        self.failed += 1
        print("required: " + what)

    def end(self):
        """Prints the last line; returns the exit status."""
        print("%d passed, %d failed" % (self.passed, self.failed))
        return 1 if self.failed else 0
