"""What the tools of this folder need beside Python: looked for here, and said in one line where it is missing.

Without what a tool cannot do its work for, it ends with that line and the exit status 1. What it can leave out it says
by left_out, and goes on; .ci/run gathers these lines.
"""

import os
import shutil
import sys

ROOT = os.path.dirname(os.path.dirname(os.path.abspath(__file__)))


def rt():
    """The prover."""
    if shutil.which("rt") is None:
        sys.exit("the Rattle kit's command rt is not there: PATH has to name its folder")
    return "rt"


def compiler():
    """The C compiler, or None."""
    return shutil.which("cc") or shutil.which("gcc") or shutil.which("clang")


def built(path, command):
    """A file that the command builds."""
    if not os.path.exists(path):
        sys.exit("%s is not there: %s builds it" % (os.path.relpath(path, ROOT), command))
    return path


def left_out(what, why):
    """Says what is not compared, and why."""
    print("left out: %s: %s" % (what, why))


def numbers(arguments, defaults, document):
    """The numbers that a tool was called with, the defaults for those that were not given; its document has the usage."""
    usage = next(line.strip() for line in document.splitlines() if line.strip().startswith("python3 "))
    if len(arguments) > len(defaults) or not all(word.isascii() and word.isdigit() for word in arguments):
        sys.exit("usage: " + usage)
    return [int(word) for word in arguments] + defaults[len(arguments):]


def tool(main):
    """Runs a tool. What the system refuses, a file that is missing or a folder that cannot be written, is one line."""
    try:
        sys.exit(main(sys.argv[1:]))
    except OSError as refused:
        sys.exit("%s: %s" % (os.path.basename(sys.argv[0]), refused))
