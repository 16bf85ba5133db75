"""The listing program at its edges: what its three standard files may be, and how it ends then.

Standard output has the listing of the text read whole from standard input, and nothing else. A text that cannot be
read, a listing that cannot be written, an argument and a terminal are told on standard error, each in one line. The
language has no exit status of its own, so that it is 0 unless a signal ends the run.

edges(program) yields what is tried, how it ended and how it is to end: the exit status, the bytes of standard output
and those of standard error, and where there is more to see, that too.
"""

import errno
import fcntl
import os
import resource
import select
import signal
import struct
import subprocess
import sys
import tempfile
import termios
import time

import needs
from listing import listing
from text import MAX_TEXT

DECKS = os.path.join(needs.ROOT, "decks")
FULL = "/dev/full"
# How long a run may take, and how long the usage line at a terminal.
SECONDS = 30
AT_ONCE = 10
USAGE = b"usage: listing < DECK"
REFUSED = b"REFUSED 11\n"
END_OF_FILE = b"\x04"
# Writes what it is given and is killed.
DYING = "import os, sys; os.write(1, bytes.fromhex(sys.argv[1])); os.kill(os.getpid(), 9)"


# ----------------------------------------------------------------------- the runs

def ended(process, data=None, late=False):
    """How a started run ends, once its pipe has brought the data and is closed. One that does not end in time is killed;
    late says that it was too slow already."""
    try:
        out, err = process.communicate(data, timeout=SECONDS)
    except subprocess.TimeoutExpired:
        process.kill()
        out, err = process.communicate()
        late = True
    return "no end" if late else process.returncode, out or b"", err or b""


def start(program, *arguments, **files):
    """A started run; what is not given of its standard files is empty or kept."""
    files = dict({"stdin": subprocess.DEVNULL, "stdout": subprocess.PIPE, "stderr": subprocess.PIPE}, **files)
    return subprocess.Popen([program, *arguments], bufsize=0, **files)


def run(program, *arguments, **files):
    return ended(start(program, *arguments, **files))


def run_on(deck, program, *arguments, **files):
    """A run whose standard input is a deck's file."""
    with open(deck, "rb") as file:
        return run(program, *arguments, stdin=file, **files)


def closing(*numbers):
    """For a run in which these of the standard files are closed."""
    return lambda: [os.close(number) for number in numbers]


def filled(data):
    """A pipe with a text in it: the reading end and the writing end."""
    reading, writing = os.pipe()
    os.write(writing, data)
    return reading, writing


def line(file, number):
    """What is said of a file that the system refuses to read or write, with the system's words."""
    return b"listing: standard %s: %s\n" % (file, os.strerror(number).encode())


def with_usage(end):
    """The end of a run; where it said the usage line and nothing else, as the words that this opens with."""
    status, out, err = end
    alone = err.startswith(USAGE) and err.endswith(b"\n") and err.count(b"\n") == 1
    return status, out, USAGE if alone else err


# ------------------------------------------------------------------ standard input

def unreadable(program):
    """Nothing is listed of a text that was not read to its end."""
    folder = os.open("/", os.O_RDONLY)
    yield "a directory is read", run(program, stdin=folder), (0, b"", line(b"input", errno.EISDIR))
    os.close(folder)
    closed = line(b"input", errno.EBADF)
    yield "standard input is closed", run(program, preexec_fn=closing(0)), (0, b"", closed)
    unread = os.open(os.devnull, os.O_WRONLY)
    yield "standard input is only written", run(program, stdin=unread), (0, b"", closed)
    os.close(unread)
    for data in (b"", b"1\n3 5 0 0\n0\n0\n"):
        reading, writing = filled(data)
        os.set_blocking(reading, False)
        yield ("a read fails after %d bytes" % len(data), run(program, stdin=reading),
               (0, b"", line(b"input", errno.EAGAIN)))
        os.close(reading)
        os.close(writing)


def waited(process):
    """Whether all that was written into a run's pipe is read in time, or the run has ended."""
    until = time.monotonic() + SECONDS
    while struct.unpack("i", fcntl.ioctl(process.stdin, termios.FIONREAD, bytes(4)))[0] > 0 and process.poll() is None:
        if time.monotonic() > until:
            return False
        time.sleep(0.001)
    return True


def in_pieces(program, pieces):
    """A run that is given each piece once the one before is read."""
    process = start(program, stdin=subprocess.PIPE)
    late = False
    for piece in pieces:
        try:
            process.stdin.write(piece)
        except BrokenPipeError:
            break
        late = late or not waited(process)
    return ended(process, late=late)


def cut_within(data):
    """A place between two digits of one number, near the middle."""
    places = [at for at in range(1, len(data)) if data[at - 1:at + 1].isdigit()]
    return min(places, key=lambda at: abs(2 * at - len(data)))


def pieces(program):
    """A text that comes in pieces is listed whole."""
    for name in sorted(name for name in os.listdir(DECKS) if name.endswith(".txt")):
        with open(os.path.join(DECKS, name), "rb") as file:
            data = file.read()
        at = cut_within(data)
        yield ("%s, a pause after %d bytes" % (name, at), in_pieces(program, [data[:at], data[at:]]),
               (0, listing(data), b""))
    with open(os.path.join(DECKS, "paving.txt"), "rb") as file:
        deck = file.read()
    yield ("a pause after each byte", in_pieces(program, [deck[at:at + 1] for at in range(len(deck))]),
           (0, listing(deck), b""))
    for length in (MAX_TEXT, MAX_TEXT + 1):
        data = deck.rjust(length)
        yield ("%d bytes, a pause after each 999" % length,
               in_pieces(program, [data[at:at + 999] for at in range(0, length, 999)]), (0, listing(data), b""))


def dying(program):
    """What came before its writer was killed is the text; a deck without its last digit may be a deck too."""
    with open(os.path.join(DECKS, "paving.txt"), "rb") as file:
        deck = file.read()
    # the last path's only curve is 10
    paths = b"10\n" + b"1 9 0 0\n" * 10 + b"0\n1\n2\n1 2\n1 10"
    for data in (deck[:cut_within(deck)], paths[:-1], b""):
        writer = subprocess.Popen([sys.executable, "-c", DYING, data.hex()], stdout=subprocess.PIPE)
        end = run(program, stdin=writer.stdout)
        writer.stdout.close()
        killed = writer.wait() == -signal.SIGKILL
        yield ("the writer is killed after %d bytes" % len(data), end + (killed,), (0, listing(data), b"", True))


def unended(program):
    """Document 01 lets a text end without a line end: it is listed like any other."""
    for data in (b"1 3 5 0 0 0 0", b"1 3 5 0 0 0 0 ", b"1 3 5 0 0 0 0\t", b"x".rjust(MAX_TEXT), b"x".rjust(MAX_TEXT + 1)):
        yield ("%d bytes that end with %r" % (len(data), data[-1:]), ended(start(program, stdin=subprocess.PIPE), data),
               (0, listing(data), b""))


def lengths(program):
    """Texts from a file and through a pipe: none, the longest, too long by one byte and by far, and without an end."""
    for length in (0, MAX_TEXT, MAX_TEXT + 1, 5000000):
        data = b"1\n3 5 0 0\n0\n0\n".ljust(length) if length else b""
        wanted = (0, listing(data), b"")
        with tempfile.TemporaryFile() as file:
            file.write(data)
            file.seek(0)
            yield "%d bytes from a file" % length, run(program, stdin=file), wanted
        yield "%d bytes through a pipe" % length, ended(start(program, stdin=subprocess.PIPE), data), wanted
    with open("/dev/zero", "rb") as file:
        yield "a text without an end", run(program, stdin=file), (0, REFUSED, b"")


# ------------------------------------------------------- a terminal, an argument

def typed(program, data):
    """A run at a terminal: what is typed comes once the usage line is there."""
    keyboard, terminal = os.openpty()
    process = start(program, stdin=terminal)
    os.close(terminal)
    first = b""
    if select.select([process.stderr], [], [], AT_ONCE)[0]:
        first = os.read(process.stderr.fileno(), 1000)
    os.write(keyboard, data)
    status, out, err = ended(process)
    os.close(keyboard)
    return with_usage((status, out, first + err))


def terminals(program):
    """The usage line at once, then the listing of what is typed until the end of file; with an argument the line alone."""
    try:
        keyboard, terminal = os.openpty()
    except OSError:
        needs.left_out("the listing program at a terminal", "none can be opened")
        return
    yield "called with an argument at a terminal", with_usage(run(program, "x", stdin=terminal)), (0, b"", USAGE)
    os.close(terminal)
    os.close(keyboard)
    with open(os.path.join(DECKS, "paving.txt"), "rb") as file:
        deck = file.read()
    for what, data, keys in (("nothing", b"", END_OF_FILE), ("a deck", deck, END_OF_FILE),
                             ("a deck without its last line end", deck[:-1], 2 * END_OF_FILE),
                             ("half a deck", deck[:cut_within(deck)], 2 * END_OF_FILE)):
        yield "%s is typed" % what, typed(program, data + keys), (0, listing(data), USAGE)


def arguments(program):
    """The usage line; what stands at standard input is left there."""
    deck = b"1\n3 5 0 0\n0\n0\n"
    for words in (["x"], [""], ["--help"], [os.path.join(DECKS, "paving.txt")], ["-", "x"]):
        reading, writing = filled(deck)
        end = run(program, *words, stdin=reading)
        os.close(writing)
        yield "called with %s" % words, with_usage(end) + (os.read(reading, 100),), (0, b"", USAGE, deck)
        os.close(reading)
    yield ("called with an argument, standard input is closed", with_usage(run(program, "x", preexec_fn=closing(0))),
           (0, b"", USAGE))


# ----------------------------------------------------------------- standard output

def unwritable(program, deck):
    """A listing that is not written whole is told of."""
    if os.path.exists(FULL):
        with open(FULL, "wb") as file:
            yield "standard output is full", run_on(deck, program, stdout=file), (0, b"", line(b"output", errno.ENOSPC))
    else:
        needs.left_out("the listing program's full standard output", "no " + FULL)
    closed = line(b"output", errno.EBADF)
    yield "standard output is closed", run_on(deck, program, preexec_fn=closing(1)), (0, b"", closed)
    with open(deck, "rb") as file:
        yield "standard output is only read", run_on(deck, program, stdout=file), (0, b"", closed)


def without_reader(program, deck):
    """The library of the language holds back the signal of a pipe without a reader: this is told of."""
    reading, writing = os.pipe()
    os.close(reading)
    yield ("nobody reads standard output", run_on(deck, program, stdout=writing, restore_signals=False),
           (0, b"", line(b"output", errno.EPIPE)))
    yield ("nobody reads, and the signal was not ignored before", run_on(deck, program, stdout=writing),
           (0, b"", line(b"output", errno.EPIPE)))
    os.close(writing)


def cut_short(program, deck):
    """What there is room for of a listing is its front. The signal of a file past its limit is as that of a pipe without a reader."""
    room = 20
    with open(deck, "rb") as file:
        wanted = listing(file.read())[:room]

    def limit():
        resource.setrlimit(resource.RLIMIT_FSIZE, (room, room))
        resource.setrlimit(resource.RLIMIT_CORE, (0, 0))

    for ended_by, told, restored in ((0, line(b"output", errno.EFBIG), False), (-signal.SIGXFSZ, b"", True)):
        with tempfile.TemporaryFile() as file:
            end = run_on(deck, program, stdout=file, restore_signals=restored, preexec_fn=limit)
            file.seek(0)
            yield ("room for %d bytes of a listing, ended by %d" % (room, ended_by), (end[0], file.read(), end[2]),
                   (ended_by, wanted, told))


def unheard(program, deck):
    """Where nothing can be said the program just ends."""
    for numbers in ((1, 2), (0, 2), (0, 1, 2)):
        yield "closed: %s" % (numbers,), run_on(deck, program, preexec_fn=closing(*numbers)), (0, b"", b"")
    for numbers in ((2,), (1, 2)):
        yield ("called with an argument, closed: %s" % (numbers,),
               run_on(deck, program, "x", preexec_fn=closing(*numbers)), (0, b"", b""))
    if os.path.exists(FULL):
        with open(FULL, "wb") as file:
            yield "both are full", run_on(deck, program, stdout=file, stderr=file), (0, b"", b"")


def edges(program):
    """What is tried, how it ended and how it is to end."""
    deck = os.path.join(DECKS, "mapped-panels.txt")
    for some in (unreadable(program), pieces(program), dying(program), unended(program), lengths(program),
                 terminals(program), arguments(program), unwritable(program, deck),
                 without_reader(program, deck), cut_short(program, deck), unheard(program, deck)):
        yield from some
