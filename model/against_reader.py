"""The proved reader against the plain model, on random calls.

    python3 model/against_reader.py [COUNT SEED]

Builds the crate koralimbu as against_engine.py does, and calls koralimbu_read on document
01's deck cases, the sample decks, the fullest decks and the longest texts; on buffers
and sizes that are empty or one number off; and on COUNT texts of generate.py, as laid
out, damaged and binary, with some buffers of a wrong length. Every buffer holds
anything before the call. The returned number and every buffer afterwards must be the
model's, the ideals that the reader hands in among them (document 02, (ii)), and the text
and the numbers on both sides of each buffer must be as before. How many of the texts
set ideals or leave plain intervals without one, and how many show what of swept volumes
(document 02, (iii)) and of pairs of goals (document 02, (v)), is printed; there must be
some of each.
Where a text has a known listing, a whole assignment goes on from the read buffers as
the header says, and must give that listing. The last line is 'N passed, M failed'.
"""

import ctypes

import needs
from against_engine import REPORT_NUMBERS, VERDICTS, engine_call, engine_functions
from against_listing import DECK_CASES, by_hand, long_texts, samples
from boundary import Buffer, Tally, call, declare, load
from engine import MAX_COLUMNS, MAX_ROWS, PROBLEM_LISTS, WRONG_LENGTH
from generate import Case, noise, rng_for, text_case, volumes_met
from listing import blank_lent, problem_of, refusal_lines, verdict_lines
from pairs import kinds_met
from text import MAX_COEFFICIENTS, MAX_TEXT, Deck, read

LENGTHS = {"coefficients": MAX_COEFFICIENTS, "rights": MAX_ROWS, "lower": MAX_COLUMNS,
           "upper": MAX_COLUMNS, "low": MAX_COLUMNS, "high": MAX_COLUMNS,
           "given": MAX_COLUMNS, "ideals": MAX_COLUMNS, "sizes": 3}
NUMBERS = {"text": ctypes.c_uint8, "sizes": ctypes.c_size_t}

# What texts show of the ideals that the reader hands in.
IDEALS = ["an ideal set", "a plain interval without one", "a slack beside a set ideal"]


# --------------------------------------------------------------------- the calls

def noisy_lists(rng, lengths):
    """What the lent buffers may hold before a call: anything."""
    lists = {name: noise(rng, length) for name, length in lengths.items()}
    lists["sizes"] = noise(rng, lengths["sizes"], 0, 2 ** 64 - 1)
    return lists


def reader_call(function, data, lists):
    """The returned number and every buffer after the reader's call."""
    buffers = {"text": Buffer(NUMBERS["text"], data)}
    buffers.update((name, Buffer(NUMBERS.get(name, ctypes.c_int64), numbers))
                   for name, numbers in lists.items())
    return call(function, [], buffers)


def model_call(data, lists):
    """The same of the model, which knows no sizes: those of a wrong length are refusal 2
    and change nothing."""
    deck = Deck()
    for name in lists:
        setattr(deck, name, list(lists[name]))
    if len(deck.sizes) == 3:
        outcome = read(data, deck)
        number = outcome if isinstance(outcome, int) else 0
        deck.sizes = [deck.n, deck.m, deck.intervals] if number == 0 else [0, 0, 0]
    else:
        number = WRONG_LENGTH
    after = {name: getattr(deck, name) for name in lists}
    after.update(number=number, text=list(data), edges={})
    return after


def listing_by_calls(functions, after):
    """The listing of a text by its reading and a whole assignment on the parts of the
    buffers that n and m need."""
    if after["number"] != 0:
        return refusal_lines(after["number"])
    deck = Deck()
    deck.n, deck.m, _ = after["sizes"]
    for name in PROBLEM_LISTS:
        setattr(deck, name, after[name])
    case = Case("assign", problem_of(deck), None)
    case.lent = blank_lent(case.problem)
    done = engine_call(functions, case, [0] * REPORT_NUMBERS)
    if done["number"] != 0:
        return refusal_lines(done["number"])
    case.lent.values, case.lent.strides = done["values"], done["strides"]
    word = {number: verdict for verdict, number in VERDICTS.items()}[done["report"][0]]
    # the rounds are not listed
    _, bounds_count, goals_count, _ = done["report"]
    return verdict_lines(word, bounds_count, goals_count, case.lent)


# --------------------------------------------------------------------- the cases

def listed_texts():
    """What a case is, its text, and its listing."""
    yield from by_hand()
    yield from samples()
    yield from long_texts()


def full_deck(plain):
    """48 intervals and 48 rows of 48 terms; so many of the intervals are plain, the first
    and the last among them."""
    wanted, without = b"1 1000000 1000000000 1000000000\n", b"1 1000000 0 0\n"
    intervals = (without * (plain - plain // 2) + wanted * (MAX_COLUMNS - plain)
                 + without * (plain // 2))
    terms = b"".join(b" %d -1000" % index for index in range(1, MAX_COLUMNS + 1))
    return (b"%d\n" % MAX_COLUMNS + intervals
            + b"%d\n" % MAX_ROWS + (b"0 -1000000 %d" % MAX_COLUMNS + terms + b"\n") * MAX_ROWS
            + b"0\n")


def full_texts():
    """The fullest deck, as short as it goes and filled up to the longest text and one byte
    past it; and with plain intervals, each with as many neighbours as there are goals."""
    deck = full_deck(0)
    for length in (len(deck), MAX_TEXT, MAX_TEXT + 1):
        yield "the fullest deck in %d bytes" % length, deck.ljust(length)
    for plain in (1, 2, 24, MAX_COLUMNS - 1, MAX_COLUMNS):
        yield "the fullest deck with %d plain" % plain, full_deck(plain)


def path_of(indices):
    return b"%d %s\n" % (len(indices), b" ".join(b"%d" % index for index in indices))


def full_volumes():
    """The most paths that make no 49th row, along all intervals and then along ever fewer,
    so that ever more of them stay in the row; one path more; a count of intervals that no
    text can have; and the most volumes that a text can have, and one more than it has."""
    every = list(range(MAX_COLUMNS, 0, -1))
    head = (b"%d\n" % MAX_COLUMNS + b"1 1000000 0 0\n" * 24
            + b"1 1000000 1000000000 1000000000\n" * 24 + b"0\n1\n")
    paths = [path_of(every)] + [path_of(every[:count]) for count in every]
    yield "49 paths", head + b"49\n" + b"".join(paths)
    yield "50 paths", head + b"50\n" + b"".join(paths) + paths[0]
    yield "48 intervals twice", head + b"1\n9999999999 " + b" ".join([paths[0][3:]] * 2)
    one, volume = b"1\n1 9 0 0\n0\n", b"1 1 1\n"
    most = (MAX_TEXT - len(one + b"9999\n")) // len(volume)
    for count, had in ((most, most), (most + 1, most), (9999999999, most - 1)):
        yield "%d of %d volumes" % (had, count), one + b"%d\n" % count + volume * had


def wrong_lengths():
    """Which buffer has a wrong length, and the lengths of all."""
    for name, length in LENGTHS.items():
        for wrong in (0, length - 1, length + 1):
            yield "%s of %d" % (name, wrong), dict(LENGTHS, **{name: wrong})
    # as many numbers together as there must be
    for one, other in (("given", "ideals"), ("ideals", "given"), ("low", "high"),
                       ("high", "low"), ("high", "given")):
        lengths = {one: MAX_COLUMNS - 1, other: MAX_COLUMNS + 1}
        yield "%s shorter, %s longer" % (one, other), dict(LENGTHS, **lengths)
    yield "all of 0", dict.fromkeys(LENGTHS, 0)


def random_lengths(rng):
    """The right lengths, mostly; otherwise one or two wrong ones."""
    lengths = dict(LENGTHS)
    if rng.random() < 0.15:
        for name in rng.sample(sorted(LENGTHS), rng.choice([1, 1, 2])):
            right = LENGTHS[name]
            lengths[name] = rng.choice([0, 1, right - 1, right + 1, 2 * right, MAX_ROWS])
    return lengths


def cases(count, seed):
    """What a case is, its text, and the lengths of the lent buffers."""
    for what, data, _ in listed_texts():
        yield what, data, LENGTHS
    for some in (full_texts(), full_volumes()):
        for what, data in some:
            yield what, data, LENGTHS
    deck = DECK_CASES[10][0].encode()
    for kind, data in [("a deck", deck), ("no deck", b"x" + deck), ("no text", b""),
                       ("a text too long", deck.ljust(MAX_TEXT + 1))]:
        for what, lengths in wrong_lengths():
            yield "%s, %s" % (kind, what), data, lengths
    yield from made(count, seed)


def made(count, seed):
    """The random texts among the cases."""
    for number in range(1, count + 1):
        rng = rng_for(seed, number)
        yield "text %d of seed %d" % (number, seed), text_case(rng), random_lengths(rng)


def ideals_met(after):
    """Which of IDEALS a reading shows, by what the reader tells and leaves."""
    if after["number"] != 0:
        return []
    n, _, intervals = after["sizes"]
    plain = [after["given"][j] for j in range(intervals) if after["low"][j] == 0]
    found = {"an ideal set": any(plain), "a plain interval without one": not all(plain),
             "a slack beside a set ideal": any(plain) and n > intervals}
    return [kind for kind in IDEALS if found[kind]]


def compare_readings(tally, reader, count, seed):
    """Every case, on buffers that hold anything."""
    met = dict.fromkeys(IDEALS, 0)
    texts = [data for _, data, lengths in made(count, seed) if lengths == LENGTHS]
    met.update(volumes_met(texts), **kinds_met(texts))
    for number, (what, data, lengths) in enumerate(cases(count, seed)):
        lists = noisy_lists(rng_for(seed + 1, number), lengths)
        got = reader_call(reader, data, lists)
        tally.compare(what, got, model_call(data, lists))
        for kind in ideals_met(got):
            met[kind] += 1
    print("texts: " + ", ".join("%s %d" % pair for pair in met.items()))
    for kind, texts in met.items():
        tally.require("a text with " + kind, texts > 0)


def main(arguments):
    count, seed = needs.numbers(arguments, [4000, 1], __doc__)
    tally = Tally()
    library = load("the reader is not compared with the plain model")
    if library is None:
        return tally.end()
    # the text, the lists and the sizes
    reader = declare(library.koralimbu_read, [], 1 + len(LENGTHS))
    engine = engine_functions(library)
    compare_readings(tally, reader, count, seed)
    for number, (what, data, wanted) in enumerate(listed_texts()):
        after = reader_call(reader, data, noisy_lists(rng_for(seed + 2, number), LENGTHS))
        lines = listing_by_calls(engine, after)
        tally.compare(what + ", gone on from", {"listing": lines},
                      {"listing": wanted.decode().splitlines()})
    return tally.end()


if __name__ == "__main__":
    needs.tool(main)
