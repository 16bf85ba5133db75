"""The reader: a deck text becomes the buffers of a problem, or a refusal.

“The first place that breaks its rule decides the refusal.”

Ideals, swept volumes and the pair of goals are document 02's, whose sentences stand at
them.
"""

import re

from engine import (COUNTS_OUTSIDE, WRONG_LENGTH, ROW_NUMBER_OUTSIDE, BOUND_OUTSIDE,
                    GOAL_OUTSIDE, MIN_COLUMNS, MAX_COLUMNS, MAX_ROWS, MAX_COEFFICIENT,
                    MAX_RIGHT, MAX_BOUND, MAX_GOAL, PROBLEM_LISTS, goal_ideal, has_goal,
                    into_bounds)

MAX_TEXT = 32768
MAX_COEFFICIENTS = MAX_COLUMNS * MAX_ROWS

# The numbers of the table “Turned back” that only a text can give, and document 02's,
# which “join document 01's table”.
NOT_AS_LAID_OUT = 11
ROW_WRONG = 12
VOLUME_WRONG = 13

# “In the text these are 0, 1, 2, 3.”
EQUAL, AT_LEAST, AT_MOST, EVEN = 0, 1, 2, 3

# What stands before y in a row of each kind: “Equal: sum = number. At least:
# sum − y = number, y from 0. At most: sum + y = number, y from 0. Even: sum − 2y = 0”.
Y_COEFFICIENT = {AT_LEAST: -1, AT_MOST: 1, EVEN: -2}

# “Each y goes up to 1,000,000”
MAX_Y = 1000000

# “optional minus, 1 to 10 digits, no needless zero in front, no −0”
NUMBER = re.compile(rb"0|-?[1-9][0-9]{0,9}")

# “parted by runs of byte 32 or 10, which may also open and close it”
RUN = re.compile(rb"[^ \n]+")


class Deck:
    """The reader's buffers, of the largest size: “48 numbers each and 2,304
    coefficients, n to a row without gaps; the rest becomes 0”."""

    def __init__(self):
        self.n = 0
        self.m = 0
        # how many of the n columns are intervals; rows added the others
        self.intervals = 0
        self.coefficients = [0] * MAX_COEFFICIENTS
        self.rights = [0] * MAX_ROWS
        self.lower = [0] * MAX_COLUMNS
        self.upper = [0] * MAX_COLUMNS
        # document 02, (v): the low and the high goal
        self.low = [0] * MAX_COLUMNS
        self.high = [0] * MAX_COLUMNS
        # document 02, (ii): whether an ideal is set, and the number
        self.given = [0] * MAX_COLUMNS
        self.ideals = [0] * MAX_COLUMNS


class Refused(Exception):
    """A place in the text breaks its rule; the number is the refusal's."""

    def __init__(self, number):
        Exception.__init__(self, number)
        self.number = number


class Numbers:
    """The numbers of a text, one after the other."""

    def __init__(self, data):
        self.runs = RUN.findall(data)
        self.taken = 0

    def next(self):
        """“a run of other bytes that is no such number, a missing number or one too
        many is 11 there” - the first two of these."""
        if self.taken == len(self.runs):
            raise Refused(NOT_AS_LAID_OUT)
        run = self.runs[self.taken]
        self.taken += 1
        if not NUMBER.fullmatch(run):
            raise Refused(NOT_AS_LAID_OUT)
        return int(run)

    def next_within(self, least, most, refusal):
        """The next number; outside least to most it is the refusal given."""
        number = self.next()
        if not least <= number <= most:
            raise Refused(refusal)
        return number

    def next_from(self, least, refusal):
        """The next number; below the least it is the refusal given."""
        number = self.next()
        if number < least:
            raise Refused(refusal)
        return number

    def end(self):
        """“... or one too many is 11 there”."""
        if self.taken != len(self.runs):
            raise Refused(NOT_AS_LAID_OUT)


class Row:
    """A row as the text states it or as two paths make it, with the column of its y (None
    if it has none)."""

    def __init__(self, kind, number, terms, y):
        self.kind = kind
        self.number = number
        self.terms = terms
        self.y = y


def read_interval(numbers):
    """Document 02, (v): “an interval's line in the text has four numbers”, its lower, upper,
    low and high."""
    lower = numbers.next_within(-MAX_BOUND, MAX_BOUND, BOUND_OUTSIDE)
    # “lower at most upper”, refused at the upper's place
    upper = numbers.next_within(lower, MAX_BOUND, BOUND_OUTSIDE)
    # “A column with a goal has lower bound 1 or more”, refused at the low goal's place
    low = numbers.next_within(0, MAX_GOAL if lower >= 1 else 0, GOAL_OUTSIDE)
    # “both 0 or both set, low at most high”, refused at the high goal's place
    high = numbers.next_within(low, MAX_GOAL if has_goal(low) else 0, GOAL_OUTSIDE)
    return lower, upper, low, high


def read_terms(numbers, intervals):
    """“its count of terms (0 to the count of intervals), then index and coefficient
    for each term. Indices name intervals, from 1, and rise strictly within a row. A
    coefficient isn't 0.”"""
    count = numbers.next_within(0, intervals, ROW_WRONG)
    terms = []
    index = 0
    for _ in range(count):
        index = numbers.next_within(index + 1, intervals, ROW_WRONG)
        coefficient = numbers.next_within(-MAX_COEFFICIENT, MAX_COEFFICIENT,
                                          ROW_NUMBER_OUTSIDE)
        if coefficient == 0:
            raise Refused(ROW_WRONG)
        terms.append((index - 1, coefficient))
    return terms


def read_row(numbers, intervals, columns):
    """“then for each its kind, its number, its count of terms ..., then index and
    coefficient for each term”. columns is the count of columns taken so far."""
    kind = numbers.next_within(EQUAL, EVEN, ROW_WRONG)
    # “or the row's kind makes a 49th column”: at the kind's place
    if kind != EQUAL and columns == MAX_COLUMNS:
        raise Refused(ROW_WRONG)
    # “y from the number, which is 0 to 1,000,000” - the least half of an even row
    least = 0 if kind == EVEN else -MAX_RIGHT
    number = numbers.next_within(least, MAX_RIGHT, ROW_NUMBER_OUTSIDE)
    terms = read_terms(numbers, intervals)
    # y “takes the next column after the intervals, in row order”
    y = None if kind == EQUAL else columns
    return Row(kind, number, terms, y)


def read_front(numbers):
    """“Sections: the count of intervals, then for each” its line of four numbers; “the
    count of rows, then for each its kind ...”. Returns the count of intervals, the columns
    and the rows."""
    intervals = numbers.next_within(MIN_COLUMNS, MAX_COLUMNS, COUNTS_OUTSIDE)
    columns = [read_interval(numbers) for _ in range(intervals)]
    m = numbers.next_within(0, MAX_ROWS, COUNTS_OUTSIDE)
    rows = []
    for _ in range(m):
        row = read_row(numbers, intervals, len(columns))
        rows.append(row)
        if row.y is not None:
            # “Each y goes up to 1,000,000, has no goal”
            least = row.number if row.kind == EVEN else 0
            columns.append((least, MAX_Y, 0, 0))
    return intervals, columns, rows


def read_path(numbers, intervals):
    """Document 02, (iii): “for each path, its count of intervals and their indices in any
    order”. 13 is “a count ... of a path's intervals below 1, or an index outside or twice in
    one path, at that number's place in the text”. An index names an interval, as in a row,
    and no y. Too large a count is no place that breaks a rule: with it an index comes twice,
    or the text ends."""
    count = numbers.next_from(1, VOLUME_WRONG)
    path = []
    for _ in range(count):
        index = numbers.next_within(1, intervals, VOLUME_WRONG)
        if index - 1 in path:
            raise Refused(VOLUME_WRONG)
        path.append(index - 1)
    return path


def read_volume(numbers, intervals, rows_so_far):
    """Document 02, (iii): “for each, its count of paths”. 13 is “a count of paths ... below
    1”, “a count of paths that makes a 49th row is 1”: at its place, before a path is read."""
    count = numbers.next_from(1, VOLUME_WRONG)
    # “for each later path” a row is added, so for all of them but the first
    if rows_so_far + count - 1 > MAX_ROWS:
        raise Refused(COUNTS_OUTSIDE)
    return [read_path(numbers, intervals) for _ in range(count)]


def read_volumes(numbers, intervals, rows_so_far):
    """Document 02, (iii): “A third section follows the rows: the count of volumes”, where a
    negative count is 13; “Older texts gain a closing 0.” Returns the volumes, each a list of
    paths."""
    volumes = []
    for _ in range(numbers.next_from(0, VOLUME_WRONG)):
        volumes.append(read_volume(numbers, intervals, rows_so_far))
        rows_so_far += len(volumes[-1]) - 1
    return volumes


def path_row(first, later):
    """Document 02, (iii): “Path 1 less path k equals 0”. “An interval on both paths cancels
    and leaves no term.”"""
    terms = [(index, 1) for index in first if index not in later]
    terms += [(index, -1) for index in later if index not in first]
    return Row(EQUAL, 0, sorted(terms), None)


def path_rows(volumes):
    """Document 02, (iii): such a row “is added ... in text order, as an equal row like any
    other for each later path”. So two equal paths have one too, without terms, and a volume
    of one path has none."""
    return [path_row(paths[0], later) for paths in volumes for later in paths[1:]]


def read_sections(data):
    """The three sections of a text. Returns the columns, the rows that the text states, and
    the volumes."""
    numbers = Numbers(data)
    intervals, columns, rows = read_front(numbers)
    volumes = read_volumes(numbers, intervals, len(rows))
    numbers.end()
    return columns, rows, volumes


def is_wanted(column):
    """Whether a column has a goal."""
    _, _, low, _ = column
    return has_goal(low)


def neighbours_of(j, columns, rows):
    """Document 02, (ii): “all intervals with a goal that have a nonzero coefficient in some
    row with it, each counted once”. They are a set, so that one that shares two rows with
    interval j is in it once. A row's terms name intervals alone, with coefficients other
    than 0, so that no slack and no absent interval is among them. Rows are all rows, those
    of paths too (document 02, (iii): “an equal row like any other”)."""
    beside = set()
    for row in rows:
        named = {index for index, _ in row.terms}
        if j in named:
            beside |= named
    return {h for h in beside if is_wanted(columns[h])}


def neighbour_ideal(j, columns, rows):
    """Document 02, (ii): “From now on the reader gives such an interval an ideal: the mean,
    rounded down, of the ideals of all intervals with a goal that ...”, where an ideal is
    that of the pair of goals, in the bounds. None where it is unset: “if there are none”."""
    ideals = []
    for h in neighbours_of(j, columns, rows):
        lower, upper, low, high = columns[h]
        ideals.append(into_bounds(goal_ideal(low, high), lower, upper))
    return sum(ideals) // len(ideals) if ideals else None


def put_ideals(deck, intervals, columns, rows):
    """“such an interval” has no goal. “It is unset ... for slacks”, which are the columns
    after the intervals."""
    for j in range(intervals):
        mean = None if is_wanted(columns[j]) else neighbour_ideal(j, columns, rows)
        if mean is not None:
            deck.given[j] = 1
            deck.ideals[j] = mean


def fill_deck(deck, columns, rows):
    """“The reader fills buffers of the largest size ..., n to a row without gaps; the
    rest becomes 0.”"""
    n, m = len(columns), len(rows)
    blank = Deck()
    for j, (lower, upper, low, high) in enumerate(columns):
        blank.lower[j] = lower
        blank.upper[j] = upper
        blank.low[j] = low
        blank.high[j] = high
    for i, row in enumerate(rows):
        # the number of an even row is the least y; its right side is 0
        blank.rights[i] = 0 if row.kind == EVEN else row.number
        for j, coefficient in row.terms:
            blank.coefficients[i * n + j] = coefficient
        if row.y is not None:
            blank.coefficients[i * n + row.y] = Y_COEFFICIENT[row.kind]
    deck.n = n
    deck.m = m
    deck.intervals = n - sum(row.y is not None for row in rows)
    put_ideals(blank, deck.intervals, columns, rows)
    for name in PROBLEM_LISTS:
        getattr(deck, name)[:] = getattr(blank, name)


def wrong_length(deck):
    """“A wrong length is refusal 2, before the text is looked at”."""
    return (len(deck.coefficients) != MAX_COEFFICIENTS
            or len(deck.rights) != MAX_ROWS
            or len(deck.lower) != MAX_COLUMNS
            or len(deck.upper) != MAX_COLUMNS
            or len(deck.low) != MAX_COLUMNS
            or len(deck.high) != MAX_COLUMNS
            or len(deck.given) != MAX_COLUMNS
            or len(deck.ideals) != MAX_COLUMNS)


def read(data, deck=None):
    """Reads a text (bytes) into a lent deck, or into a new one. Returns the filled
    deck, or a refusal's number; a refused text leaves the deck as before."""
    if deck is None:
        deck = Deck()
    if wrong_length(deck):
        return WRONG_LENGTH
    # “then a text over 32,768 bytes is 11”
    if len(data) > MAX_TEXT:
        return NOT_AS_LAID_OUT
    try:
        columns, rows, volumes = read_sections(data)
    except Refused as refused:
        return refused.number
    # “after all rows so far”
    fill_deck(deck, columns, rows + path_rows(volumes))
    return deck
