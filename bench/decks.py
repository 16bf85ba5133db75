"""Decks as a ship's structure gives them, for timing.

    python3 bench/decks.py FAMILY N SEED

prints one deck of about N columns, the y columns counted. The same family, size
and seed always give the same deck. How each structure becomes rows:

    mapped panel       left − right = 0 and top − bottom = 0
    submapped panel    the same with sides of several curves; a notch is a − b ≥ 1
    paved panel        the loop of its curves is even, its half at least 2
    round hole         one curve, even, its half at least 3
    midpoint triangle  sides A, B, C: A + B − C ≥ 2, A + C − B ≥ 2, B + C − A ≥ 2
    radish r-s         a side of r tied curves opposite one of s tied curves
    tied chain         each curve equals the next
    prescribed curve   v = number
    heat sink          the short curves of a crenellated side add up to its long one
    parity conflict    a paved loop of tied pairs and one odd curve: no whole numbers
    bounds conflict    a midpoint triangle whose bounds break it: OUTSIDE
"""

import math
import random
import sys

MAX_COLUMNS = 48
MAX_ROWS = 48
MAX_BOUND = 1000000
MAX_GOAL = 1000000000

EQUAL, AT_LEAST, EVEN = 0, 1, 3

# How often a random structure that does not fit is drawn anew.
DRAWS = 5000


class Deck:
    """Curves (lower, upper, goal) and rows (kind, number, terms); curves count from 1. Each
    belongs to one part, so that its goal is its low and its high one."""

    def __init__(self):
        self.curves = []
        self.rows = []

    def curve(self, goal, lower=1, upper=MAX_BOUND):
        """A new curve; returns its number."""
        self.curves.append((lower, upper, goal))
        return len(self.curves)

    def row(self, kind, number, terms):
        """A row; terms of the same curve are added up."""
        sums = {}
        for curve, coefficient in terms:
            sums[curve] = sums.get(curve, 0) + coefficient
        kept = sorted((curve, c) for curve, c in sums.items() if c != 0)
        self.rows.append((kind, number, kept))

    def equal(self, side, opposite):
        """The curves of two sides add up to the same."""
        self.row(EQUAL, 0, [(c, 1) for c in side] + [(c, -1) for c in opposite])

    def prescribed(self, curve, number):
        self.row(EQUAL, number, [(curve, 1)])

    def even(self, loop, least_half=2):
        self.row(EVEN, least_half, [(c, 1) for c in loop])

    def mapped(self, panel):
        top, right, bottom, left = panel
        self.equal(top, bottom)
        self.equal(left, right)

    def tied(self, chain):
        for curve, following in zip(chain, chain[1:]):
            self.equal([curve], [following])

    def midpoint(self, a, b, c):
        """No side of a midpoint triangle is longer than the other two together."""
        for one, other, rest in ((a, b, c), (a, c, b), (b, c, a)):
            self.row(AT_LEAST, 2, [(i, 1) for i in one + other] + [(i, -1) for i in rest])

    def columns(self):
        return len(self.curves) + sum(1 for kind, _, _ in self.rows if kind != EQUAL)

    def fits(self, n):
        """Within the limits, and of about n columns."""
        return n - 3 <= self.columns() <= min(n, MAX_COLUMNS) and len(self.rows) <= MAX_ROWS

    def text(self):
        lines = [str(len(self.curves))]
        lines += ["%d %d %d %d" % (lower, upper, goal, goal)
                  for lower, upper, goal in self.curves]
        lines.append(str(len(self.rows)))
        for kind, number, terms in self.rows:
            pairs = ["%d %d" % term for term in terms]
            lines.append(" ".join(["%d %d %d" % (kind, number, len(terms))] + pairs))
        # no volumes
        lines.append("0")
        return "\n".join(lines) + "\n"


# ------------------------------------------------------------ panels of a plate

def size_field(rng):
    """A mesh size that changes smoothly over the plate, in one direction."""
    least = rng.choice([0.02, 0.03, 0.05, 0.08])
    growth = rng.choice([1.0, 1.5, 2.5, 4.0])
    angle = rng.random() * 2 * math.pi

    def size(x, y):
        along = 0.5 + 0.5 * (math.cos(angle) * (x - 0.5) + math.sin(angle) * (y - 0.5))
        return least * (1 + (growth - 1) * max(0.0, min(1.0, along)))

    return size


def goal_of(length, size):
    """Length over mesh size, in thousandths of an interval."""
    return max(1, min(MAX_GOAL, int(round(1000 * length / size))))


def seams(rng, count):
    """Where the seams lie that part a plate of width 1 into count strips."""
    inner = [(j + rng.uniform(-.3, .3)) / count for j in range(1, count)]
    return sorted([0] + inner + [1])


class Panels:
    """A plate of down × across panels. A panel's edge may be split into curves."""

    def __init__(self, deck, rng, down, across, split=0.0):
        self.deck, self.rng, self.split = deck, rng, split
        self.size = size_field(rng)
        xs, ys = seams(rng, across), seams(rng, down)
        self.horizontal = {
            (i, j): self.edge(xs[j + 1] - xs[j], (xs[j] + xs[j + 1]) / 2, ys[i])
            for i in range(down + 1) for j in range(across)}
        self.vertical = {
            (i, j): self.edge(ys[i + 1] - ys[i], xs[j], (ys[i] + ys[i + 1]) / 2)
            for i in range(down) for j in range(across + 1)}
        self.places = [(i, j) for i in range(down) for j in range(across)]

    def edge(self, length, x, y):
        """The one to three curves of an edge round (x, y)."""
        pieces = 1
        while self.rng.random() < self.split and pieces < 3:
            pieces += 1
        ends = [0] + sorted(self.rng.uniform(.2, .8) for _ in range(pieces - 1)) + [1]
        curves = []
        for start, end in zip(ends, ends[1:]):
            long = max(length * (end - start) * self.rng.uniform(.9, 1.15), .01)
            curves.append(self.deck.curve(goal_of(long, self.size(x, y))))
        return curves

    def panel(self, i, j):
        """Top, right, bottom and left side, each a list of curves."""
        return (self.horizontal[i, j], self.vertical[i, j + 1],
                self.horizontal[i + 1, j], self.vertical[i, j])

    def all(self):
        return [self.panel(i, j) for i, j in self.places]


def edges(down, across):
    return down * (across + 1) + across * (down + 1)


def plate_for(n, columns=edges):
    """The plate (down, across) with most columns, at most n, but never less than a panel;
    squarer ones first."""
    plates = [(columns(p, q), -abs(p - q), -p, -q)
              for p in range(1, 8) for q in range(p, 24) if columns(p, q) <= n]
    _, _, down, across = max(plates, default=(0, 0, -1, -1))
    return -down, -across


def first_fitting(n, draw):
    """The first of many random decks that fits; None if none does."""
    for _ in range(DRAWS):
        deck = draw()
        if deck.fits(n):
            return deck
    return None


# --------------------------------------------------------------------- families

def mapped(n, rng):
    """A plate of mapped panels."""
    deck = Deck()
    for panel in Panels(deck, rng, *plate_for(n)).all():
        deck.mapped(panel)
    return deck


def submapped(n, rng):
    """A plate of submapped panels with split edges, some with a notch."""
    def draw():
        deck = Deck()
        for panel in Panels(deck, rng, *plate_for(max(n * 2 // 3, 4)), split=.4).all():
            deck.mapped(panel)
            top = panel[0]
            if rng.random() < .2 and len(top) > 1:
                deck.row(AT_LEAST, 1, [(top[0], 1), (top[1], -1)])
        return deck

    return first_fitting(n, draw)


def paved(n, rng):
    """A plate of paved panels, then round holes while there is room."""
    deck = Deck()
    plate = plate_for(n, lambda p, q: edges(p, q) + p * q)
    for top, right, bottom, left in Panels(deck, rng, *plate).all():
        deck.even(top + right + bottom + left)
    while deck.columns() + 2 <= n:
        deck.even([deck.curve(goal_of(rng.uniform(.1, .4), .05))], 3)
    return deck


def fan(count, rng, size):
    """Midpoint triangles round a hub: neighbours share a spoke, rims have 1 or 2 curves."""
    deck = Deck()
    spokes = [deck.curve(goal_of(rng.uniform(.3, .6), size(.5, .5))) for _ in range(count)]
    for t in range(count):
        rim = [deck.curve(goal_of(rng.uniform(.15, .5), size(rng.random(), rng.random())))
               for _ in range(rng.choice([1, 1, 2]))]
        deck.midpoint([spokes[t]], [spokes[(t + 1) % count]], rim)
    return deck


def midpoint(n, rng):
    """The largest fan of midpoint triangles that fits."""
    size = size_field(rng)
    for count in range(max(2, n // 5), 1, -1):
        deck = fan(count, rng, size)
        if deck.columns() <= n and len(deck.rows) <= MAX_ROWS:
            return deck
    return None


def radish(n, rng):
    """The largest radish that fits; below 5 columns 79-74, its ties folded into one row."""
    goal = rng.randrange(800, 200000)
    deck = Deck()
    if n < 5:
        deck.row(EQUAL, 0, [(deck.curve(goal), 79), (deck.curve(goal), -74)])
        return deck
    r, s = max(pair for pair in ((3, 2), (7, 5), (29, 19)) if sum(pair) <= n)
    side = [deck.curve(goal) for _ in range(r)]
    opposite = [deck.curve(goal) for _ in range(s)]
    deck.tied(side)
    deck.tied(opposite)
    deck.equal(side, opposite)
    return deck


def tied(n, rng):
    """Chains of tied curves; every third chain is as long as the two before it."""
    deck = Deck()
    chains = []
    while n - len(deck.curves) >= 2:
        length = min(n - len(deck.curves), rng.randrange(2, 9))
        base = rng.uniform(2, 40)
        chains.append([deck.curve(int(1000 * base * rng.uniform(.6, 1.7)))
                       for _ in range(length)])
        deck.tied(chains[-1])
    heads = [chain[0] for chain in chains]
    for i in range(2, len(heads), 2):
        deck.equal([heads[i - 2], heads[i - 1]], [heads[i]] * (2 if rng.random() < .3 else 1))
    return deck


def heatsink(n, rng):
    """Two crenellated sides of k short curves each; the long side is prescribed at 1.5 k."""
    k = (n - 2) // 2
    deck = Deck()
    short = [deck.curve(1500) for _ in range(k)]
    opposite = [deck.curve(1500) for _ in range(k)]
    long, far = deck.curve(1500 * k), deck.curve(1500 * k)
    deck.equal(short, [long])
    deck.equal(opposite, [far])
    deck.prescribed(long, 3 * k // 2)
    deck.equal([long], [far])
    return deck


def mix_panel(deck, panel, chance):
    """65 in 100 panels are mapped (submapped where an edge is split), 25 paved, 10 midpoint."""
    top, right, bottom, left = panel
    if chance < .65:
        deck.mapped(panel)
    elif chance < .9:
        deck.even(top + right + bottom + left)
    else:
        deck.midpoint(top, left + bottom, right)


def mixed(n, rng):
    """A plate whose panels have their schemes by chance, half the time with a prescribed curve."""
    def draw():
        deck = Deck()
        plate = plate_for(max(4, n - rng.randrange(0, n // 2 + 1)))
        for panel in Panels(deck, rng, *plate, split=.15).all():
            mix_panel(deck, panel, rng.random())
        if rng.random() < .5:
            curve = rng.randrange(len(deck.curves))
            deck.prescribed(curve + 1, max(1, deck.curves[curve][2] // 1000))
        return deck

    return first_fitting(n, draw)


def parity(n, rng):
    """A paved loop of tied pairs and one curve prescribed odd: no whole numbers satisfy it."""
    deck = Deck()
    loop = []
    for _ in range(max(1, (n - 2) // 2)):
        goal = rng.randrange(1500, 30000)
        pair = [deck.curve(goal), deck.curve(int(goal * rng.uniform(.7, 1.4)))]
        deck.tied(pair)
        loop += pair
    odd = deck.curve(5000)
    deck.prescribed(odd, rng.choice([3, 5, 7, 9]))
    deck.even(loop + [odd])
    return deck


def outside(n, rng):
    """A midpoint triangle whose rim must be longer than both spokes may be; then tied pairs."""
    deck = Deck()
    spokes = [deck.curve(5000, 1, 6), deck.curve(5000, 1, 6)]
    rim = deck.curve(20000, 15, 30)
    deck.midpoint(spokes[:1], spokes[1:], [rim])
    while deck.columns() + 2 <= n:
        deck.tied([deck.curve(rng.randrange(1500, 9000)) for _ in range(2)])
    return deck


def slow(n, rng):
    """A tied chain without goals, its last curve at least 4,000: a step for each interval."""
    deck = Deck()
    chain = [deck.curve(0) for _ in range(n - 1)]
    deck.tied(chain + [deck.curve(0, 4000)])
    return deck


def worst(n, rng):
    """No rows: n vectors, every curve at its ideal, so that one search tries all moves."""
    deck = Deck()
    for _ in range(n):
        deck.curve(rng.randrange(1500, 90000))
    return deck


def dense(n, rng):
    """No ship: random coefficients, whose numbers grow in the elimination."""
    deck = Deck()
    for _ in range(n):
        deck.curve(rng.choice([0, rng.randrange(1000, 50000)]))
    for _ in range(max(1, n // 3)):
        deck.row(EQUAL, 0, [(i + 1, rng.randrange(-2, 3))
                            for i in range(n) if rng.random() < .35])
    return deck


FAMILIES = {family.__name__: family for family in (
    mapped, submapped, paved, midpoint, radish, tied, heatsink, mixed, parity, outside,
    slow, worst, dense)}


def make(family, n, seed):
    """The deck, or None where the family has none of about n columns."""
    return FAMILIES[family](n, random.Random("%s/%d/%d" % (family, n, seed)))


def main(words):
    if len(words) != 3 or words[0] not in FAMILIES or not all(map(str.isdecimal, words[1:])):
        sys.exit("usage: decks.py FAMILY N SEED, with a family of: " + " ".join(FAMILIES))
    deck = make(words[0], int(words[1]), int(words[2]))
    if deck is None:
        sys.exit("no deck of this size")
    sys.stdout.write(deck.text())


if __name__ == "__main__":
    main(sys.argv[1:])
