"""What was measured, as a table, a list of targets and the plot's series."""

import statistics

VERDICTS = {1: "FITTED", 2: "OUTSIDE", 3: "SPENT"}
REFUSALS = {7: "refused 7", 8: "NONE", 9: "refused 9"}

FORMS = ["ours form", "tuned form", "flint form", "pari form"]
WHOLES = ["ours", "tuned", "plain"]
AIMS = [" sum", " largest"]

# Times are in microseconds, instructions in thousands.
HEAD = ["deck", "n × m, r", "answer", "form: ours, at most", "tuned", "FLINT", "PARI",
        "whole: ours", "tuned", "plain", "ours / tuned",
        "GLPK: sum / largest", "lp_solve: sum / largest",
        "instructions, form: ours / tuned / plain", "whole: ours / tuned / plain"]

# The targets that docs/PERFORMANCE.md names.
MOST_OVER_TUNED = 2
MOST_OVER_TUNED_HERE = 1.5
PARI_COLUMNS = 16
# What a tuned engine took before, and FLINT's form beside it, in microseconds: ratios that any machine can be held to.
REFERENCE = {"mapped-16-1": (3.5, 37), "mapped-48-1": (43, 614), "mixed-48-2": (70, 476),
             "paved-48-1": (114, 359), "tied-48-1": (41, 699), "parity-16-1": (2.7, 22),
             "slow-48-1": (809, 717)}
SEARCH_DECK = "worst-48-1"
SEARCH_MICROSECONDS = 1000
# How many decks a line names where a target is not met.
MOST_NAMED = 8
PLOTTED = "mixed-"
PLOTTED_SEED = "-2"


class Result:
    """What was measured of one deck: times in microseconds and instruction counts by engine."""

    def __init__(self, name, n, m, rank, number, verdict, bounds, goals):
        self.name = name
        self.n, self.m, self.rank = n, m, rank
        self.number, self.verdict = number, verdict
        self.steps = (bounds, goals)
        self.times = {}
        self.rounds = {}
        self.notes = {}
        self.counts = {}
        self.has_goals = True

    def answer(self):
        if self.number != 0:
            return REFUSALS[self.number]
        return "%s %d %d" % (VERDICTS[self.verdict], *self.steps)

    def add_rounds(self, engine, rounds):
        """The times of an engine's rounds; their median is its time."""
        self.rounds[engine] = rounds
        self.times[engine] = statistics.median(rounds)

    def ratio(self, one, other):
        """How many times one engine's time is the other's; None where either is missing.

        Where both have all rounds it is the median of the rounds' own ratios: in a round both are timed
        right after each other, so that a machine that goes slower for a while slows both.
        """
        if one not in self.times or other not in self.times:
            return None
        ones, others = self.rounds[one], self.rounds[other]
        if len(ones) != len(others):
            return self.times[one] / self.times[other]
        return statistics.median(a / b for a, b in zip(ones, others))


# ------------------------------------------------------------------- the table

def number(value):
    """Three digits where there are fewer, thousands parted."""
    if value is None:
        return "–"
    return "%.1f" % value if value < 100 else "{:,.0f}".format(value)


def time_cell(result, name):
    """A time with what is to be said of it."""
    note = result.notes.get(name, "")
    if note in ("no answer", "cut off"):
        return note
    words = number(result.times.get(name))
    return "%s, %s" % (words, note) if note else words


def solver_cell(result, solver):
    """The times of both aims."""
    return " / ".join(time_cell(result, solver + aim) for aim in AIMS)


def counts_cell(result, kind):
    """Thousands of instructions of each engine."""
    counts = [result.counts.get(engine + kind) for engine in WHOLES]
    return " / ".join(number(count and count / 1000) for count in counts)


def cells(result):
    rank = "–" if result.number == 7 else result.rank
    row = [result.name, "%d × %d, %s" % (result.n, result.m, rank), result.answer()]
    row += [time_cell(result, name) for name in FORMS + WHOLES]
    row.append(number(result.ratio("ours", "tuned")))
    row += [solver_cell(result, "glpk"), solver_cell(result, "lpsolve")]
    row += [counts_cell(result, " form"), counts_cell(result, "")]
    return row


def table(results):
    rows = [HEAD, ["---"] * 3 + ["--:"] * (len(HEAD) - 3)] + [cells(r) for r in results]
    return "\n".join("| " + " | ".join(row) + " |" for row in rows)


# ----------------------------------------------------------------- the targets

def judge(words, ratios, most=1):
    """A line on a target: ratios is [(deck, ours by theirs)], which must not pass most."""
    ratios = sorted(((ratio, deck) for deck, ratio in ratios if ratio is not None), reverse=True)
    if not ratios:
        return "- %s: not measured" % words
    over = [(ratio, deck) for ratio, deck in ratios if ratio > most]
    named = ", ".join("%.2f on %s" % pair for pair in (over or ratios)[:MOST_NAMED if over else 1])
    if over:
        return "- %s: **not met** on %d of %d decks; ours by theirs is %s%s" % (
            words, len(over), len(ratios), named, " .." if len(over) > MOST_NAMED else "")
    where = "on all %d decks" % len(ratios) if len(ratios) > 1 else "there"
    return "- %s: **met** %s; ours by theirs is at most %s" % (words, where, named)


def against(results, ours, theirs):
    """Our time by theirs on each deck. A refused elimination is not the same work."""
    return [(r.name, r.ratio(ours, theirs)) for r in results if r.number != 7]


def against_solver(results, solver):
    """Our time by the solver's for the aim that it is faster with, on the decks with goals."""
    ratios = []
    for result in results:
        both = [result.ratio("ours", solver + aim) for aim in AIMS]
        if result.has_goals and result.number != 7 and None not in both:
            ratios.append((result.name, max(both)))
    return ratios


def against_reference(results):
    """Our time by the reference's on each of its decks, taken over by way of FLINT's form."""
    ratios = []
    for result in results:
        if result.name in REFERENCE:
            tuned, flint = REFERENCE[result.name]
            ratio = result.ratio("ours", "flint form")
            ratios.append((result.name, ratio and ratio * flint / tuned))
    return ratios


def search_target(results):
    """A search that tries all moves of 48 vectors."""
    words = "- a whole assignment with a full search over 48 vectors in under 1 ms: "
    for result in results:
        if result.name == SEARCH_DECK:
            met = result.times["ours"] < SEARCH_MICROSECONDS
            return words + "**%s**, %s µs" % ("met" if met else "not met",
                                              number(result.times["ours"]))
    return words + "not measured"


def targets(results):
    large = [r for r in results if r.n >= PARI_COLUMNS]
    return "\n".join([
        judge("form faster than FLINT's", against(results, "ours form", "flint form")),
        judge("form faster than PARI's, from 16 columns on",
              against(large, "ours form", "pari form")),
        judge("whole assignment faster than GLPK, where there are goals",
              against_solver(results, "glpk")),
        judge("whole assignment faster than lp_solve, where there are goals",
              against_solver(results, "lpsolve")),
        judge("whole assignment within twice a tuned engine's time of before, by way of FLINT's form",
              against_reference(results), MOST_OVER_TUNED),
        judge("whole assignment within 1.5 times the time of the tuned engine here",
              against(results, "ours", "tuned"), MOST_OVER_TUNED_HERE),
        search_target(results)])


# -------------------------------------------------------------------- the plot

SERIES = [("lp_solve, largest", "lpsolve largest", "#c2185b", True),
          ("GLPK, largest", "glpk largest", "#8a5a00", True),
          ("plain engine", "plain", "#777777", False),
          ("FLINT, form", "flint form", "#b02a2a", True),
          ("PARI, form", "pari form", "#7a3fa0", True),
          ("tuned engine", "tuned", "#2c8a3d", False),
          ("Koralimbu", "ours", "#0b5cad", False),
          ("Koralimbu, form (at most)", "ours form", "#0b5cad", True)]
PLOT_TITLE = "Mixed decks: time of one call"
PLOT_NOTES = ["solid: whole assignments; form: the Hermite form alone",
              "largest: an integer program of the deck, for the least largest |v − g| / g"
              " (v intervals, g goal)"]


def series(results):
    """The plot's lines: times of the mixed decks by their columns.

    What was cut off or is wrong has no point.
    """
    mixed = sorted((r for r in results
                    if r.name.startswith(PLOTTED) and r.name.endswith(PLOTTED_SEED)),
                   key=lambda r: r.n)
    return [(label, [(r.n, r.times[name]) for r in mixed if name in r.times and not r.notes[name]],
             colour, dashed) for label, name, colour, dashed in SERIES]
