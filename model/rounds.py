"""Document 02, (vii), in the plain model: “A ceiling on elimination rounds.”

rounds_by(problem, quotient) tells the rounds that the elimination takes by a quotient, and
kinds(case, outcome) which of KINDS a call shows: what there is to be told apart of the nearest
and the rounded-down quotient, of halves, and of refusals that come after rounds.
"""

import engine
from engine import (NO_WHOLE_NUMBERS, SEATING_BEYOND, bring_to_form, fill, first_cause,
                    list_not_fit, nearest, rounded_down, starting_list)

DOWN_ALONE = "7 by the rounded-down quotient alone"
NEAREST_ALONE = "7 by the nearest quotient alone"
KINDS = ["a round for each column and no more", "more rounds than columns",
         "other rounds by the rounded-down quotient", "other rounds if halves went down",
         "8 after rounds", "9 after rounds", "7 by both quotients", DOWN_ALONE, NEAREST_ALONE]


def half_down(entry, p):
    """A wrong answer: the nearest quotient, where a half goes down."""
    return -nearest(-entry, p)


def rounds_by(problem, quotient, right_side=True):
    """The rounds of each table column that has a pivot, by this quotient; None where refusal
    7 is met, by the right side too unless that is left out."""
    table = fill(problem)
    try:
        leads, rounds = bring_to_form(table, quotient)
        if right_side:
            starting_list(table, leads, problem.rights)
    except engine.Beyond:
        return None
    return rounds


def kinds_refused(by_nearest, by_down, outcome):
    """Which of KINDS a call shows by its refusal after the tableau was begun."""
    shown = []
    if by_nearest is None:
        shown.append("7 by both quotients" if by_down is None else NEAREST_ALONE)
    elif by_down is None:
        shown.append(DOWN_ALONE)
    if outcome in (NO_WHOLE_NUMBERS, SEATING_BEYOND):
        shown.append("%d after rounds" % outcome)
    return shown


def kinds_counted(problem, by_nearest, by_down):
    """Which of KINDS a call with a verdict shows by its rounds."""
    halved = rounds_by(problem, half_down, False)
    found = {
        "a round for each column and no more": sum(by_nearest) == problem.n,
        "more rounds than columns": sum(by_nearest) > problem.n,
        "other rounds by the rounded-down quotient": by_down not in (None, by_nearest),
        "other rounds if halves went down": halved is not None
                                            and sum(halved) != sum(by_nearest),
    }
    return [kind for kind in KINDS if found.get(kind)]


def kinds(case, outcome):
    """Which of KINDS a call shows that the model answers so; it must not have been made yet,
    since Continue's list is looked at."""
    problem = case.problem
    whole = case.call == "assign"
    if first_cause(problem, case.lent) or not whole and list_not_fit(problem, case.lent.values):
        return []
    by_nearest, by_down = (rounds_by(problem, quotient, whole)
                           for quotient in (nearest, rounded_down))
    shown = kinds_refused(by_nearest, by_down, outcome)
    if not isinstance(outcome, int):
        shown += kinds_counted(problem, by_nearest, by_down)
    return shown
