"""Tests of the plain model: python3 model/test_model.py

Runs every deck case of document 01, every row of its table of refusals, the close
readings one by one, swept volumes, ideals handed in and the reader's, pairs of goals,
rounds of the elimination, problems stated anew, previews of the next step, joins of two parts,
properties of random problems, the sample decks, and what the page beside them says of verdicts; each room has its
file in tests/.
The last line printed is “N passed, M failed”, counted in single checks.
"""

import sys
import traceback

from tests import (calls, cases, form, generator, goals, ideals, joining, listings, previews,
                   reader, refusals, restated, rounds, settling, steps, tools, volumes, words)

ROOMS = [cases, refusals, reader, volumes, calls, form, rounds, settling, ideals, goals,
         restated, steps, previews, joining, generator, listings, words]


def main():
    for room in ROOMS:
        for function in tools.tests_of(room.__name__):
            try:
                function()
            except OSError as refused:
                # a file or a command that is missing: its name says it all
                tools.COUNTS["failed"] += 1
                print("FAILED %s: it stopped: %s" % (function.__name__, refused))
            except Exception:
                tools.COUNTS["failed"] += 1
                print("FAILED %s: it stopped" % function.__name__)
                traceback.print_exc(file=sys.stdout)
    print("%d passed, %d failed" % (tools.COUNTS["passed"], tools.COUNTS["failed"]))
    return 1 if tools.COUNTS["failed"] else 0


if __name__ == "__main__":
    sys.exit(main())
