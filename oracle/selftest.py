"""The oracle's self-test. Exits with 1 if there is a difference.

First the figures of document 01 (P1 to P12 and the others), then the
cases in which two careful readers could differ, then comparisons of
the oracle with slower or different definitions of the same things,
then replay, the example of docs/REPLAY.md, made batches and the
stored batch.
"""

import sys

import selftest_figures
import selftest_others
import selftest_replay
import selftest_runs
import selftest_sets
from selftest_base import tally


def main():
    for module in (selftest_figures, selftest_sets, selftest_runs,
                   selftest_others, selftest_replay):
        for part in module.PARTS:
            before = tally["compared"]
            part()
            print("%s: %d compared" % (part.__name__,
                                       tally["compared"] - before))
    print("%d compared, %d differences" % (tally["compared"],
                                           tally["differences"]))
    return 1 if tally["differences"] else 0


if __name__ == "__main__":
    sys.exit(main())
