"""batch.py: the stored command text, which the program `replay` is run on.

A batch made from seed 1; what docs/REPLAY.md says of lines and buffers, by
make_lines.py; a reset, and the figures and cases of make_cases.py. The last
line has no LF, so that this is tried too.
"""

import sys

import make
from make_cases import all_cases
from make_lines import all_lines

SEED = 1
COUNT = 4000


def batch():
    lines = list(all_lines()) + ["reset"]
    for case in all_cases():
        lines += case
    return make.Maker(SEED, COUNT).make() + "\n".join(lines).encode("latin-1")


if __name__ == "__main__":
    sys.stdout.buffer.write(batch())
