"""What crates/report_cases has to print, as the reader and the builder of this folder answer.

    python3 oracle/report_cases.py | cmp - crates/report_cases/stdout
"""

import sys

from refusal import Refused
from report import report


def answer_to(sheet, table, work, output):
    try:
        return f" length {report(sheet, table, work, output)}"
    except Refused as f:
        return f" refused {f.number} place {f.place}"


def changed(buffer):
    return len(buffer.rstrip(b"."))


def show(label, sheet, table, work, output):
    """Buffers are given as lengths."""
    table, work, output = (bytearray(b"." * n) for n in (table, work, output))
    answer = answer_to(sheet, table, work, output)
    print(f"{label}:{answer} changed {changed(output)} {changed(table)} {changed(work)}")
    sys.stdout.write(output.rstrip(b".").decode())


def sheet(name, *tasks):
    return "".join(line + "\n" for line in (f"set {name}",) + tasks).encode()


PAIR = sheet("PAIR", "hard 2 1 2", "hard 2 1 2")

SHEETS = [
    ("two tasks", PAIR),
    ("one row", sheet("ONE", "hard 1 1 1")),
    ("a shorter last row", sheet("EXAMPLE-1", "hard 2 1 3", "soft 2 1,2 3")),
    ("64 states", sheet("SWEEP", "hard 2 1 2", "hard 3 1 4", "soft 1 1 1")),
    ("72 states", sheet("SIXTEEN-LETTERS-", "hard 2 1 3", "soft 3 2 4")),
    ("six tasks", sheet("SIX", *["soft 1 1 1"] * 6)),
    ("seven tasks", sheet("SEVEN", *["soft 1 1 1"] * 7)),
    ("1,025 bytes", b"A" * 1025),
    ("1,024 bytes", b"A" * 1024),
    ("no bytes", b""),
    ("no such deadline", b"set PAIR\nhard 17"),
    ("no last LF", b"set A\nhard 1 1 1"),
    ("list not rising", sheet("A", "hard 1 1 1", "hard 2 2,1 2")),
    ("run time above deadline", sheet("A", "hard 1 1 1", "hard 2 3 3")),
    ("gap below deadline", sheet("A", "hard 2 1 1", "hard 2 3 3")),
    ("60,928 states", sheet("A", "hard 16 16 16", "hard 13 13 16")),
    ("no safe schedule", sheet("A", "hard 2 1,2 2", "hard 2 1 2")),
]


def cases():
    for label, text in SHEETS:
        show(label, text, 128, 128, 390)
    show("output of 389 bytes", PAIR, 16, 16, 389)
    show("output of 389 bytes, no sheet", b"", 16, 16, 389)
    show("no output", PAIR, 16, 16, 0)
    show("table of 15 bytes", PAIR, 15, 16, 391)
    show("work of 15 bytes", PAIR, 16, 15, 391)
    show("table and work of 16 bytes", PAIR, 16, 16, 391)
    show("60,000 states", sheet("LARGE", "soft 14 14 16", "hard 1 1 5", "hard 5 1,4 5"), 60000, 60000, 390)


if __name__ == "__main__":
    cases()
