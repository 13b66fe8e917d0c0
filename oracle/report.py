"""The report on a sheet. As a program: a sheet on standard input, the report
on standard output.

Document 01, "Worked figures": "set line: name, tasks, states; shield
line: safe states, R, start's entry; rows: first index, then up to eight
entries, only if S is at most 64; a refusal prints, in place of all these,
one line with `refused`, number and place; every line ends in LF".
"""

import sys

from refusal import Refused
from sets import MOST_STATES, test_set
from sheets import MOST_BYTES, read_sheet
from shield import build

ROOM = 42 + 36 + 8 * 39  # a set line, a shield line and eight rows fit in it


def lines_with(sheet, table, work):
    """The report's lines; the shield goes to the table."""
    try:
        task_set = read_sheet(sheet)
        safe, rounds, entry = build(task_set, table, work)
    except Refused as refusal:
        return "refused %d %d\n" % (refusal.number, refusal.place)
    states = test_set(task_set)
    name = task_set.name.rstrip(b"\0").decode("ascii")
    lines = ["set %s tasks %d states %d" % (name, task_set.count, states),
             "shield %d rounds %d start %d" % (safe, rounds, entry)]
    if states <= 64:
        for first in range(0, states, 8):
            entries = " ".join(str(e) for e in table[first:min(first + 8, states)])
            lines.append("row %d %s" % (first, entries))
    return "".join(line + "\n" for line in lines)


def report_text(sheet):
    """The lines where there is room for every table."""
    return lines_with(sheet, bytearray(MOST_STATES), bytearray(MOST_STATES))


def report(sheet, table, work, output):
    """The length of the report, which goes to the output; refusal 7 if that
    has not the length that every report fits in."""
    if len(output) < ROOM:
        raise Refused(7, ROOM)
    text = lines_with(sheet, table, work).encode("ascii")
    output[:len(text)] = text
    return len(text)


if __name__ == "__main__":
    # One byte more than a sheet may have is enough to see that it is over.
    sys.stdout.write(report_text(sys.stdin.buffer.read(MOST_BYTES + 1)))
