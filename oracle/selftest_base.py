"""What the parts of the self-test share: the comparison, refusals as
values, and the set PAIR of document 01 with its table and file.
"""

import files
import game
import runs
import sets
import sheets
import shield
from refusal import Refused

tally = {"compared": 0, "differences": 0}


def same(what, got, expected):
    tally["compared"] += 1
    if got != expected:
        tally["differences"] += 1
        print("DIFFERENCE %s: got %r, expected %r" % (what, got, expected))


def answer(function, *arguments):
    """What a function answers, or its refusal as (number, place)."""
    try:
        return function(*arguments)
    except Refused as refusal:
        return ("refused", refusal.number, refusal.place)


def refused(number, place):
    return ("refused", number, place)


def sheet_of(*lines):
    return "".join(line + "\n" for line in lines).encode("ascii")


def set_of(*lines):
    """A set from its task lines."""
    return sheets.read_sheet(sheet_of("set TEST", *lines))


def task_of(kind, deadline, c_values, a_values):
    return sets.Task(kind, deadline, sets.bits_of(c_values),
                     sets.bits_of(a_values))


def build_of(task_set):
    """The builder's answer and table."""
    states = sets.state_number(task_set)
    table = bytearray(states)
    got = answer(shield.build, task_set, table, bytearray(states))
    return got, table


def run_at(task_set, index, awaited, ticks=10):
    """A run that fits, in the state of an index."""
    places = []
    for age, job in game.state_at(task_set, index):
        places.append(runs.Place(age, job, 2, 1 if job is not None else 2, 0))
    places += [runs.NO_PLACE] * (7 - task_set.count)
    return runs.Run(tuple(places), ticks, 0, 0, awaited)


PAIR = sheets.read_sheet(b"set PAIR\nhard 2 1 2\nhard 2 1 2\n")
PAIR_TABLE = bytes([6, 5, 2, 5, 3, 1, 2, 1, 4, 4, 0, 4, 3, 1, 2, 1])


def pair_with(index, entry):
    table = bytearray(PAIR_TABLE)
    table[index] = entry
    return table


def pair_file():
    file = bytearray(54)
    files.write_file(PAIR, PAIR_TABLE, file)
    return file
