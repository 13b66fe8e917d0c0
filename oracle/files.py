"""Table files, written and opened.

Document 01, "Table file": "Mark `SHT`; version 1 as 16 bits; name, 16
bytes, padded with zero bytes; task count, one byte; per task six bytes:
kind (0 soft, 1 hard), D, C and A as 16 bits each; S as 32 bits; S
entries. Low byte first. Length 26 + 6n + S."
"""

from refusal import Refused
from sets import test_set
from shield import lowest_fault

MARK = b"SHT"
VERSION = (1).to_bytes(2, "little")
COMPARED_FROM = 5


def header(task_set, states):
    parts = [MARK, VERSION, task_set.name, bytes([task_set.count])]
    for task in task_set.tasks[:task_set.count]:
        parts.append(bytes([task.kind, task.deadline]))
        parts.append(task.runs.to_bytes(2, "little"))
        parts.append(task.gaps.to_bytes(2, "little"))
    parts.append(states.to_bytes(4, "little"))
    return b"".join(parts)


def write_file(task_set, table, file):
    """The length, or a refusal. "File writing: 7 (table, file), 13."

    "Writing tests the table before it stores anything, answers the length,
    and changes no byte beyond it."
    """
    states = test_set(task_set)
    if len(table) < states:
        raise Refused(7, states)
    head = header(task_set, states)
    length = len(head) + states
    if len(file) < length:
        raise Refused(7, length)
    fault = lowest_fault(task_set, states, table)
    if fault is not None:
        raise Refused(13, fault)
    file[:length] = head + bytes(table[:states])
    return length


def open_file(task_set, file):
    """The table part, or a refusal (with which goes an empty part).

    "Open: 9, 10, 12 (for bytes present), 11, 13."
    """
    states = test_set(task_set)
    if len(file) < 5 or file[0:3] != MARK:
        raise Refused(9, 0)
    if file[3:5] != VERSION:
        raise Refused(10, 3)
    head = header(task_set, states)
    for place in range(COMPARED_FROM, min(len(head), len(file))):
        if file[place] != head[place]:
            raise Refused(12, place)
    length = len(head) + states
    if len(file) != length:
        raise Refused(11, length)
    part = bytes(file[len(head):])
    fault = lowest_fault(task_set, states, part)
    if fault is not None:
        raise Refused(13, fault)
    return part
