"""What crates/sheet_cases reads and has to print, as the reader and the writer of this folder answer.

    python3 oracle/sheet_cases.py texts | cmp - crates/sheet_cases/stdin
    python3 oracle/sheet_cases.py answers | cmp - crates/sheet_cases/stdout
"""

import sys

import sheets
from refusal import Refused

ONE = "soft 1 1 1\n"
PAGE = 200  # room for every sheet that is taken here


def ones(n):
    return ",".join(["1"] * n)


CASES = [
    ("empty", ""),
    ("17 as a deadline", "set PAIR\nhard 17"),
    ("hard 1 followed by 0", "set PAIR\nhard 10"),
    ("16 taken", "set A\nhard 16 16 16\n"),
    ("17 in a list", "set A\nhard 2 1,17 2\n"),
    ("160", "set A\nhard 160 1 16\n"),
    ("19", "set A\nhard 19 1 16\n"),
    ("20", "set A\nhard 20 1 16\n"),
    ("0", "set A\nhard 0 1 1\n"),
    ("01", "set A\nhard 01 1 1\n"),
    ("a zero before 2, in a list", "set A\nhard 2 1,02 2\n"),
    ("two spaces", "set A\nhard  1 1 1\n"),
    ("two spaces before a list", "set A\nhard 1 1  1\n"),
    ("a space first", " set A\nhard 1 1 1\n"),
    ("a tab", "set A\nhard\t1 1 1\n"),
    ("a comma before a space", "set A\nhard 2 1, 2\n"),
    ("a comma first", "set A\nhard 2 ,1 2\n"),
    ("two commas", "set A\nhard 2 1,,2 2\n"),
    ("a comma last", "set A\nhard 2 1 2,\n"),
    ("two deadlines", "set A\nhard 2,3 1 2\n"),
    ("three lists", "set A\nhard 1 1 1 1\n"),
    ("CR before LF", "set A\nhard 1 1 1\r\n"),
    ("CR after the name", "set A\r\nhard 1 1 1\n"),
    ("a space before LF", "set A\nhard 1 1 1 \n"),
    ("no last LF", "set A\nhard 1 1 1"),
    ("cut short in a word", "set A\nso"),
    ("cut short after a comma", "set A\nhard 2 1,"),
    ("a blank line", "set A\nhard 1 1 1\n\n"),
    ("a blank line first", "\nset A\nhard 1 1 1\n"),
    ("no task", "set A\n"),
    ("a name in place of a kind", "set A\nset"),
    ("a second set", "set A\nhard 1 1 1\nset B\nhard 1 1 1\n"),
    ("a large letter in a kind", "set A\nHard 1 1 1\n"),
    ("no name", "set \nhard 1 1 1\n"),
    ("a small letter", "set Aa\nhard 1 1 1\n"),
    ("a space in a name", "set A B\nhard 1 1 1\n"),
    ("16 characters", "set ABCDEFGHIJ-01239\nhard 1 1 1\n"),
    ("17 characters", "set ABCDEFGHIJ-012398\nhard 1 1 1\n"),
    ("seven tasks", "set A\n" + ONE * 7),
    ("an eighth task", "set A\n" + ONE * 8),
    ("an eighth line of any kind", "set A\n" + ONE * 7 + "?"),
    ("PAIR", "set PAIR\nhard 2 1 2\nhard 2 1 2\n"),
    ("3,5,9 is 276", "set A-9\nsoft 9 3,5,9 9,10,16\n"),
    ("all values", "set A\nhard 16 1,2,3,4,5,6,7,8,9,10,11,12,13,14,15,16 16\nsoft 1 1 1,2,3,4,5,6,7,8,9,10,11,12,13,14,15,16\n"),
    ("equal neighbours", "set A\nhard 2 1,1 2\n"),
    ("falling", "set A\nhard 2 1 3,2\n"),
    ("3 at task 2", "set A\nhard 2 1 2\nhard 2 2,1 2\nhard 2 2,1 2\n"),
    ("3 before 4", "set A\nhard 2 3 2,2\n"),
    ("3 before 5", "set A\nhard 2 1 1,1\n"),
    ("4 before 5", "set A\nhard 2 3 1\n"),
    ("5 at task 1 before 3 at task 2", "set A\nhard 2 1 1\nhard 2 2,1 2\n"),
    ("5 at task 1 before 4 at task 2", "set A\nhard 2 1 1\nhard 2 3 2\n"),
    ("4 at task 2", "set A\nhard 2 1 2\nhard 2 1,3 2\n"),
    ("5 before 6", "set A\nhard 16 16 16\nhard 16 16 16\nhard 2 1 1\n"),
    ("2 before 3", "set A\nhard 2 2,1 2\nhard 17 1 1\n"),
    ("60,000 states", "set A\nhard 14 14 16\nhard 1 1 5\nhard 4 4 5\n"),
    ("60,928 states", "set A\nhard 16 16 16\nhard 13 13 16\n"),
    ("states past 32 bits", "set A\n" + "hard 15 15 16\n" * 4),
    ("504 ones in 1,023 bytes", "set A\nhard 1 " + ones(504) + " 1\n"),
    ("504 ones in 1,024 bytes", "set AB\nhard 1 " + ones(504) + " 1\n"),
    ("504 ones in 1,025 bytes", "set ABC\nhard 1 " + ones(504) + " 1\n"),
    ("1,024 bytes", "s" * 1024),
    ("1,025 bytes", "s" * 1025),
]


def texts():
    """A label, a bar, the text, a tilde."""
    return "".join(f"{label}|{text}~" for label, text in CASES).encode()


def written(task_set, buffer):
    """What writing answers, and the buffer after it."""
    try:
        answer = f"write length {sheets.write_sheet(task_set, buffer)}"
    except Refused as f:
        answer = f"write refused {f.number} place {f.place}"
    return answer.encode() + b"\n" + bytes(buffer) + b"\n"


def read(text):
    """The answer, the reader's place, the set beside it, and what is written of a set that was taken."""
    at = sheets.place_after(text, 0)
    try:
        task_set = sheets.read_sheet(text)
    except Refused as f:
        return f"refused {f.number} place {f.place} at {at} set 0 0 0 0 0 0\n".encode()
    t = task_set.tasks[0]
    taken = f"taken at {at} set {task_set.name[0]} {task_set.count} {t.kind} {t.deadline} {t.runs} {t.gaps}\n"
    return taken.encode() + written(task_set, bytearray(b"." * PAGE))


def writes():
    """PAIR into buffers around its length, and mangled records."""
    pair = sheets.read_sheet(b"set PAIR\nhard 2 1 2\nhard 2 1 2\n")
    for n in (32, 31, 30, 1):
        yield written(pair, bytearray(b"." * n))
    buffer = bytearray(b"....")
    yield written(pair._replace(name=pair.name[:5] + b"a" + pair.name[6:]), buffer)
    tasks = pair.tasks[:6] + (pair.tasks[6]._replace(gaps=1),)
    yield written(pair._replace(tasks=tasks), buffer)
    yield written(pair._replace(tasks=tasks, count=8), buffer)


def answers():
    lines = [label.encode() + b": " + read(text.encode()) for label, text in CASES]
    return b"".join(lines) + b"".join(writes())


if __name__ == "__main__":
    sys.stdout.buffer.write({"texts": texts, "answers": answers}[sys.argv[1]]())
