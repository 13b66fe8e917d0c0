"""Sheets: the form, the place of a form fault, the reader, the writer.

Document 01, "Sheet": "Lines end in LF; single spaces; numbers without
leading zeros; lists strictly rising, comma between. First `set NAME`,
then one line a task: `hard` or `soft`, D, C, A. At most 1,024 bytes."

The form is written down as one regular expression. The place of a fault
is found with derivatives: the derivative of an expression by a byte
describes what may follow once that byte has been read. The expressions
are kept so that the one for "nothing at all can follow" is NEVER and no
other expression means the same; so a beginning can still become a sheet
exactly while its derivative is not NEVER.
"""

from refusal import Refused
from sets import (HARD, MOST_TASKS, NAME_BYTES, NAME_CHARACTERS, SOFT, Task,
                  bits_of, make_set, test_set, test_states, test_task,
                  values_of)

MOST_BYTES = 1024

# ---- regular expressions -------------------------------------------------
# NEVER            no text at all
# EMPTY            the empty text
# ("one", bytes)   one byte out of the given ones
# ("then", a, b)   a text of a, then a text of b
# ("or", a, b)     a text of a or a text of b
# ("many", a)      any number of texts of a, also none

NEVER = ("never",)
EMPTY = ("empty",)


def one(allowed):
    return ("one", allowed)


def then(a, b):
    if a == NEVER or b == NEVER:
        return NEVER
    if a == EMPTY:
        return b
    return ("then", a, b)


def either(a, b):
    if a == NEVER:
        return b
    if b == NEVER:
        return a
    return ("or", a, b)


def many(a):
    return ("many", a)


def word(text):
    expression = EMPTY
    for byte in reversed(text):
        expression = then(one(bytes([byte])), expression)
    return expression


def up_to(most, a):
    """From one to `most` texts of a, one after the other."""
    expression = a
    for _ in range(most - 1):
        expression = then(a, either(EMPTY, expression))
    return expression


def may_end(e):
    """Whether the empty text is among the texts of e."""
    kind = e[0]
    if kind == "empty" or kind == "many":
        return True
    if kind == "then":
        return may_end(e[1]) and may_end(e[2])
    if kind == "or":
        return may_end(e[1]) or may_end(e[2])
    return False


def after(e, byte):
    """The derivative: the rests of those texts of e that begin with byte."""
    kind = e[0]
    if kind == "one":
        return EMPTY if byte in e[1] else NEVER
    if kind == "then":
        rest = then(after(e[1], byte), e[2])
        if may_end(e[1]):
            rest = either(rest, after(e[2], byte))
        return rest
    if kind == "or":
        return either(after(e[1], byte), after(e[2], byte))
    if kind == "many":
        return then(after(e[1], byte), e)
    return NEVER


# ---- the form of a sheet -------------------------------------------------
# "(list order, the rules between lists and the 1,024 bytes not counted;
# numbers 1 to 16, names and 1 to 7 tasks counted)"

NAME = up_to(NAME_BYTES, one(NAME_CHARACTERS))

NUMBER = NEVER
for _value in range(1, 17):
    NUMBER = either(NUMBER, word(b"%d" % _value))

LIST = then(NUMBER, many(then(one(b","), NUMBER)))

KIND = either(word(b"hard"), word(b"soft"))

TASK_LINE = then(KIND, then(one(b" "),
            then(NUMBER, then(one(b" "),
            then(LIST, then(one(b" "),
            then(LIST, one(b"\n"))))))))

SET_LINE = then(word(b"set "), then(NAME, one(b"\n")))

SHEET = then(SET_LINE, up_to(MOST_TASKS, TASK_LINE))


def form_fault(text):
    """None if the form is right, otherwise the place of the fault.

    "A form fault is placed at the length of the longest beginning that
    some sheet has."
    """
    rest = SHEET
    for place, byte in enumerate(text):
        rest = after(rest, byte)
        if rest == NEVER:
            return place
    if may_end(rest):
        return None
    return len(text)


# ---- the reader ----------------------------------------------------------

def is_rising(values):
    return all(a < b for a, b in zip(values, values[1:]))


def read_sheet(text):
    """The set of a sheet, or a refusal.

    "Sheet: 1, 2, then 3, 4, 5 for the lowest task at fault, then 6."
    """
    text = bytes(text)
    if len(text) > MOST_BYTES:
        raise Refused(1, 0)
    fault = form_fault(text)
    if fault is not None:
        raise Refused(2, fault)

    lines = text.decode("ascii").split("\n")[:-1]
    name = lines[0].split(" ")[1]
    tasks = []
    for number, line in enumerate(lines[1:], start=1):
        kind, deadline, c_text, a_text = line.split(" ")
        c_values = [int(value) for value in c_text.split(",")]
        a_values = [int(value) for value in a_text.split(",")]
        if not is_rising(c_values) or not is_rising(a_values):
            raise Refused(3, number)
        test_task(number, int(deadline), c_values, a_values)
        tasks.append(Task(HARD if kind == "hard" else SOFT, int(deadline),
                          bits_of(c_values), bits_of(a_values)))
    task_set = make_set(name, tasks)
    test_states(task_set)
    return task_set


def place_after(text, at):
    """The place of a reader of the text that stood at a place, after reading.

    "A reader holds the text and its place": after a sheet it is the end of
    the text; after a form fault it is the fault's place; nothing of a text
    that is too long is read.
    """
    rest = bytes(text[at:])
    if len(rest) > MOST_BYTES:
        return at
    fault = form_fault(rest)
    return at + (len(rest) if fault is None else fault)


# ---- the writer ----------------------------------------------------------

def sheet_text(task_set):
    """ "the one sheet a set has"; the set has passed its test."""
    lines = ["set " + task_set.name.rstrip(b"\0").decode("ascii")]
    for task in task_set.tasks[:task_set.count]:
        lines.append(" ".join([
            "hard" if task.kind == HARD else "soft",
            str(task.deadline),
            ",".join(str(value) for value in values_of(task.runs)),
            ",".join(str(value) for value in values_of(task.gaps))]))
    return "".join(line + "\n" for line in lines).encode("ascii")


def write_sheet(task_set, buffer):
    """ "answers its length and changes no byte beyond it"; refusal 7 with
    the length needed if the lent buffer is shorter."""
    test_set(task_set)
    text = sheet_text(task_set)
    if len(buffer) < len(text):
        raise Refused(7, len(text))
    buffer[:len(text)] = text
    return len(text)
