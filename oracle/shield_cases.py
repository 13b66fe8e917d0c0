"""What crates/shield_cases has to print, as the builder and the tester of this folder answer.

    python3 oracle/shield_cases.py | cmp - crates/shield_cases/stdout
"""

import shield
from refusal import Refused
from sets import HARD, SOFT, Task, bits_of, make_set


def task(text):
    """A task from its line in a sheet, as `hard 2 1,2 3`."""
    kind, deadline, runs, gaps = text.split()
    values = lambda listed: bits_of(int(k) for k in listed.split(","))
    return Task(HARD if kind == "hard" else SOFT, int(deadline), values(runs), values(gaps))


def case(*tasks):
    return make_set("CASE", [task(text) for text in tasks])


def numbers(values):
    return "".join(f" {v}" for v in values)


def refusal(f):
    return f" refused {f.number} place {f.place}"


def built(task_set, table, work):
    try:
        safe, rounds, start = shield.build(task_set, table, work)
    except Refused as f:
        return refusal(f)
    return f" safe {safe} rounds {rounds} start {start}"


def show(label, task_set, table, work):
    """Buffers are given as (byte, length)."""
    table = bytearray([table[0]] * table[1])
    work = bytearray([work[0]] * work[1])
    answer = built(task_set, table, work)
    print(f"build {label}:{answer} table{numbers(table)} work{numbers(work)}")


def checksum(buffer):
    total = 0
    for byte in buffer:
        total = (total * 251 + byte) % 16777213
    return total


def show_long(label, task_set, table, work):
    answer = built(task_set, table, work)
    print(f"build {label}:{answer} table sum {checksum(table)} work sum {checksum(work)}")


def show_test(label, task_set, table):
    try:
        shield.test_table(task_set, bytes(table))
        answer = " passes"
    except Refused as f:
        answer = refusal(f)
    print(f"test {label}:{answer}")


PAIR = case("hard 2 1 2", "hard 2 1 2")
EXAMPLE = case("hard 2 1 3", "soft 2 1,2 3")
MANY = case(*["soft 1 1 1"] * 7)


def figure_cases():
    show("PAIR", PAIR, (7, 16), (9, 16))
    show("hard 1 1 1", case("hard 1 1 1"), (7, 2), (9, 2))
    show("hard 2 1 3, soft 2 1,2 3", EXAMPLE, (7, 54), (9, 54))
    table = bytearray(54)
    shield.build(EXAMPLE, table, bytearray(54))
    places = (0, 21, 26, 32, 4)
    print(f"hard 2 1 3, soft 2 1,2 3: entries at{numbers(places)}{numbers(table[i] for i in places)}")


def refused_cases():
    show("two of hard 3 2 4", case("hard 3 2 4", "hard 3 2 4"), (7, 145), (9, 146))
    for first, second, table, work in [("hard 2 1,2 2", "hard 2 1 2", 26, 25),
                                       ("hard 3 1,2 3", "hard 1 1 1,2", 36, 36)]:
        show(f"{first}, {second}", case(first, second), (7, table), (9, work))


def round_cases():
    show("hard 1 1 3", case("hard 1 1 3"), (7, 6), (9, 6))
    show("hard 4 2 4, hard 2 1 2", case("hard 4 2 4", "hard 2 1 2"), (7, 48), (9, 48))
    show("seven of soft 1 1 1", MANY, (7, 128), (9, 128))


def buffer_cases():
    show("PAIR, 18 and 19 bytes", PAIR, (7, 18), (9, 19))
    show("PAIR, zeros before", PAIR, (0, 16), (0, 16))
    show("PAIR, 255 before", PAIR, (255, 17), (255, 17))
    show("PAIR, 15 and 16 bytes", PAIR, (7, 15), (9, 16))
    show("PAIR, 16 and 15 bytes", PAIR, (7, 16), (9, 15))
    show("PAIR, no bytes", PAIR, (7, 0), (9, 0))


def set_cases():
    long = case("hard 2 3 3")
    large = case("hard 16 16 16", "hard 13 13 16")
    show("hard 2 3 3, no bytes", long, (7, 0), (9, 0))
    show("hard 2 3 3", long, (7, 12), (9, 12))
    show("hard 16 16 16, hard 13 13 16", large, (7, 3), (9, 3))
    show_test("hard 2 3 3, no bytes", long, [])
    show_test("hard 16 16 16, hard 13 13 16", large, [7] * 3)


def pair_tests():
    for entry in (1, 0, 255):
        show_test(f"PAIR, every entry {entry}", PAIR, [entry] * 16)
    table = bytearray(16)
    shield.build(PAIR, table, bytearray(16))
    show_test("PAIR as built", PAIR, table)
    for entry, place in [(0, 0), (2, 0), (7, 0), (0, 8), (1, 10), (0, 15), (8, 15), (128, 15), (2, 15)]:
        changed = bytearray(table)
        changed[place] = entry
        show_test(f"PAIR, {entry} at {place}", PAIR, changed)
    show_test("PAIR, 15 bytes", PAIR, [0] * 15)
    show_test("PAIR, no bytes", PAIR, [])
    show_test("PAIR as built, 255 beyond", PAIR, list(table) + [255, 255])


def outcome_tests():
    for text, table in [("hard 2 1,2 2", [2, 0, 0, 0, 2, 0]), ("hard 2 1,2 2", [2, 0, 0, 0, 2, 1]),
                        ("hard 1 1 1,2", [2, 0, 0, 0]), ("hard 1 1 1,2", [2, 0, 0, 1])]:
        show_test(f"{text},{numbers(table)}", case(text), table)
    for entry in (255, 1, 128):
        show_test(f"seven of soft 1 1 1, every entry {entry}", MANY, [entry] * 128)


def large_cases():
    table = bytearray([7] * 60000)
    work = bytearray([9] * 60000)
    tasks = ("soft 14 14 16", "hard 1 1 5", "hard 5 1,4 5")
    label = ", ".join(tasks)
    show_long(label, case(*tasks), table, work)
    show_test(label, case(*tasks), table)
    table[59999] = 255
    show_test(f"{label}, 255 at 59999", case(*tasks), table)
    tasks = ("hard 14 14 16", "hard 1 1 5", "hard 4 4 5")
    show_long(", ".join(tasks), case(*tasks), table, work)


if __name__ == "__main__":
    for group in (figure_cases, refused_cases, round_cases, buffer_cases, set_cases, pair_tests, outcome_tests,
                  large_cases):
        group()
