"""Readings of sets, tick and shield, and sheets."""

import files
import game
import replay
import runs
import sets
import sheets
import shield
from selftest_base import (PAIR, PAIR_TABLE, answer, build_of, pair_with,
                           refused, same, set_of, sheet_of, task_of)


# ---- readings: sets ------------------------------------------------------

def with_task(task_set, number, **fields):
    tasks = list(task_set.tasks)
    tasks[number - 1] = tasks[number - 1]._replace(**fields)
    return task_set._replace(tasks=tuple(tasks))


def readings_sets():
    for kind in (2, 3, 255):
        same("1 kind", answer(sets.test_set, with_task(PAIR, 2, kind=kind)),
             refused(3, 2))
    for kind in (0, 1):
        same("1 kind", answer(sets.test_set, with_task(PAIR, 2, kind=kind)),
             16)
    for deadline in (0, 17, 255):
        same("1 deadline",
             answer(sets.test_set, with_task(PAIR, 1, deadline=deadline)),
             refused(3, 1))
    for count in (0, 8, 255):
        same("1 count", answer(sets.test_set, PAIR._replace(count=count)),
             refused(3, 0))
    for field in ("runs", "gaps"):
        same("1 empty list",
             answer(sets.test_set, with_task(PAIR, 2, **{field: 0})),
             refused(3, 2))

    for field in ("kind", "deadline", "runs", "gaps"):
        for number in range(3, 8):
            same("2 beyond",
                 answer(sets.test_set, with_task(PAIR, number, **{field: 1})),
                 refused(3, number))
    four = with_task(PAIR, 1, runs=4)
    seven = with_task(four, 7, gaps=1)
    same("2 4 at 1 first", answer(sets.test_set, seven), refused(4, 1))
    same("2 beyond alone",
         answer(sets.test_set, with_task(PAIR, 7, gaps=1)), refused(3, 7))
    same("2 name first", answer(sets.test_set,
                                seven._replace(name=bytes(16))),
         refused(3, 0))
    same("2 count first", answer(sets.test_set, seven._replace(count=0)),
         refused(3, 0))
    large = sets.make_set("A", [task_of(1, 16, [16], [16])] * 6)
    same("2 6 last", answer(sets.test_set, with_task(large, 7, gaps=1)),
         refused(3, 7))
    same("2 6 last", answer(sets.test_set, with_task(large, 6, gaps=1)),
         refused(5, 6))
    same("2 6", answer(sets.test_set, large), refused(6, 0))

    for name in (b"A\0B", b"", b"a", b"A ", b"\0A", b"A_", b"PAIR\n", b"\xff",
                 b"ABCDEFGHIJKLMNO\x01", b"/", b":", b"@", b"["):
        same("3 name %r" % name,
             answer(sets.test_set,
                    PAIR._replace(name=name.ljust(16, b"\0"))),
             refused(3, 0))
    for name in (b"ABCDEFGHIJKLMNOP", b"-", b"0", b"9", b"Z"):
        same("3 name %r" % name,
             answer(sets.test_set,
                    PAIR._replace(name=name.ljust(16, b"\0"))), 16)

    four = sets.make_set("A", [task_of(1, 15, [15], [16])] * 4)
    same("4", sets.state_number(four), 2 ** 32)
    same("4", answer(sets.test_set, four), refused(6, 0))
    same("4", answer(sheets.read_sheet,
                     sheet_of("set A", *["hard 15 15 16"] * 4)),
         refused(6, 0))
    seven = sets.make_set("A", [task_of(1, 16, [16], [16])] * 7)
    same("4", answer(sets.test_set, seven), refused(6, 0))
    same("4", answer(sheets.read_sheet,
                     sheet_of("set A", *["hard 16 16 16"] * 7)),
         refused(6, 0))

    bad = PAIR._replace(count=9)
    mangled = runs.start(PAIR, 0)._replace(ticks=1 << 31)
    empty = bytearray()
    for what, call in (
            ("build", lambda: shield.build(bad, empty, empty)),
            ("test", lambda: shield.test_table(bad, empty)),
            ("sheet", lambda: sheets.write_sheet(bad, empty)),
            ("write", lambda: files.write_file(bad, empty, empty)),
            ("open", lambda: files.open_file(bad, empty)),
            ("start", lambda: runs.start(bad, 0)),
            ("ask", lambda: runs.ask(bad, empty, mangled, 9)),
            ("report", lambda: runs.report(bad, mangled, 9, True, 255))):
        same("5 " + what, answer(call), refused(3, 0))


# ---- readings: tick and shield -------------------------------------------

def removal_in_place(moves, step=1):
    """The wrong way: states removed while a round is going on, from the
    lowest index on, or with step -1 from the highest."""
    removed_in = [0] * len(moves)
    left = [True] * len(moves)
    k = 0
    while True:
        any_fell = False
        for index in range(len(moves))[::step]:
            if left[index] and not any(shield.is_good(successors, left)
                                       for successors
                                       in moves[index].values()):
                left[index] = False
                removed_in[index] = k + 1
                any_fell = True
        if not any_fell:
            return removed_in, k
        k += 1


def readings_shield():
    got, table = build_of(set_of("hard 1 1 3"))
    same("6", got, (4, 1, 2))
    same("6 table", list(table), [2, 1, 0, 1, 0, 1])
    same("7", build_of(set_of("hard 1 1 1"))[0], (2, 0, 2))
    same("7 soft", build_of(set_of("soft 1 1 1"))[0], (2, 0, 3))

    for fill in (0, 170, 255):
        table = bytearray([fill]) * 20
        work = bytearray([fill]) * 19
        same("8", answer(shield.build, PAIR, table, work), (15, 1, 6))
        same("8 table", bytes(table), PAIR_TABLE + bytes([fill]) * 4)
        same("8 work", bytes(work), bytes(16) + bytes([fill]) * 3)
        no = set_of("hard 3 2 4", "hard 3 2 4")
        states = sets.state_number(no)
        table = bytearray([fill]) * (states + 2)
        work = bytearray([fill]) * (states + 1)
        same("8 refused", answer(shield.build, no, table, work),
             refused(8, 3))
        same("8 table", bytes(table), bytes(states) + bytes([fill]) * 2)
        same("8 work", bytes(work), bytes(states) + bytes([fill]))
    table = bytearray([9]) * 15
    work = bytearray([9]) * 15
    same("build 7", answer(shield.build, PAIR, table, work), refused(7, 16))
    same("build 7", answer(shield.build, PAIR, bytearray(16), work),
         refused(7, 16))
    same("build 7 untouched", (table, work),
         (bytearray([9]) * 15, bytearray([9]) * 15))

    seven = set_of(*["soft 1 1 1"] * 7)
    same("9 S", sets.test_set(seven), 128)
    same("9", build_of(seven)[0], (128, 0, 255))

    same("10", answer(shield.test_table, PAIR, pair_with(15, 8)),
         refused(13, 15))
    same("10", answer(shield.test_table, PAIR, pair_with(8, 0)),
         refused(13, 2))
    same("10", answer(shield.test_table, PAIR, pair_with(0, 0)),
         refused(13, 0))
    few = bytearray(16)
    few[0] = 2
    few[11] = 4
    same("10 zero elsewhere", answer(shield.test_table, PAIR, few), None)
    same("10 only zeros", answer(shield.test_table, PAIR, bytes(16)),
         refused(13, 0))
    same("10 unreachable counts", answer(shield.test_table, PAIR,
                                         pair_with(10, 1)), refused(13, 10))
    same("10 not runnable", answer(shield.test_table, PAIR, pair_with(1, 7)),
         refused(13, 1))
    same("10 longer", answer(shield.test_table, PAIR,
                             PAIR_TABLE + b"\xff\xff"), None)
    same("10 shorter", answer(shield.test_table, PAIR, PAIR_TABLE[:15]),
         refused(7, 16))
    same("10 built passes", answer(shield.test_table, PAIR, PAIR_TABLE), None)

    at_once = set_of("hard 3 1,2 3", "hard 1 1 1,2")
    same("11 r", build_of(at_once)[0], refused(8, 3))
    same("11 r in place", removal_in_place(game.all_moves(at_once))[0][0], 2)
    same("11 r from the highest",
         removal_in_place(game.all_moves(at_once), -1)[0][0], 1)
    at_once = set_of("hard 4 2 4", "hard 2 1 2")
    same("11 R", build_of(at_once)[0][1], 3)
    same("11 R in place", removal_in_place(game.all_moves(at_once))[1], 2)
    same("11 R from the highest",
         removal_in_place(game.all_moves(at_once), -1)[1], 2)
    for lines in (["hard 3 2 4"] * 2, ["hard 2 1,2 2", "hard 2 1 2"]):
        no = set_of(*lines)
        same("11 P5 and P6 do not show it",
             removal_in_place(game.all_moves(no))[0][0],
             build_of(no)[0][2])

    early = set_of("hard 2 1,2 2")
    same("12", answer(shield.test_table, early, bytes([2, 0, 0, 0, 2, 0])),
         refused(13, 0))
    same("12", answer(shield.test_table, early, bytes([2, 0, 0, 0, 2, 1])),
         None)
    away = set_of("hard 1 1 1,2")
    same("12", answer(shield.test_table, away, bytes([2, 0, 0, 0])),
         refused(13, 0))
    same("12", answer(shield.test_table, away, bytes([2, 0, 0, 1])), None)


# ---- readings: sheets ----------------------------------------------------

def readings_sheets():
    def read(text):
        return answer(sheets.read_sheet, text)

    good = b"set A\nhard 1 1 1\n"
    same("13 good", read(good),
         sets.make_set("A", [task_of(1, 1, [1], [1])]))
    same("13 last LF", read(good[:-1]), refused(2, 16))
    for length in range(len(good)):
        same("13 cut short", read(good[:length]), refused(2, length))
    same("13 blank line", read(b"set A\n\nhard 1 1 1\n"), refused(2, 6))
    same("13 blank line", read(good + b"\n"), refused(2, 17))
    same("13 blank line", read(b"\n" + good), refused(2, 0))
    same("13 trailing space", read(b"set A \nhard 1 1 1\n"), refused(2, 5))
    same("13 trailing space", read(b"set A\nhard 1 1 1 \n"), refused(2, 16))
    same("13 CR", read(b"set A\r\nhard 1 1 1\r\n"), refused(2, 5))
    same("13 CR", read(b"set A\nhard 1 1 1\r\n"), refused(2, 16))
    same("13 two spaces", read(b"set A\nhard  1 1 1\n"), refused(2, 11))
    same("13 no task", read(b"set A\n"), refused(2, 6))

    ones = b"set A\nhard 1 " + b"1," * 503 + b"1 1\n"
    same("14 length", len(ones), 1023)
    same("14 equal neighbours", read(ones), refused(3, 1))
    seventeen = ",".join(str(value) for value in list(range(1, 17)) + [1])
    same("14 more than 16",
         read(sheet_of("set A", "hard 16 %s 16" % seventeen)), refused(3, 1))
    same("14 order", read(b"set A\nhard 2 2,1 2\n"), refused(3, 1))
    same("14 order", read(b"set A\nhard 2 1 3,2\n"), refused(3, 1))
    for byte in (b"\0", b"A", b"\n", b"\xff"):
        same("14 1,024 taken on", read(ones + byte), refused(2, 1023))
        same("14 1,025", read(ones + byte * 2), refused(1, 0))
        same("14 1,025", read(byte * 1025), refused(1, 0))
    same("14 1,024 taken on", read(ones + b"h"), refused(2, 1024))
    same("14 1,024", read(b"set AB" + ones[5:]), refused(3, 1))
    same("14 1,025", read(b"set ABC" + ones[5:]), refused(1, 0))

    for bad, place in ((b"0", 11), (b"01", 11), (b"17", 12), (b"160", 13),
                       (b"16", None), (b"10", None), (b"20", 12),
                       (b"116", 13), (b"-1", 11), (b"+1", 11), (b",", 11)):
        text = b"set A\nhard " + bad + b" 1 16\n"
        expected = refused(2, place) if place is not None else \
            sets.make_set("A", [task_of(1, int(bad), [1], [16])])
        same("15 D %r" % bad, read(text), expected)
    for bad, place in ((b"1,0", 15), (b"1,01", 15), (b"1,17", 16),
                       (b"1,160", 17), (b"1,", 15), (b",1", 13)):
        text = b"set A\nhard 1 " + bad + b" 16\n"
        same("15 C %r" % bad, read(text), refused(2, place))
    same("15 17th character",
         read(b"set ABCDEFGHIJKLMNOPQ\nhard 1 1 1\n"), refused(2, 20))
    same("15 16 characters",
         read(b"set ABCDEFGHIJKLMNOP\nhard 1 1 1\n"),
         sets.make_set("ABCDEFGHIJKLMNOP", [task_of(1, 1, [1], [1])]))
    seven = sheet_of("set A", *["soft 1 1 1"] * 7)
    same("15 seven", read(seven), sets.make_set("A", [task_of(0, 1, [1],
                                                              [1])] * 7))
    same("15 eighth", read(seven + b"soft 1 1 1\n"), refused(2, len(seven)))
    same("15 set again", read(b"set A\nset"), refused(2, 7))
    same("15 so", read(b"set A\nso"), refused(2, 8))
    same("15 no name", read(b"set \nhard 1 1 1\n"), refused(2, 4))
    same("15 small letter", read(b"set a\nhard 1 1 1\n"), refused(2, 4))

    def order(*lines):
        return read(sheet_of("set A", *lines))
    same("16 3 before 4", order("hard 1 3,2 1"), refused(3, 1))
    same("16 3 before 5", order("hard 5 1 4,3"), refused(3, 1))
    same("16 4 before 5", order("hard 3 4 2"), refused(4, 1))
    same("16 5 at 1 before 3 at 2", order("hard 3 1 2", "hard 1 1,1 1"),
         refused(5, 1))
    same("16 4 at 1 before 3 at 2", order("hard 3 4 3", "hard 1 1,1 1"),
         refused(4, 1))
    same("16 2 before 3", read(b"set A\nhard 1 1,1 1\nhard 0"),
         refused(2, 24))
    same("16 3 before 6", order(*(["hard 16 16 16"] * 5 + ["soft 1 1 2,2"])),
         refused(3, 6))

    machine = replay.Replay()
    machine.answer(b"text " + good.hex().encode("ascii"))
    same("17", machine.answer(b"read"), "ok")
    same("17 not zeros", machine.set == sets.ZERO_SET, False)
    machine.answer(b"cut text 16")
    same("17", machine.answer(b"read"), "refused 2 16")
    same("17 zeros", machine.set, sets.ZERO_SET)
    short = bytearray([5]) * 30
    same("17 writing", answer(sheets.write_sheet, PAIR, short),
         refused(7, 31))
    same("17 untouched", short, bytearray([5]) * 30)
    longer = bytearray([5]) * 33
    same("17 writing", answer(sheets.write_sheet, PAIR, longer), 31)
    same("17 written", bytes(longer),
         b"set PAIR\nhard 2 1 2\nhard 2 1 2\n\5\5")


PARTS = [readings_sets, readings_shield, readings_sheets]
