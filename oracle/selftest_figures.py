"""The figures of document 01: P1 to P12 and all others."""

import files
import game
import runs
import sets
import sheets
import shield
from report import report_text
from selftest_base import (PAIR, PAIR_TABLE, answer, build_of, refused,
                           run_at, same, set_of, sheet_of, task_of)


def figures():
    same("report of PAIR",
         report_text(sheet_of("set PAIR", "hard 2 1 2", "hard 2 1 2")),
         "set PAIR tasks 2 states 16\n"
         "shield 15 rounds 1 start 6\n"
         "row 0 6 5 2 5 3 1 2 1\n"
         "row 8 4 4 0 4 3 1 2 1\n")
    got, table = build_of(PAIR)
    same("P1", bytes(table), PAIR_TABLE)
    same("P2", got, (15, 1, 6))
    got, table = build_of(set_of("hard 1 1 1"))
    same("P3 table", list(table), [2, 1])
    same("P3", got, (2, 0, 2))
    example = set_of("hard 2 1 3", "soft 2 1,2 3")
    same("P4 S", sets.test_set(example), 54)
    got, table = build_of(example)
    same("P4 entries", [table[i] for i in (0, 21, 26, 32, 4)],
         [7, 5, 2, 2, 0])
    same("P4", got, (45, 1, 7))
    same("P5", build_of(set_of("hard 3 2 4", "hard 3 2 4"))[0], refused(8, 3))
    same("P6", build_of(set_of("hard 2 1,2 2", "hard 2 1 2"))[0],
         refused(8, 2))
    same("P7", game.index_of(example, ((1, None), (1, 0))), 21)
    same("P8", sets.bits_of([3, 5, 9]), 276)
    run = runs.start(PAIR, 4294967295)
    _, run = runs.ask(PAIR, PAIR_TABLE, run, 1)
    run = runs.report(PAIR, run, 0, True, 0)
    same("P9", run.reading, 0)
    same("P10", answer(runs.report, PAIR, run_at(PAIR, 10, 0), 1, False, 3),
         refused(19, 1))
    one = sets.make_set("ABCDEFGHIJKLMNOP", PAIR.tasks[:2])
    two = sets.make_set("ABCDEFGHIJKLMNOQ", PAIR.tasks[:2])
    file = bytearray(54)
    files.write_file(one, PAIR_TABLE, file)
    same("P11", answer(files.open_file, two, file), refused(12, 20))
    same("P12", answer(shield.test_table, PAIR, bytes([1] * 16)),
         refused(13, 2))
    same("empty sheet", answer(sheets.read_sheet, b""), refused(2, 0))
    same("hard 17", answer(sheets.read_sheet, b"set PAIR\nhard 17"),
         refused(2, 15))
    taken = sets.make_set("A", [task_of(1, 14, [14], [16]),
                                task_of(1, 1, [1], [5]),
                                task_of(1, 4, [4], [5])])
    same("60,000", answer(sets.test_set, taken), 60000)
    above = sets.make_set("A", [task_of(1, 16, [16], [16]),
                                task_of(1, 13, [13], [16])])
    same("60,928", sets.state_number(above), 60928)
    same("60,928 refused", answer(sets.test_set, above), refused(6, 0))


PARTS = [figures]
