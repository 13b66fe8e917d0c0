"""Readings of table files, runs, and the report program."""

import files
import replay
import runs
import sets
from report import report_text
from selftest_base import (PAIR, PAIR_TABLE, answer, pair_file, pair_with,
                           refused, run_at, same, set_of, sheet_of)


# ---- readings: table files -----------------------------------------------

def readings_files():
    def opened(task_set, file):
        return answer(files.open_file, task_set, file)

    def poked(offset, byte, file=None):
        file = pair_file() if file is None else bytearray(file)
        file[offset] = byte
        return file

    same("18 file", bytes(pair_file()),
         b"SHT\1\0" + b"PAIR".ljust(16, b"\0") + b"\2"
         + b"\1\2\1\0\2\0" * 2 + b"\x10\0\0\0" + PAIR_TABLE)
    same("18 open", opened(PAIR, pair_file()), PAIR_TABLE)
    for offset in range(54):
        byte = pair_file()[offset] ^ 0x40
        if offset < 3:
            expected = refused(9, 0)
        elif offset < 5:
            expected = refused(10, 3)
        elif offset < 38:
            expected = refused(12, offset)
        else:
            expected = refused(13, offset - 38)
        same("18 byte %d" % offset, opened(PAIR, poked(offset, byte)),
             expected)
    for offset in range(34, 38):
        same("18 S byte", opened(PAIR, poked(offset, 99)),
             refused(12, offset))

    for length in range(5):
        same("19 under 5", opened(PAIR, pair_file()[:length]), refused(9, 0))
    for length in range(5, 54):
        same("19 cut", opened(PAIR, pair_file()[:length]), refused(11, 54))
    same("19 version", opened(PAIR, poked(4, 1)), refused(10, 3))
    same("19 version", opened(PAIR, poked(3, 0)), refused(10, 3))
    same("19 mark first", opened(PAIR, poked(4, 1, poked(2, 0))),
         refused(9, 0))
    same("19 longer", opened(PAIR, pair_file() + b"\0"), refused(11, 54))
    same("19 longer with header fault",
         opened(PAIR, poked(20, 1) + b"\0"), refused(12, 20))
    same("19 shorter with header fault",
         opened(PAIR, poked(20, 1)[:21]), refused(12, 20))
    same("19 shorter without the fault",
         opened(PAIR, poked(20, 1)[:20]), refused(11, 54))
    same("19 lowest", opened(PAIR, poked(37, 1, poked(22, 0))),
         refused(12, 22))
    trio = set_of("hard 2 1 2", "hard 2 1 2", "soft 1 1 1")
    trio = trio._replace(name=PAIR.name)
    same("19 in this set's layout", opened(trio, pair_file()),
         refused(12, 21))

    same("20 index", opened(PAIR, poked(38 + 8, 0)), refused(13, 2))
    same("20 both short", answer(files.write_file, PAIR, bytearray(15),
                                 bytearray(10)), refused(7, 16))
    file = bytearray([3]) * 53
    same("20 7 before 13", answer(files.write_file, PAIR, pair_with(0, 0),
                                  file), refused(7, 54))
    file = bytearray([3]) * 60
    same("20 13", answer(files.write_file, PAIR, pair_with(8, 0), file),
         refused(13, 2))
    same("20 untouched", file, bytearray([3]) * 60)
    same("20 length", answer(files.write_file, PAIR, PAIR_TABLE + b"\7",
                             file), 54)
    same("20 beyond", bytes(file), bytes(pair_file()) + b"\3" * 6)


# ---- readings: runs ------------------------------------------------------

def readings_runs():
    def ask(run, proposal, table=PAIR_TABLE):
        got = answer(runs.ask, PAIR, table, run, proposal)
        return got if got[0] == "refused" else got[0]

    def report(run, reading, finished, arrivals):
        return answer(runs.report, PAIR, run, reading, finished, arrivals)

    fresh = runs.Place(0, 0, 1, 0, 0)
    begun = runs.start(PAIR, 77)
    same("21", begun, runs.Run((fresh,) * 2 + (runs.NO_PLACE,) * 5,
                               0, 0, 77, None))
    same("21 report first", report(begun, 78, False, 0), refused(14, 0))
    choice, asked = runs.ask(PAIR, PAIR_TABLE, begun, 2)
    same("21 choice", choice, 2)
    same("21 reading", report(asked, 77, True, 0), refused(17, 0))
    same("21 reading", report(asked, 79, True, 0), refused(17, 0))
    taken = report(asked, 78, True, 0)
    same("21 reading", taken.reading, 78)
    same("21 ask twice", ask(asked, 2), refused(14, 0))
    same("21 refused start", runs.ZERO_RUN.awaited, None)
    machine = replay.Replay()
    machine.answer(b"start 5")
    same("21 refused start", machine.answer(b"show run"),
         "run 0 0 0 none" + " 0 none 0 0 0" * 7)

    at_1 = run_at(PAIR, 1, None)
    same("22 whole entry", ask(at_1, 2, pair_with(1, 7)), refused(16, 1))
    same("22 whole entry", ask(at_1, 0, pair_with(1, 9)), refused(16, 1))
    same("22 entry 0", ask(at_1, 0, pair_with(1, 0)), refused(16, 1))
    same("22 safety not judged", ask(run_at(PAIR, 10, None), 0,
                                     pair_with(10, 1)), 0)
    same("22 not runnable", ask(at_1, 1), 2)
    same("22 above n", ask(at_1, 3), refused(15, 0))
    same("22 above n", ask(at_1, 255), refused(15, 0))
    same("22 15 before 16", ask(at_1, 3, pair_with(1, 0)), refused(15, 0))
    got, after = runs.ask(PAIR, PAIR_TABLE, begun, 0)
    same("22 substitution", (got, after.substitutions, after.awaited),
         (1, 1, 1))
    got, after = runs.ask(PAIR, pair_with(0, 1), begun, 2)
    same("22 idle instead", (got, after.substitutions, after.awaited),
         (0, 1, 0))
    got, after = runs.ask(PAIR, pair_with(0, 1), begun, 0)
    same("22 idle allowed", (got, after.substitutions, after.awaited),
         (0, 0, 0))
    trio = set_of("soft 5 1 5", "soft 3 1 5", "soft 4 1 5")
    table = bytearray([14]) * sets.state_number(trio)
    same("least D minus age",
         runs.ask(trio, table, runs.start(trio, 0), 0)[0], 2)
    places = (fresh, fresh, fresh._replace(age=1)) + (runs.NO_PLACE,) * 4
    tie = runs.Run(places, 10, 0, 0, None)
    same("lowest on a tie", runs.ask(trio, table, tie, 0)[0], 2)
    places = (fresh._replace(age=2), fresh, fresh._replace(age=1)) \
        + (runs.NO_PLACE,) * 4
    tie = runs.Run(places, 10, 0, 0, None)
    same("lowest on a tie", runs.ask(trio, table, tie, 0)[0], 1)

    same("23", report(run_at(PAIR, 10, 0), 1, False, 1), refused(18, 0))
    same("23", report(run_at(PAIR, 10, 1), 1, True, 3), refused(19, 2))
    same("23", report(run_at(PAIR, 10, 0), 1, True, 3), refused(18, 0))
    for arrivals in (128, 131, 7, 4):
        same("23 bits above n",
             report(run_at(PAIR, 10, 0), 1, False, arrivals), refused(18, 0))
    seven = set_of(*["soft 1 1 1"] * 7)
    same("23 bit 7", answer(runs.report, seven,
                            runs.start(seven, 0)._replace(awaited=0),
                            1, False, 255), refused(18, 0))
    same("23 all seven", answer(runs.report, seven,
                                runs.start(seven, 0)._replace(awaited=0),
                                1, False, 127).places,
         (runs.Place(0, 0, 2, 0, 1),) * 7)
    same("17 before 18", report(run_at(PAIR, 10, 0), 9, True, 255),
         refused(17, 0))

    readings_fit()

    last = begun._replace(ticks=runs.MOST_TICKS - 1)
    choice, asked = runs.ask(PAIR, PAIR_TABLE, last, 1)
    done = report(asked, 78, True, 0)
    same("25", done.ticks, 16777216)
    same("25 ask", ask(done, 1), refused(20, 0))
    same("25 15 after 20", ask(done, 9), refused(20, 0))
    same("25 report", report(done, 79, True, 0), refused(14, 0))
    same("14 before 15", ask(asked, 9), refused(14, 0))
    same("14 before 17", report(begun, 5, True, 255), refused(14, 0))
    same("21 before 15", ask(begun._replace(ticks=1 << 25), 9),
         refused(21, 0))
    same("21 before 17", report(asked._replace(ticks=1 << 25), 5, True, 255),
         refused(21, 0))
    same("7 before 21", ask(done._replace(ticks=1 << 25), 0, PAIR_TABLE[:15]),
         refused(7, 16))
    same("21 before 14", ask(asked._replace(ticks=1 << 25), 0),
         refused(21, 0))
    same("21 before 14", report(done._replace(ticks=1 << 25), 0, True, 0),
         refused(21, 0))


def readings_fit():
    def fit(run):
        return runs.fits(PAIR, run)

    def place(run, which, **fields):
        places = list(run.places)
        places[which - 1] = places[which - 1]._replace(**fields)
        return run._replace(places=tuple(places))

    run = run_at(PAIR, 0, None)
    same("24 fits", fit(run), True)
    overdue = set_of("hard 1 1 3")
    same("24 overdue", runs.fits(overdue, run_at(overdue, 4, None)), True)
    same("24 overdue awaited", runs.fits(overdue, run_at(overdue, 4, 1)),
         False)
    more = set_of("soft 3 3 3")
    same("24 given above the age",
         runs.fits(more, place(run_at(more, 0, None), 1, job=2)), True)
    same("24 given out of range",
         runs.fits(more, place(run_at(more, 0, None), 1, job=3)), False)
    same("24 hard replaced", fit(place(run, 1, finished=0, replaced=1)), True)
    same("24 wrapped sum",
         fit(place(run, 1, job=None, arrived=1, finished=4294967295,
                   replaced=2)), False)
    same("24 sum", fit(place(run, 2, finished=2)), False)
    same("24 age", fit(place(run, 2, age=1)), True)
    same("24 age", fit(place(run, 2, age=2)), False)
    same("24 given", fit(place(run, 2, job=1)), False)
    same("24 arrived 0", fit(place(run, 2, job=None, arrived=0, finished=0)),
         False)
    same("24 arrived 11", fit(place(run, 2, arrived=11, finished=10)), True)
    same("24 arrived 12", fit(place(run, 2, arrived=12, finished=11)), False)
    same("24 substitutions", fit(run._replace(substitutions=10)), True)
    same("24 substitutions", fit(run._replace(substitutions=11)), False)
    awaiting = run._replace(awaited=0)
    same("24 substitutions", fit(awaiting._replace(substitutions=11)), True)
    same("24 substitutions", fit(awaiting._replace(substitutions=12)), False)
    same("24 ticks", fit(run._replace(ticks=16777216)), True)
    same("24 ticks", fit(run._replace(ticks=16777217)), False)
    same("24 awaited at the last",
         fit(awaiting._replace(ticks=16777216)), False)
    same("24 awaited at the last but one",
         fit(awaiting._replace(ticks=16777215)), True)
    for awaited, expected in ((0, True), (1, True), (2, True), (3, False),
                              (7, False), (8, False), (255, False)):
        same("24 awaited", fit(run._replace(awaited=awaited)), expected)
    same("24 awaited without job", fit(run_at(PAIR, 1, 1)), False)
    for which in range(3, 8):
        for field in ("age", "job", "arrived", "finished", "replaced"):
            value = 0 if field == "job" else 1
            same("24 beyond n", fit(place(run, which, **{field: value})),
                 False)
        same("24 beyond n, a job with its sum",
             fit(place(run, which, job=0, arrived=1)), False)


# ---- readings: the report program ----------------------------------------

def readings_report():
    same("26 empty", report_text(b""), "refused 2 0\n")
    same("26 long", report_text(b"x" * 1025), "refused 1 0\n")
    same("26 r", report_text(sheet_of("set A", "hard 3 2 4", "hard 3 2 4")),
         "refused 8 3\n")
    short = report_text(sheet_of("set A", "hard 1 1 3"))
    same("26 short row", short, "set A tasks 1 states 6\n"
         "shield 4 rounds 1 start 2\nrow 0 2 1 0 1 0 1\n")
    text = report_text(sheet_of("set A", "soft 1 1 4", "soft 1 1 4"))
    same("26 S 64", text.count("row "), 8)
    text = report_text(sheet_of("set A", "soft 1 1 4", "soft 2 2 3"))
    same("26 S 72", (text.count("states 72"), text.count("row ")), (1, 0))


PARTS = [readings_files, readings_runs, readings_report]
