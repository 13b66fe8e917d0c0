"""make_cases.py: the figures of document 01, and the cases in which two
careful readers could differ, as a command text for replay.

A case is a list of commands that stands on its own: it enters its set and
fills its buffers itself. Run as a program, this prints all cases; make.py
puts some of them between its own commands.
"""

import sys


def sheet(*lines):
    """Enter and read a sheet given by its lines."""
    return read("".join(line + "\n" for line in lines).encode("ascii"))


def enter(text):
    commands = ["cut text 0"]
    for first in range(0, len(text), 125):
        commands.append("text " + text[first:first + 125].hex())
    return commands


def read(text):
    return enter(text) + ["read"]


def tasks(*lines):
    return sheet("set TEST", *lines)


def table_of(*entries):
    """A table by its entries."""
    return (["fill table %d 0" % len(entries)]
            + ["poke table %d %d" % (index, entry)
               for index, entry in enumerate(entries) if entry != 0])


def build(states, extra=0, byte=170):
    return ["fill table %d %d" % (states + extra, byte),
            "fill work %d %d" % (states + extra, byte),
            "build", "sum table", "sum work"]


PAIR_SHEET = b"set PAIR\nhard 2 1 2\nhard 2 1 2\n"
PAIR = read(PAIR_SHEET)
PAIR_TABLE = table_of(6, 5, 2, 5, 3, 1, 2, 1, 4, 4, 0, 4, 3, 1, 2, 1)
PAIR_FILE = PAIR + PAIR_TABLE + ["fill file 54 0", "write"]


def pair_run(index, awaited):
    """PAIR's run in the state of an index, after ten ticks."""
    commands = PAIR + PAIR_TABLE + ["start 0", "ticks 10"]
    for number, local in ((1, index % 4), (2, index // 4)):
        age, given = divmod(local, 2)
        commands.append("age %d %d" % (number, age))
        if given == 1:
            commands.append("job %d none" % number)
            commands.append("finished %d 1" % number)
    return commands + ["awaited %s" % awaited]


def figures():
    yield PAIR + build(16) + ["show table 0 16", "test table"]  # P1, P2
    yield tasks("hard 1 1 1") + build(2) + ["show table 0 2"]  # P3
    yield (tasks("hard 2 1 3", "soft 2 1,2 3") + build(54)  # P4
           + ["show table %d 1" % i for i in (0, 21, 26, 32, 4)])
    yield (tasks("hard 3 2 4", "hard 3 2 4") + ["test set"]
           + build(144) + ["sum table"])  # P5
    yield tasks("hard 2 1,2 2", "hard 2 1 2") + build(24)  # P6
    yield (tasks("hard 2 1 3", "soft 2 1,2 3")  # P7: entry 0 at the index
           + ["fill table 54 0", "start 0", "ticks 3", "age 1 1",
              "job 1 none", "finished 1 1", "age 2 1", "ask 0"])
    yield tasks("soft 9 3,5,9 9") + ["show set"]  # P8: 276
    yield (PAIR + PAIR_TABLE + ["start 4294967295", "ask 1",  # P9
                                "report 4294967295 1 0", "report 1 1 0",
                                "report 0 1 0", "show run"])
    yield pair_run(10, 0) + ["report 1 0 3", "show run"]  # P10
    yield (sheet("set ABCDEFGHIJKLMNOP", "hard 2 1 2", "hard 2 1 2")  # P11
           + PAIR_TABLE + ["fill file 54 0", "write", "open",
                           "name " + b"ABCDEFGHIJKLMNOQ".hex(), "open"])
    yield PAIR + ["fill table 16 1", "test table"]  # P12
    yield read(b"")
    yield read(b"set PAIR\nhard 17")
    yield (tasks("hard 14 14 16", "hard 1 1 5", "hard 4 4 5")
           + ["test set", "show set"])
    yield tasks("hard 16 16 16", "hard 13 13 16") + ["test set", "show set"]


def sets():
    for field, value in (("kind", 2), ("kind", 255), ("deadline", 0),
                         ("deadline", 17), ("deadline", 255), ("runs", 0),
                         ("gaps", 0), ("runs", 32768), ("gaps", 1)):
        for number in (1, 2):
            yield PAIR + ["%s %d %d" % (field, number, value), "test set"]
    for field in ("kind", "deadline", "runs", "gaps"):
        for number in (3, 5, 7):
            yield PAIR + ["%s %d 1" % (field, number), "test set"]
    for count in (0, 1, 3, 7, 8, 255):
        yield PAIR + ["count %d" % count, "test set"]
    # 4 at task 1 before 3 at task 7; name and count before both; 6 last.
    yield PAIR + ["runs 1 4", "gaps 7 1", "test set", "count 0", "test set",
                  "count 2", "name " + "00" * 16, "test set"]
    yield (["reset", "count 6", "name 41" + "00" * 15]
           + ["%s %d %d" % (field, number, value) for number in range(1, 7)
              for field, value in (("deadline", 16), ("runs", 32768),
                                   ("gaps", 32768))]
           + ["test set", "gaps 7 1", "test set", "gaps 6 1", "test set"])
    for name in (b"A\0B", b"", b"a", b"A ", b"\0A", b"A_", b"\xff", b"/",
                 b":", b"@", b"[", b"`", b"ABCDEFGHIJKLMNOP", b"-", b"0",
                 b"9", b"Z", b"ABCDEFGHIJKLMNO\1"):
        yield PAIR + ["name " + name.ljust(16, b"\0").hex(), "test set"]
    # S of 60,000, of 60,025, and S where a narrow product wraps.
    yield tasks("soft 4 4 5", "soft 4 4 5", "soft 5 5 16") + ["test set"]
    yield tasks("soft 4 4 5", "soft 6 6 7", "soft 6 6 7") + ["test set"]
    yield tasks("hard 15 15 16", "hard 15 15 16") + ["test set"]
    yield tasks(*["hard 15 15 16"] * 4) + ["test set"]
    yield tasks(*["hard 15 15 16"] * 7) + ["test set"]
    yield tasks(*["hard 16 16 16"] * 7) + ["test set"]
    yield (["reset", "count 4", "name 41" + "00" * 15]
           + ["%s %d %d" % (field, number, value) for number in range(1, 5)
              for field, value in (("deadline", 15), ("runs", 16384),
                                   ("gaps", 32768))] + ["test set"])
    # Every call tests the set first.
    yield (PAIR + ["start 3", "ticks 16777217", "count 9", "cut table 0",
                   "cut work 0", "cut file 0", "cut text 0", "build",
                   "test table", "sheet", "write", "open", "ask 9",
                   "report 9 1 255", "start 7", "show run"])


def shield():
    yield tasks("hard 1 1 3") + build(6) + ["show table 0 6"]
    yield tasks("soft 1 1 1") + build(2) + ["show table 0 2"]
    for byte in (0, 255):
        yield PAIR + build(16, 4, byte)
        yield tasks("hard 3 2 4", "hard 3 2 4") + build(144, 3, byte)
    yield PAIR + ["fill table 15 9", "fill work 15 9", "build", "sum table",
                  "sum work", "cut table 16", "build", "sum table",
                  "sum work"]
    yield tasks(*["soft 1 1 1"] * 7) + build(128) + ["show table 0 1"]
    for index, entry in ((15, 8), (8, 0), (0, 0), (1, 7), (10, 1), (15, 128),
                         (0, 2), (0, 1), (3, 4)):
        yield PAIR + PAIR_TABLE + ["poke table %d %d" % (index, entry),
                                   "test table"]
    yield PAIR + PAIR_TABLE + ["cut table 18", "poke table 16 255",
                               "test table", "cut table 15", "test table"]
    yield PAIR + ["fill table 16 0", "test table", "poke table 0 2",
                  "test table", "poke table 11 4", "test table"]
    # Removal at once: r 3 and R 3.
    yield tasks("hard 3 1,2 3", "hard 1 1 1,2") + build(36)
    yield tasks("hard 4 2 4", "hard 2 1 2") + build(48)
    # Early finishes, and arrivals that may stay away.
    yield tasks("hard 2 1,2 2") + table_of(2, 0, 0, 0, 2, 0) + ["test table"]
    yield tasks("hard 2 1,2 2") + table_of(2, 0, 0, 0, 2, 1) + ["test table"]
    yield tasks("hard 1 1 1,2") + table_of(2, 0, 0, 0) + ["test table"]
    yield tasks("hard 1 1 1,2") + table_of(2, 0, 0, 1) + ["test table"]


def sheet_texts():
    good = b"set A\nhard 1 1 1\n"
    seven = b"set A\n" + b"soft 1 1 1\n" * 7
    ones = b"set A\nhard 1 " + b"1," * 503 + b"1 1\n"
    for length in range(0, len(good) + 1, 3):
        yield read(good[:length])
    yield read(good) + ["show set"]
    for text in (good[:-1], good + b"\n", b"\n" + good, good + b"\0",
                 b"set A\n\nhard 1 1 1\n", b"set A \nhard 1 1 1\n",
                 b"set A\nhard 1 1 1 \n", b"set A\r\nhard 1 1 1\r\n",
                 b"set A\nhard 1 1 1\r\n", b"set A\nhard  1 1 1\n",
                 b"set A\n", b"set  A\n", b"set \n", b"set a\n", b"Set A\n",
                 b"set A\nset", b"set A\nso", b"set A\nhs", b"set A\nhard1",
                 b"set ABCDEFGHIJKLMNOPQ\nhard 1 1 1\n",
                 b"set ABCDEFGHIJKLMNOP\nhard 1 1 1\n",
                 seven, seven + b"soft 1 1 1\n", seven + b"x",
                 seven + b"\n", ones, ones + b"h", ones + b"hard",
                 b"set AB" + ones[5:], b"set ABC" + ones[5:],
                 b"set A\nhard 1 1,1 1\nhard 0", b"set A\nhard 2 1 2\nsoft"):
        yield read(text)
    for number in (b"0", b"01", b"17", b"160", b"16", b"10", b"9", b"20",
                   b"116", b"-1", b"+1", b",", b"1,2", b"a", b""):
        yield read(b"set A\nhard " + number + b" 1 16\n")
        yield read(b"set A\nhard 16 1," + number + b" 16\n")
        yield read(b"set A\nhard 1 1 1," + number + b"\n")
    for lines in (["hard 2 2,1 2"], ["hard 2 1 3,2"], ["hard 2 1,1 2"],
                  ["hard 2 1 2,2"], ["hard 1 3,2 1"], ["hard 5 1 4,3"],
                  ["hard 3 4 2"], ["hard 3 4 3"], ["hard 3 3 2"],
                  ["hard 3 1,4 3"], ["hard 3 1 2,4"], ["soft 3 1,4 2,4"],
                  ["hard 3 1 2", "hard 1 1,1 1"],
                  ["hard 3 4 3", "hard 1 1,1 1"],
                  ["soft 1 1 1", "hard 3 1 2", "hard 3 4 3"],
                  ["hard 16 16 16"] * 5 + ["soft 1 1 2,2"],
                  ["hard 16 %s 16" % ",".join(str(k) for k in
                                              list(range(1, 17)) + [1])],
                  ["hard 16 %s 16" % ",".join(str(k) for k in
                                              range(1, 17))],
                  ["soft 1 1 %s" % ",".join(str(k) for k in
                                            range(1, 17))]):
        yield sheet("set A", *lines) + ["show set"]
    for byte in (0, 10, 65, 104, 255):
        yield ["fill text 1025 %d" % byte, "read", "cut text 1024", "read"]
    for length in (0, 30, 31, 32, 1200):
        yield PAIR + ["fill text %d 5" % length, "sheet", "sum text"]


def readers():
    """A reader at a place of its text, and its place after reading."""
    good = b"set A\nhard 1 1 1\n"
    for before in (b"", b"x", b"\n\n", b"set B\n"):
        for text in (good, good[:-1], good + b"x", good[:4], b"", b"set A\nhard 2 3 3\n",
                     b"set A\nhard 2 2,1 2\n"):
            at = len(before)
            yield (PAIR + enter(before + text)
                   + ["past %d" % at, "show set", "sum text", "next %d" % at,
                      "show set", "past 0", "next 0"])
    # At places of its own, of the end, and beyond it.
    yield enter(good) + [command % at for at in (1, 16, 17, 18, 65535)
                         for command in ("past %d", "next %d")]
    # More than 1,024 bytes are left before place 176, and no more from it on.
    for at in (0, 1, 175, 176, 1199, 1200):
        yield ["fill text 1200 115", "past %d" % at, "next %d" % at]
    yield (["fill text 1100 120", "text " + PAIR_SHEET.hex()]
           + [command % at for at in (1100, 106, 107)
              for command in ("past %d", "next %d")])
    # A form that is right, with 1,024 bytes left and with 1,025.
    ones = b"set AB\nhard 1 " + b"1," * 503 + b"1 1\n"
    yield enter(b"z" + ones) + ["past 1", "next 1", "past 0", "read"]
    # 5 and 6 at a place.
    for text in (b"set A\nhard 3 3 2\n", b"set A\n" + b"hard 16 16 16\n" * 2):
        yield enter(b"z" + text) + ["past 1", "next 1", "show set"]


def reports():
    """The report on a sheet, with what it leaves of the buffers."""
    left = ["sum text", "sum table", "sum work", "sum file", "show set",
            "show run"]
    held = tasks("soft 3 1,2 3", "hard 1 1 2") + ["start 77"]
    pair = PAIR_SHEET
    for text, table, work, output in (
            (pair, 16, 16, 390), (pair, 20, 17, 400), (pair, 16, 16, 389),
            (pair, 0, 0, 0), (pair, 15, 16, 390), (pair, 16, 15, 390),
            (b"", 16, 16, 390), (b"", 16, 16, 389), (pair[:-1], 16, 16, 390),
            (b"set A\nhard 2 1,2 2\nhard 2 1 2\n", 30, 30, 390),
            (b"set SWEEP\nhard 2 1 2\nhard 3 1 4\nsoft 1 1 1\n", 64, 64, 390),
            (b"set SIXTEEN-LETTERS-\nhard 2 1 3\nsoft 3 2 4\n", 72, 72, 390),
            (b"set EXAMPLE-1\nhard 2 1 3\nsoft 2 1,2 3\n", 60, 55, 390),
            (b"set ONE\nhard 1 1 1\n", 5, 2, 390),
            (b"set A\nhard 2 3 3\n", 9, 9, 390),
            (b"set A\nhard 2 2,1 2\n", 9, 9, 390),
            (b"set A\nhard 3 3 2\n", 9, 9, 390),
            (b"set A\n" + b"soft 1 1 1\n" * 7, 128, 128, 500),
            (b"set A\nhard 16 16 16\nhard 13 13 16\n", 9, 9, 390)):
        yield (held + enter(text) + ["fill table %d 9" % table, "fill work %d 8" % work,
                              "fill file %d 7" % output, "print"] + left)
    yield ["fill text 1025 65", "fill table 9 9", "fill work 9 9",
           "fill file 390 7", "print"] + left


def table_files():
    yield PAIR_FILE + ["show file 0 54", "open"]
    yield (PAIR_FILE + [command for offset in range(38) for command in
                        ("poke file %d 77" % offset, "open",
                         "poke file %d %d" % (offset, file_byte(offset)))]
           + ["open"])
    yield (PAIR_FILE + [command for length in
                        (55, 54, 53, 39, 38, 37, 22, 21, 20, 6, 5, 4, 3, 2, 0)
                        for command in ("cut file %d" % length, "open")]
           + ["sum table"])
    yield PAIR_FILE + ["poke file 4 1", "open", "poke file 2 0", "open"]
    yield PAIR_FILE + ["poke file 20 1", "cut file 55", "open", "cut file 21",
                       "open", "cut file 20", "open"]
    yield PAIR_FILE + ["poke file 37 1", "poke file 22 0", "open"]
    yield PAIR_FILE + ["poke file 46 0", "open", "sum table"]
    yield PAIR_FILE + ["count 1", "open", "kind 2 0", "deadline 2 0",
                       "runs 2 0", "gaps 2 0", "open"]
    yield PAIR_FILE + ["count 3", "deadline 3 1", "runs 3 1", "gaps 3 1",
                       "open"]
    yield PAIR_FILE + ["kind 1 0", "open", "kind 1 1", "gaps 2 6", "open"]
    yield PAIR + ["fill table 15 1", "fill file 10 1", "write", "cut table 16",
                  "write", "cut file 54", "write", "sum file"]
    yield (PAIR + PAIR_TABLE + ["cut table 20", "poke table 19 7",
                                "fill file 60 3", "write", "sum file"])


def file_byte(offset):
    header = (b"SHT\1\0" + b"PAIR".ljust(16, b"\0") + b"\2"
              + b"\1\2\1\0\2\0" * 2 + b"\x10\0\0\0")
    return header[offset]


def run_calls():
    begun = PAIR + PAIR_TABLE + ["start 77"]
    yield begun + ["show run", "report 78 0 0", "ask 2", "ask 2",
                   "report 77 1 0", "report 79 1 0", "report 78 1 0",
                   "show run"]
    yield ["reset", "start 5", "show run", "ask 0", "report 6 0 0"]
    for proposal, entry in ((2, 7), (0, 9), (0, 0), (1, 5), (3, 5), (255, 5),
                            (3, 0), (0, 129), (2, 4), (0, 4), (0, 1), (2, 1)):
        yield pair_run(1, "none") + ["poke table 1 %d" % entry,
                                     "ask %d" % proposal, "show run"]
    yield pair_run(10, "none") + ["poke table 10 1", "ask 0"]
    yield begun + ["ask 0", "show run"]
    # Least D minus age, lowest number on a tie.
    trio = (tasks("soft 5 1 5", "soft 3 1 5", "soft 4 1 5")
            + ["fill table 1000 14", "start 0", "ticks 10"])
    yield trio + ["ask 0"]
    yield trio + ["age 3 1", "ask 0"]
    yield trio + ["age 1 2", "age 3 1", "ask 0"]
    yield trio + ["age 3 2", "ask 0"]
    yield trio + ["age 1 4", "age 3 2", "ask 0"]
    for awaited, finished, arrivals in (
            (0, 0, 1), (0, 0, 2), (0, 0, 3), (0, 1, 3), (1, 1, 3), (1, 0, 3),
            (2, 1, 3), (0, 0, 128), (0, 0, 131), (0, 0, 7), (0, 0, 0)):
        yield pair_run(10, awaited) + ["report 1 %d %d"
                                       % (finished, arrivals), "show run"]
    yield pair_run(10, 0) + ["report 2 1 255"]
    yield (tasks(*["soft 1 1 1"] * 7) + ["start 0", "awaited 0",
                                         "report 1 0 255", "report 1 0 127",
                                         "show run"])
    # The end of the ticks.
    yield begun + ["ticks 16777215", "ask 1", "report 78 1 0", "show run",
                   "ask 1", "ask 9", "report 79 1 0", "awaited 0",
                   "report 79 0 0", "ask 0", "awaited none",
                   "ticks 16777217", "ask 1"]
    # One refusal before the other.
    yield begun + ["report 5 1 255", "ask 2", "ask 9", "report 5 1 255"]
    yield begun + ["ticks 33554432", "ask 9", "report 5 1 255", "awaited 0",
                   "ask 9", "report 5 1 255"]
    yield begun + ["ticks 33554432", "cut table 15", "ask 0", "cut table 16",
                   "ask 0", "report 78 0 0"]


def run_states():
    """States that fit or not; each is tried by an ask and a report."""
    tried = ["ask 0", "report 1 1 0", "show run"]
    for change in (
            "age 2 1", "age 2 2", "age 2 255", "job 2 1", "job 2 255",
            "job 2 none", "arrived 2 0", "arrived 2 2", "arrived 2 4294967295",
            "finished 2 1", "finished 2 4294967295", "replaced 1 1",
            "ticks 0", "ticks 16777216", "ticks 16777217", "ticks 4294967295",
            "substitutions 10", "substitutions 11", "substitutions 12",
            "substitutions 4294967295", "awaited 1", "awaited 2", "awaited 3",
            "awaited 7", "awaited 8", "awaited 255", "reading 4294967295"):
        yield pair_run(0, "none") + [change] + tried
        yield pair_run(0, 0) + [change] + tried
    for number in (3, 7):
        for change in ("age", "job", "arrived", "finished", "replaced"):
            value = 0 if change == "job" else 1
            yield pair_run(0, "none") + ["%s %d %d" % (change, number, value),
                                         "ask 0"]
    fit = pair_run(0, "none")
    yield fit + ["job 2 none", "arrived 2 0", "ask 1"]
    yield fit + ["arrived 2 2", "finished 2 1", "ask 1"]
    yield fit + ["arrived 2 2", "replaced 2 1", "ask 1"]
    yield fit + ["arrived 2 11", "finished 2 10", "ask 1"]
    yield fit + ["arrived 2 12", "finished 2 11", "ask 1"]
    yield fit + ["job 1 none", "finished 1 4294967295", "replaced 1 2",
                 "ask 0"]
    yield fit + ["finished 1 4294967295", "replaced 1 1", "ask 0"]
    yield pair_run(1, 1) + ["report 1 1 0"]
    yield (tasks("hard 1 1 3") + table_of(2, 1, 0, 1, 1, 1)
           + ["start 0", "ticks 9", "age 1 2", "ask 0", "report 1 0 1",
              "awaited 1", "report 1 1 1"])
    yield (tasks("soft 3 3 3") + ["fill table 12 2", "start 0", "job 1 2",
                                  "ask 0", "report 1 1 0", "show run",
                                  "job 1 3", "ask 0"])


def all_cases():
    cases = []
    for topic in (figures, sets, shield, sheet_texts, readers, reports,
                  table_files, run_calls, run_states):
        cases += topic()
    return cases


if __name__ == "__main__":
    for case in all_cases():
        for command in case:
            sys.stdout.write(command + "\n")
