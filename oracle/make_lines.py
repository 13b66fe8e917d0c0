"""make_lines.py: what docs/REPLAY.md says of lines and buffers, and every
command after a bad record, as lines of bytes.
"""

MOST = {"table": 65536, "work": 65536, "file": 70000, "text": 1200}

# all that the program holds
STATE = ["show set", "show run"] + ["sum " + name for name in MOST]


def long_line(length):
    """A line of a number of bytes that would fill a buffer, but for its length."""
    return "fill table 1 " + "0" * (length - len("fill table 1 "))


def mangled():
    """Lines that are mangled, by the rule that says so."""
    yield from [long_line(256), long_line(257), "x" * 1000]  # 1
    yield from ["", " ", " ask 1", "ask 1 ", "ask  1", "  ask 1"]  # 2
    yield from ["Ask 1", "askk 1", "asks", "\task 1", "ask\t1", "\xff", "\0", "read\r", "rea", "?"]  # 3
    yield from ["ask", "ask 1 2", "read 1", "next", "past 1 2", "print 1", "show", "show set 1", "job 1", "report 1 1", "reset reset"]  # 4
    yield from ["ask x", "ask 1x", "ask -1", "ask +1", "ask 01", "ask 00", "ask 1.0", "fill tabel 1 1",
                "show sets", "text 0", "text 012", "text 0G", "text 0A", "text ag", "job 1 None",
                "awaited nothing", "next none", "past 01", "ask 1\0", "ask \xb2"]  # 5
    yield from ["age 0 1", "age 8 1", "report 1 2 0", "ask 256", "ask 1000", "runs 1 65536", "gaps 7 65536", "next 65536", "past 65536",
                "start 4294967296", "ticks 18446744073709551616", "ask 100000000000000000000000000000",
                "name " + "41" * 15, "name " + "41" * 17, "text " + "41" * 126]  # 6
    for name, most in MOST.items():
        yield from ["fill %s %d 0" % (name, most + 1), "cut %s %d" % (name, most + 1),
                    "poke %s %d 1" % (name, 5), "show %s 0 0" % name, "show %s 0 257" % name,
                    "show %s 0 6" % name, "show %s 5 1" % name, "show %s 6 1" % name, "fill %s 5 256" % name]


def lines():
    """Every mangled line on a desk that holds something, and that nothing has changed."""
    yield from ["fill %s 5 7" % name for name in MOST]
    yield from ["count 3", "deadline 7 255", "start 9", "ticks 8", "awaited 255"] + STATE
    for line in mangled():
        yield line
    yield from STATE
    yield from ["fill text 1199 65", "text 4142", "text 41", "text 41", "sum text"]


def buffers():
    """Bytes that a cut gives back are zero; each buffer at its most."""
    for name, most in MOST.items():
        yield from ["fill %s 5 255" % name, "cut %s 3" % name, "cut %s 6" % name, "show %s 0 6" % name,
                    "cut %s 0" % name, "cut %s 5" % name, "show %s 0 5" % name]
        yield from ["fill %s %d 170" % (name, most), "poke %s %d 7" % (name, most - 1),
                    "show %s %d 256" % (name, most - 256), "sum " + name]
    yield "reset"
    for name, most in MOST.items():
        yield from ["cut %s %d" % (name, most), "sum " + name, "show %s %d 1" % (name, most - 1)]


def bad_records():
    """PAIR's record made bad by each of 3 to 6, before every command that tests it."""
    pair = ["name 50414952" + "00" * 12, "count 2"]
    for number in (1, 2):
        pair += ["kind %d 1" % number, "deadline %d 2" % number, "runs %d 1" % number, "gaps %d 2" % number]
    room = ["fill table 16 1", "fill work 16 1", "fill file 54 1", "fill text 40 1"]
    called = ["sheet", "build", "test table", "write", "open", "start 1", "ask 0", "report 1 0 0"]
    for bad in (["count 8"], ["kind 2 2"], ["deadline 1 17"], ["gaps 3 1"], ["runs 2 4"], ["gaps 1 1"],
                ["deadline %d 16" % n for n in (1, 2)] + ["runs %d 32768" % n for n in (1, 2)]
                + ["gaps %d 32768" % n for n in (1, 2)]):
        yield from ["reset"] + pair + room + ["start 0"] + bad + ["test set"] + called
        yield from ["show run"] + ["sum " + name for name in MOST]


def all_lines():
    for topic in (lines, buffers, bad_records):
        yield "reset"
        yield from topic()
