"""Replay, the example of docs/REPLAY.md, made batches, the stored batch."""

import os

import batch
import make_lines
import make
import replay
import report
import runs
import sets
import sheets
from refusal import Refused
from selftest_base import answer, refused, same

HERE = os.path.dirname(os.path.abspath(__file__))


def mangled_lines():
    """Lines that are mangled, and some that only look so."""
    machine = replay.Replay()
    machine.answer(b"fill text 3 65")
    before = snapshot(machine)
    bad = [b"", b" ", b"reset ", b" reset", b"RESET", b"reset\r", b"\0",
           b"fill text  3 65", b"fill text 03 65", b"fill text 3 256",
           b"fill text 1201 0", b"fill table 65537 0", b"fill work 65537 0",
           b"fill file 70001 0", b"fill set 1 0", b"fill text 3", b"cut text",
           b"cut text 1201", b"poke text 3 0", b"poke table 0 0",
           b"show text 0 0", b"show text 0 4", b"show text 3 1",
           b"show text 4 1", b"show text 0", b"show", b"show text",
           b"show set 0 1", b"show run x", b"sum", b"sum set", b"text",
           b"text a", b"text 0A", b"text 0g", b"text " + b"00" * 126,
           b"name 00", b"name " + b"00" * 17, b"count 256", b"count -1",
           b"kind 0 1", b"kind 8 1", b"runs 1 65536", b"test", b"test run",
           b"start 4294967296", b"start " + b"9" * 100, b"ask 256",
           b"report 0 2 0", b"report 0 0 256", b"age 1 none", b"age 1 256",
           b"job 1 256", b"job 1 None", b"awaited 256", b"ticks none",
           b"read x", b"next", b"next 65536", b"past x", b"past 1 1",
           b"print 0", b"\xff", b"sum text\t", b"reset" + b" " * 251,
           b"ask " + b"0" * 252]
    for line in bad:
        number = machine.line_number + 1
        same("mangled %r" % line, machine.answer(line), "? %d" % number)
    same("mangled changes nothing", snapshot(machine), before)
    for line in (b"text " + b"00" * 125, b"fill text 1200 255",
                 b"fill table 65536 0", b"fill work 65536 0",
                 b"fill file 70000 0", b"cut text 1200", b"cut text 0",
                 b"job 7 255", b"job 7 none", b"awaited none",
                 b"awaited 255", b"ticks 4294967295", b"start 0"):
        same("not mangled %r" % line,
             machine.answer(line).startswith("?"), False)
    machine.answer(b"fill text 1200 1")
    same("text full", machine.answer(b"text 00")[0], "?")
    same("lines", replay.lines_of(b"reset\n\nsum text"),
         [b"reset", b"", b"sum text"])
    same("lines", replay.lines_of(b"reset\n"), [b"reset"])
    same("lines", replay.lines_of(b""), [])
    same("sum", replay.replay(b"sum text\nfill text 3 1\nsum text"),
         "sum 0 1\nok\nsum 3 %d\n" % (9 * 65536 + 4))
    machine.answer(b"reset")
    same("reset", snapshot(machine), snapshot(replay.Replay()))


def snapshot(machine):
    return (machine.set, machine.run,
            {name: bytes(buffer) for name, buffer in machine.buffers.items()})


def document_example():
    """The example of docs/REPLAY.md."""
    path = os.path.join(HERE, "..", "docs", "REPLAY.md")
    with open(path, encoding="utf-8") as document:
        text = document.read()
    block = text.split("## An example")[1].split("```")[1].strip("\n")
    commands = []
    answers = []
    for line in block.split("\n"):
        if line.startswith("> "):
            commands.append(line[2:])
        else:
            answers.append(line)
    got = replay.replay("\n".join(commands).encode("ascii"))
    same("example", got.split("\n")[:-1], answers)
    same("example has answers", len(answers) > 30, True)


# The refusals whose place is always the same.
ONE_PLACE = (1, 6, 9, 10, 14, 15, 17, 18, 20, 21)


def batches():
    """Made batches: all refusals at several places; nothing changes that
    should not."""
    for seed in (1, 2):
        maker = make.Maker(seed, 4000)
        text = maker.make()
        same("lines made", text.count(b"\n"), 4000)
        again = make.Maker(seed, 500).make()
        same("made from the seed alone", text.startswith(again), True)
        machine = replay.Replay()
        seen = {}
        for line, made_with in zip(replay.lines_of(text), maker.answers):
            before = snapshot(machine)
            got = machine.answer(line)
            after = snapshot(machine)
            same("answer", got, made_with)
            if got.startswith("?"):
                same("mangled line", after, before)
            if got.startswith("refused "):
                _, number, place = got.split(" ")
                seen.setdefault(int(number), []).append(int(place))
                refused_change(line, int(number), before, after)
        for number in range(1, 22):
            places = seen.get(number, [])
            same("refusal %d often" % number, len(places) >= 3, True)
            if number not in ONE_PLACE:
                same("refusal %d at several places" % number,
                     len(set(places)) >= 2, True)


def refused_change(line, number, before, after):
    """What a refused command may leave behind."""
    set_before, run_before, buffers_before = before
    set_after, run_after, buffers_after = after
    if line == b"read" or line.startswith(b"next "):
        set_before = sets.ZERO_SET
    if line.startswith(b"start "):
        run_before = runs.ZERO_RUN
    same("set after a refusal", set_after, set_before)
    same("run after a refusal", run_after, run_before)
    if number == 8:
        states = sets.test_set(set_before)
        for name in ("table", "work"):
            kept = buffers_before[name][states:]
            buffers_before[name] = bytes(states) + kept
    same("buffers after a refusal", buffers_after == buffers_before, True)


def stored(name):
    with open(os.path.join(HERE, "..", "crates", "replay", name), "rb") as file:
        return file.read()


def stored_batch():
    """The stored command text and its answers."""
    commands = stored("stdin")
    same("stored commands", commands == batch.batch(), True)
    got = replay.replay(commands).split("\n")
    expected = stored("stdout").decode("ascii").split("\n")
    same("number of answers", len(got), len(expected))
    for place, (a, b) in enumerate(zip(got, expected), start=1):
        same("stored line %d" % place, a, b)
    lines = list(make_lines.all_lines())
    answers = expected[batch.COUNT:batch.COUNT + len(lines)]
    same("what is meant to be mangled is, and nothing else",
         [line for line, a in zip(lines, answers) if a.startswith("?")],
         list(make_lines.mangled()) + ["text 4142", "text 41"])
    same("no case is mangled",
         [a for a in expected[batch.COUNT + len(lines):] if a.startswith("?")], [])


def readers():
    """A reader's place, against what a read from there answers, and by hand."""
    a_sheet = b"set A\nhard 1 1 1\n"
    for text in (b"", a_sheet, b"set B\n" + a_sheet, b"x" + a_sheet[:-1],
                 b"set A\nhard 2 2,1 2\n", b"set A\n" + b"hard 16 16 16\n" * 2,
                 b"s" * 1100):
        for at in list(range(30)) + [75, 76, 1099, 1100, 1101, 65535]:
            try:
                sheets.read_sheet(text[at:])
                place = len(text)
            except Refused as refusal:
                place = {1: at, 2: at + refusal.place}.get(refusal.number, len(text))
            same("place %d of %r" % (at, text[:20]),
                 sheets.place_after(text, at), place)
    for text, at, place in ((b"x" + a_sheet, 1, 18), (b"x" + a_sheet, 0, 0),
                            (b"set B\n" + a_sheet, 0, 7), (b"set B\n" + a_sheet, 6, 23),
                            (b"set B\n" + a_sheet, 24, 24), (b"s" * 1025, 0, 0),
                            (b"s" * 1025, 1, 2)):
        same("place by hand", sheets.place_after(text, at), place)


def reports():
    """The report into buffers: PAIR's, one refused, and one in its line."""
    pair = b"set PAIR\nhard 2 1 2\nhard 2 1 2\n"
    table, work, output = bytearray(b"t" * 18), bytearray(b"w" * 17), bytearray(b"o" * 392)
    same("report's length", report.report(pair, table, work, output), 98)
    same("report's table", table.hex(), "06050205030102010404000403010201" + "74" * 2)
    same("report's work", bytes(work), bytes(16) + b"w")
    same("beyond the report", bytes(output[97:]), b"\n" + b"o" * 294)
    same("refused", answer(report.report, pair, table, work, bytearray(389)), refused(7, 390))
    same("in its line", report.report(pair, bytearray(15), work, output), 13)
    same("the line", bytes(output[:13]), b"refused 7 16\n")


PARTS = [mangled_lines, readers, reports, document_example, batches, stored_batch]
