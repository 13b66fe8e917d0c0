"""The answers of docs/REPLAY.md to a command text on standard input."""

import sys
import zlib

import files
import report
import runs
import sets
import sheets
import shield
from refusal import Refused

MOST_LINE_BYTES = 255
MOST_SHOWN = 256
LONGEST = {"table": 65536, "work": 65536, "file": 70000, "text": 1200}

BYTE = (1 << 8) - 1
HALF = (1 << 16) - 1
WIDE = (1 << 32) - 1


class Mangled(Exception):
    """The line is none of the commands."""


# ---- the forms of words --------------------------------------------------

def need(condition):
    if not condition:
        raise Mangled


def number(word, least, most):
    need(all(c in "0123456789" for c in word))
    need(word == "0" or word[0] != "0")
    value = int(word)
    need(least <= value <= most)
    return value


def some_bytes(word, least, most):
    need(all(c in "0123456789abcdef" for c in word))
    need(len(word) % 2 == 0)
    need(least <= len(word) // 2 <= most)
    return bytes.fromhex(word)


def number_or_none(word, most):
    if word == "none":
        return None
    return number(word, 0, most)


def task_number(word):
    return number(word, 1, sets.MOST_TASKS)


def buffer_name(word):
    need(word in LONGEST)
    return word


def shown(value):
    return "none" if value is None else str(value)


# ---- the program ---------------------------------------------------------

class Replay:
    def __init__(self):
        self.line_number = 0
        self.do_reset()

    def answer(self, line):
        """The answer to one line (bytes without its LF)."""
        self.line_number += 1
        try:
            need(len(line) <= MOST_LINE_BYTES)
            words = line.decode("latin-1").split(" ")
            need(all(len(word) > 0 for word in words))
            need(words[0] in self.COMMANDS)
            least_words, most_words, do = self.COMMANDS[words[0]]
            need(least_words <= len(words) - 1 <= most_words)
            return do(self, *words[1:])
        except Mangled:
            return "? %d" % self.line_number
        except Refused as refusal:
            return "refused %d %d" % (refusal.number, refusal.place)

    def do_reset(self):
        self.set = sets.ZERO_SET
        self.run = runs.ZERO_RUN
        self.buffers = {name: bytearray() for name in LONGEST}
        return "ok"

    # -- buffers --

    def do_fill(self, name, length, value):
        name = buffer_name(name)
        length = number(length, 0, LONGEST[name])
        value = number(value, 0, BYTE)
        self.buffers[name] = bytearray([value]) * length
        return "ok"

    def do_cut(self, name, length):
        name = buffer_name(name)
        length = number(length, 0, LONGEST[name])
        kept = self.buffers[name][:length]
        self.buffers[name] = kept + bytes(length - len(kept))
        return "ok"

    def do_poke(self, name, offset, value):
        buffer = self.buffers[buffer_name(name)]
        offset = number(offset, 0, len(buffer) - 1)
        value = number(value, 0, BYTE)
        buffer[offset] = value
        return "ok"

    def do_show(self, name, *rest):
        if name == "set" and len(rest) == 0:
            return self.show_set()
        if name == "run" and len(rest) == 0:
            return self.show_run()
        need(len(rest) == 2)
        buffer = self.buffers[buffer_name(name)]
        offset = number(rest[0], 0, len(buffer))
        count = number(rest[1], 1, MOST_SHOWN)
        need(offset + count <= len(buffer))
        return "bytes " + buffer[offset:offset + count].hex()

    def do_sum(self, name):
        buffer = self.buffers[buffer_name(name)]
        return "sum %d %d" % (len(buffer), zlib.adler32(buffer))

    def do_text(self, word):
        added = some_bytes(word, 1, 125)
        need(len(self.buffers["text"]) + len(added) <= LONGEST["text"])
        self.buffers["text"] += added
        return "ok"

    # -- set and sheet --

    def do_read(self):
        self.set = sets.ZERO_SET  # what a refused read returns
        self.set = sheets.read_sheet(self.buffers["text"])
        return "ok"

    def do_next(self, word):
        at = number(word, 0, HALF)
        self.set = sets.ZERO_SET
        self.set = sheets.read_sheet(self.buffers["text"][at:])
        return "ok"

    def do_past(self, word):
        at = number(word, 0, HALF)
        return "place %d" % sheets.place_after(self.buffers["text"], at)

    def do_sheet(self):
        length = sheets.write_sheet(self.set, self.buffers["text"])
        return "sheet %d %s" % (length, self.buffers["text"][:length].hex())

    def do_name(self, word):
        self.set = self.set._replace(name=some_bytes(word, 16, 16))
        return "ok"

    def do_count(self, word):
        self.set = self.set._replace(count=number(word, 0, BYTE))
        return "ok"

    def set_record(self, which, **field):
        tasks = list(self.set.tasks)
        tasks[which - 1] = tasks[which - 1]._replace(**field)
        self.set = self.set._replace(tasks=tuple(tasks))
        return "ok"

    def do_kind(self, which, word):
        return self.set_record(task_number(which), kind=number(word, 0, BYTE))

    def do_deadline(self, which, word):
        return self.set_record(task_number(which),
                               deadline=number(word, 0, BYTE))

    def do_runs(self, which, word):
        return self.set_record(task_number(which), runs=number(word, 0, HALF))

    def do_gaps(self, which, word):
        return self.set_record(task_number(which), gaps=number(word, 0, HALF))

    def show_set(self):
        words = ["set", self.set.name.hex(), str(self.set.count)]
        for task in self.set.tasks:
            words += [str(field) for field in task]
        return " ".join(words)

    def do_test(self, what):
        need(what in ("set", "table"))
        if what == "set":
            return "states %d" % sets.test_set(self.set)
        shield.test_table(self.set, self.buffers["table"])
        return "passed"

    # -- table and file --

    def do_build(self):
        return "shield %d %d %d" % shield.build(
            self.set, self.buffers["table"], self.buffers["work"])

    def do_write(self):
        return "file %d" % files.write_file(
            self.set, self.buffers["table"], self.buffers["file"])

    def do_open(self):
        part = files.open_file(self.set, self.buffers["file"])
        self.buffers["table"] = bytearray(part)
        return "part %d %d" % (len(part), zlib.adler32(part))

    def do_print(self):
        output = self.buffers["file"]
        length = report.report(self.buffers["text"], self.buffers["table"],
                               self.buffers["work"], output)
        return "report %d %s" % (length, output[:length].hex())

    # -- run --

    def do_start(self, reading):
        reading = number(reading, 0, WIDE)
        self.run = runs.ZERO_RUN  # what a refused start returns
        self.run = runs.start(self.set, reading)
        return "ok"

    def do_ask(self, proposal):
        proposal = number(proposal, 0, BYTE)
        choice, self.run = runs.ask(self.set, self.buffers["table"],
                                    self.run, proposal)
        return "choice %d" % choice

    def do_report(self, reading, finished, arrivals):
        reading = number(reading, 0, WIDE)
        finished = number(finished, 0, 1)
        arrivals = number(arrivals, 0, BYTE)
        self.run = runs.report(self.set, self.run, reading,
                               finished == 1, arrivals)
        return "ok"

    def show_run(self):
        run = self.run
        words = ["run", str(run.reading), str(run.ticks),
                 str(run.substitutions), shown(run.awaited)]
        for place in run.places:
            words += [shown(field) for field in place]
        return " ".join(words)

    def set_place(self, which, **field):
        places = list(self.run.places)
        places[which - 1] = places[which - 1]._replace(**field)
        self.run = self.run._replace(places=tuple(places))
        return "ok"

    def do_age(self, which, word):
        return self.set_place(task_number(which), age=number(word, 0, BYTE))

    def do_job(self, which, word):
        return self.set_place(task_number(which),
                              job=number_or_none(word, BYTE))

    def do_arrived(self, which, word):
        return self.set_place(task_number(which),
                              arrived=number(word, 0, WIDE))

    def do_finished(self, which, word):
        return self.set_place(task_number(which),
                              finished=number(word, 0, WIDE))

    def do_replaced(self, which, word):
        return self.set_place(task_number(which),
                              replaced=number(word, 0, WIDE))

    def do_ticks(self, word):
        self.run = self.run._replace(ticks=number(word, 0, WIDE))
        return "ok"

    def do_substitutions(self, word):
        self.run = self.run._replace(substitutions=number(word, 0, WIDE))
        return "ok"

    def do_reading(self, word):
        self.run = self.run._replace(reading=number(word, 0, WIDE))
        return "ok"

    def do_awaited(self, word):
        self.run = self.run._replace(awaited=number_or_none(word, BYTE))
        return "ok"

    # Each command with the least and most number of words after it.
    COMMANDS = {
        "reset": (0, 0, do_reset),
        "fill": (3, 3, do_fill),
        "cut": (2, 2, do_cut),
        "poke": (3, 3, do_poke),
        "show": (1, 3, do_show),
        "sum": (1, 1, do_sum),
        "text": (1, 1, do_text),
        "read": (0, 0, do_read),
        "next": (1, 1, do_next),
        "past": (1, 1, do_past),
        "sheet": (0, 0, do_sheet),
        "name": (1, 1, do_name),
        "count": (1, 1, do_count),
        "kind": (2, 2, do_kind),
        "deadline": (2, 2, do_deadline),
        "runs": (2, 2, do_runs),
        "gaps": (2, 2, do_gaps),
        "test": (1, 1, do_test),
        "build": (0, 0, do_build),
        "write": (0, 0, do_write),
        "open": (0, 0, do_open),
        "print": (0, 0, do_print),
        "start": (1, 1, do_start),
        "ask": (1, 1, do_ask),
        "report": (3, 3, do_report),
        "age": (2, 2, do_age),
        "job": (2, 2, do_job),
        "arrived": (2, 2, do_arrived),
        "finished": (2, 2, do_finished),
        "replaced": (2, 2, do_replaced),
        "ticks": (1, 1, do_ticks),
        "substitutions": (1, 1, do_substitutions),
        "reading": (1, 1, do_reading),
        "awaited": (1, 1, do_awaited),
    }


def lines_of(text):
    """The lines of a text; bytes after the last LF are a line too."""
    lines = text.split(b"\n")
    if lines[-1] == b"":
        lines.pop()
    return lines


def replay(text):
    """All answers to a command text (bytes), as one text."""
    machine = Replay()
    return "".join(machine.answer(line) + "\n" for line in lines_of(text))


if __name__ == "__main__":
    sys.stdout.write(replay(sys.stdin.buffer.read()))
