"""Parts of a command text about sheets and records."""

import sets
import sheets
from maker import Base

SHEET_BYTES = (b" \n\r\0,,--0123456789AZaz/:@[hardsoftset\t\x7f\x80\xff"
               b"  \n\n0178")


class Sheets(Base):
    # ---- acts: sheets ----------------------------------------------------

    def act_sheet_back(self):
        self.restore()
        self.say("show", "set")
        length = len(sheets.sheet_text(self.set))
        self.say("fill", "text", length + self.below(20), self.below(256))
        self.say("sheet")
        self.say("sum", "text")
        if self.chance(70):
            self.say("cut", "text", length)
        self.say("read")
        self.say("show", "set")

    def bent_bytes(self, text):
        """Change, insert, remove, cut or add some byte of a text."""
        place = self.below(len(text) + 1)
        byte = bytes([self.pick(SHEET_BYTES)])
        way = self.below(6)
        if way <= 1:
            return text[:place] + byte + text[place + 1:]
        if way == 2:
            return text[:place] + byte + text[place:]
        if way == 3:
            return text[:place] + text[place + 1:]
        if way == 4:
            return text[:place]
        return text + byte

    def bent_sheet(self, text):
        """Change a sheet at a place that means something."""
        lines = text.split(b"\n")
        if len(lines) < 3:
            return self.bent_bytes(text)
        at = self.between(1, len(lines) - 2)
        words = lines[at].split(b" ")
        if len(words) != 4:
            return self.bent_bytes(text)
        number = b"%d" % self.pick([1, 2, 3, 8, 9, 10, 15, 16])
        bad = self.pick([b"0", b"00", b"01", b"016", b"17", b"18", b"19",
                         b"20", b"160", b"161", b"99", b"", b"-1", b"1 ",
                         b"1,", b",1", b"1,,2", b"1 2", b"A"])
        way = self.below(13)
        if way == 0:  # a value, or what is none, for a whole word
            words[self.between(1, 3)] = self.pick([number, bad])
        elif way == 1:  # a word of the kinds
            words[0] = self.pick([b"hard", b"soft", b"set", b"har", b"Hard",
                                  b"hardy", b"sof", b"s", b"h", b""])
        elif way == 2:  # a list made longer, rising or not
            words[self.between(2, 3)] += b"," + self.pick([number, bad])
        elif way == 3:  # a list turned round, or with equal neighbours
            which = self.between(2, 3)
            values = words[which].split(b",")
            words[which] = b",".join(self.pick([values[::-1],
                                                values + values,
                                                values + values[-1:]]))
        elif way == 4:  # a list that begins elsewhere
            which = self.between(2, 3)
            words[which] = number + b"," + words[which]
        elif way == 5:  # words missing or too many
            if self.chance(50):
                words.pop(self.below(len(words)))
            else:
                words.insert(self.below(len(words) + 1), number)
        elif way == 6:  # a line twice, moved or left out
            lines.insert(self.below(len(lines)), lines[at])
        elif way == 7:
            lines.pop(self.below(len(lines)))
        elif way == 8:  # seven, eight or more tasks
            lines[-1:-1] = [lines[at]] * (self.pick([7, 8, 8, 9])
                                          - self.set.count)
        elif way == 9:  # names
            letters = sets.NAME_CHARACTERS.decode("ascii")
            name = "".join(self.pick(letters) for _ in
                           range(self.pick([0, 1, 15, 16, 17, 18])))
            lines[0] = b"set " + name.encode("ascii")
        elif way == 10:
            lines[0] = self.pick([b"set", b"set ", b"se", b"", b"SET A",
                                  b"set A B", b"set A ", b" set A", b"set a",
                                  b"set A_B", b"set  A"])
        elif way == 11:  # other line ends
            return text.replace(b"\n", self.pick([b"\r\n", b"\r", b"\n\n",
                                                  b" \n", b"\0"]))
        elif way == 12:  # D against C and A
            words[1] = number
        lines[at] = b" ".join(words) if way not in (6, 7, 8) else lines[at]
        return b"\n".join(lines)

    def act_sheets(self):
        """Sheets bent in one or more ways; each is read."""
        for _ in range(6):
            text = sheets.sheet_text(self.set)
            for _ in range(self.pick([1, 1, 1, 2, 3])):
                if self.chance(60):
                    text = self.bent_sheet(text)
                else:
                    text = self.bent_bytes(text)
            self.enter_text(text[:1200])
            self.say("read")
            if self.chance(30):
                self.say("show", "set")

    def act_reader(self):
        """A reader at a place of a text: bytes, a sheet, perhaps bent."""
        for _ in range(3):
            text = sheets.sheet_text(self.set)
            if self.chance(40):
                text = self.pick([self.bent_sheet, self.bent_bytes])(text)
            before = bytes(self.pick(SHEET_BYTES) for _ in
                           range(self.pick([0, 1, self.below(6), self.below(900)])))
            self.enter_text((before + text)[:1200])
            for at in (len(before), self.pick([0, len(before) + self.below(8)])):
                self.say("past", at)
                if self.chance(50):
                    self.say("show", "set")
                self.say("next", at)
            self.say("show", "set")
        length = self.pick([1024, 1025, 1100, 1200])
        self.say("cut", "text", length)
        for at in self.shuffled([0, 1, length - 1025, length - 1024,
                                 length - 1, length, length + 1, 65535])[:4]:
            if at >= 0:
                self.say("past", at)
                self.say("next", at)

    def act_print(self):
        """The report on a sheet, perhaps bent, with buffers about their
        lengths."""
        states = self.states()
        for _ in range(2):
            text = sheets.sheet_text(self.set)
            if self.chance(30):
                text = self.bent_sheet(text)
            self.enter_text(text[:1200])
            for name in ("table", "work"):
                length = self.pick([states, states, states + self.below(9),
                                    states - self.below(2)])
                self.say("fill", name, length, self.below(256))
            self.say("fill", "file", self.pick([389, 390, 390, 391, 600]),
                     self.below(256))
            self.say("print")
            for name in ("text", "table", "work", "file"):
                self.say("sum", name)
        self.say("show", "set")

    def act_sheets_in_order(self):
        """Right form, with faults 3, 4, 5 in several tasks, or 6."""
        for _ in range(4):
            lines = [b"set " + self.random_name().encode("ascii")]
            for _ in range(self.between(1, 7)):
                deadline = self.between(1, 16)
                c = [self.between(1, 16) for _ in
                     range(self.pick([1, 1, 2, 3]))]
                a = [self.between(1, 16) for _ in
                     range(self.pick([1, 1, 2, 3]))]
                if self.chance(80):
                    c = sorted(min(v, deadline) for v in c)
                if self.chance(80):
                    a = sorted(max(v, deadline) for v in a)
                if self.chance(85):
                    c = sorted(dict.fromkeys(c))
                    a = sorted(dict.fromkeys(a))
                lines.append(b"%s %d %s %s" % (
                    self.pick([b"hard", b"soft"]), deadline,
                    b",".join(b"%d" % v for v in c),
                    b",".join(b"%d" % v for v in a)))
            self.enter_text(b"".join(line + b"\n" for line in lines))
            self.say("read")
            self.say("test", "set")
            self.say("show", "set")

    def act_one_rule(self):
        """One task of a valid set against one rule, by sheet or record."""
        for rule in self.shuffled([3, 4, 4, 5, 5]):
            which = self.between(1, self.set.count)
            task = self.set.tasks[which - 1]
            if rule == 4 and task.deadline < 16:
                task = task._replace(runs=task.runs | 1 << self.between(
                    task.deadline, 15))
            elif rule == 5 and task.deadline > 1:
                task = task._replace(gaps=task.gaps | 1 << self.below(
                    task.deadline - 1))
            elif rule == 5:
                task = task._replace(deadline=16)
            elif rule == 4:
                task = task._replace(deadline=1)
            else:
                task = task._replace(deadline=self.pick([0, 17, 18]))
            tasks = list(self.set.tasks)
            tasks[which - 1] = task
            spoiled = self.set._replace(tasks=tuple(tasks))
            if self.chance(50):
                self.enter_text(sheets.sheet_text(spoiled))
                self.say("read")
            else:
                self.restore()
                self.enter_record(spoiled)
                self.say("test", "set")

    def act_sheet_long(self):
        """Sheets about the length of 1,024 bytes."""
        ones = self.pick([503, 504, 505, 506, 540])
        text = b"set A\nhard 1 " + b"1," * (ones - 1) + b"1 1\n"
        if self.chance(60):
            self.enter_text(text)
            self.say("read")
            length = self.pick([1023, 1024, 1025, 1026, 1100])
            self.say("cut", "text", length)
            self.say("read")
        byte = self.pick(SHEET_BYTES)
        self.say("fill", "text", self.pick([1025, 1026, 1100, 1200]), byte)
        self.say("read")
        self.say("cut", "text", 1025)
        self.say("read")
        self.say("cut", "text", 1024)
        self.say("read")
        self.say("show", "set")
        self.say("sum", "text")

    # ---- acts: records ---------------------------------------------------

    def spoil_record(self):
        """One command that may make the held set bad."""
        inside = self.between(1, self.set.count)
        anywhere = self.between(1, 7)
        name = bytearray(self.set.name)
        way = self.below(10)
        if way == 9:
            length = len(self.set.name.rstrip(b"\0"))
            name[self.pick([0, self.below(length), min(length + 1, 15)])] = \
                self.pick([0, 65])
            self.say("name", name.hex())
        elif way == 0:
            name[self.below(16)] = self.pick([0, 0, 32, 47, 58, 64, 65, 91,
                                              97, 255])
            self.say("name", name.hex())
        elif way == 1:
            self.say("name", bytes(16).hex())
        elif way == 2:
            self.say("count", self.pick([0, 8, 255, self.below(9),
                                         self.set.count + 1]))
        elif way == 3:
            self.say("kind", anywhere, self.pick([0, 1, 2, 255]))
        elif way == 4:
            self.say("deadline", inside, self.pick([0, 1, 2, 16, 17, 255]))
        elif way == 5:
            self.say("runs", inside, self.pick([0, 1, 32768, 65535,
                                                self.below(65536)]))
        elif way == 6:
            self.say("gaps", inside, self.pick([0, 1, 32768, 65535,
                                                self.below(65536)]))
        elif way == 7:
            self.say(self.pick(["kind", "deadline", "runs", "gaps"]),
                     anywhere, self.below(256))
        else:
            self.say(self.pick(["kind", "deadline", "runs", "gaps"]), 7,
                     self.pick([0, 1, 255]))

    def act_records(self):
        for _ in range(3):
            self.restore()
            for _ in range(self.pick([1, 1, 2, 4])):
                self.spoil_record()
                self.say("test", "set")
            for call in self.some_calls(3):
                self.say(call)
        self.say("show", "set")

    def some_calls(self, number):
        """Calls that all test the set first."""
        calls = [b"build", b"test table", b"write", b"open", b"sheet",
                 b"start %d" % self.below(1 << 32), b"ask %d" % self.below(9),
                 b"report %d %d %d" % (self.below(1 << 32), self.below(2),
                                       self.below(256))]
        return self.shuffled(calls)[:number]

    def act_bad_set(self):
        """A set that is surely bad: every call answers with its fault."""
        self.restore()
        self.say(*self.pick([("count", 0), ("count", 8), ("kind", 1, 2),
                             ("deadline", 1, 0), ("deadline", 1, 17),
                             ("runs", 1, 0), ("gaps", 1, 0),
                             ("name", bytes(16).hex())]))
        for call in self.some_calls(8):
            self.say(call)
        self.say("show", "run")

    def act_too_many_states(self):
        """Valid tasks, S above 60,000 or just within it."""
        near = self.pick([
            [(14, 16), (1, 5), (4, 5)],  # 60,000
            [(4, 5), (4, 5), (5, 16)],  # 60,000
            [(4, 5), (6, 7), (6, 7)],  # 60,025
            [(4, 7), (4, 7), (6, 7)],  # 60,025
            [(16, 16), (13, 16)],  # 60,928
        ])
        far = self.pick([
            [(15, 16)] * self.between(2, 7),  # 256 to some power
            [(16, 16)] * self.between(2, 7),
            [(15, 16)] * 4 + [(1, 1)] * self.below(4),  # 2 to the 32 and on
        ])
        for lists in (near, far):
            tasks = [sets.Task(self.below(2), c, 1 << (c - 1), 1 << (a - 1))
                     for c, a in self.shuffled(lists)]
            made = sets.make_set(self.random_name(), tasks)
            if self.chance(50):
                self.enter_text(sheets.sheet_text(made))
                self.say("read")
            else:
                self.enter_record(made)
            self.say("test", "set")
            if sets.state_number(made) > sets.MOST_STATES:
                for call in self.some_calls(3):
                    self.say(call)
