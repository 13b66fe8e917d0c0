"""Parts of a command text about tables and table files."""

import files
import game
import sets
import sheets
from maker import Base


class Tables(Base):
    def act_build(self):
        states = self.states()
        lengths = [states, states, states + 1, states + self.below(300),
                   states - 1, 0]
        for name in ("table", "work"):
            length = min(self.pick(lengths), 65536)
            self.say("fill", name, length, self.below(256))
        self.say("build")
        self.say("sum", "table")
        self.say("sum", "work")
        self.show_some("table")

    def show_some(self, name):
        length = len(self.machine.buffers[name])
        if length > 0:
            offset = self.below(length)
            self.say("show", name, offset,
                     min(length - offset, self.between(1, 40)))

    def bent_entry(self, entry):
        """Another value for an entry."""
        return self.pick([self.below(256), 0, entry ^ (1 << self.below(8)),
                          entry ^ (1 << self.below(self.set.count + 1)),
                          entry & self.below(256),
                          1 << self.below(self.set.count + 1), 255])

    def some_index(self):
        return self.pick([0, self.below(self.states()),
                          self.below(self.states()), self.states() - 1])

    def act_damage_one(self):
        self.restore()
        for _ in range(6):
            index = self.some_index()
            before = self.machine.buffers["table"][index]
            self.say("poke", "table", index, self.bent_entry(before))
            self.say("test", "table")
            if self.chance(20):
                self.say("fill", "file", 26 + 6 * self.set.count
                         + self.states(), self.below(256))
                self.say("write")
                self.say("sum", "file")
            self.say("poke", "table", index, before)

    def act_damage_many(self):
        self.restore()
        for _ in range(self.between(2, 6)):
            index = self.some_index()
            before = self.machine.buffers["table"][index]
            self.say("poke", "table", index, self.bent_entry(before))
            self.say("test", "table")
        if self.chance(40):
            self.say("fill", "table", self.states(), self.pick([0, 1, 255]))
            self.say("test", "table")

    def act_smaller_table(self):
        """A table that allows less; it may still pass, and is then run."""
        self.restore()
        for _ in range(8):
            index = self.some_index()
            entry = self.machine.buffers["table"][index]
            bits = [bit for bit in range(8) if entry & (1 << bit)]
            if len(bits) > 1:
                self.say("poke", "table", index, 1 << self.pick(bits))
        self.say("test", "table")
        self.act_run()

    def act_own_table(self):
        """A table of another maker: entries only where its own choices can
        lead from the start, and one of these then taken away."""
        self.restore()
        moves = game.all_moves(self.set)
        entries = {}
        open_ = [game.START]
        while open_ and len(entries) <= 40:
            index = open_.pop()
            if index in entries:
                continue
            entry = self.table[index] & self.below(256)
            if entry == 0:
                entry = self.table[index]
            entries[index] = entry
            for choice, successors in moves[index].items():
                if entry & (1 << choice):
                    open_ += successors
        if open_:
            return
        self.say("fill", "table", self.states(), 0)
        for index, entry in entries.items():
            self.say("poke", "table", index, entry)
        self.say("test", "table")
        self.act_run()
        self.say("poke", "table", self.pick(list(entries)), 0)
        self.say("test", "table")
        self.act_run()

    def act_short(self):
        """Buffers that are too short, and their order among the refusals."""
        self.restore()
        states = self.states()
        length = 26 + 6 * self.set.count + states
        text_length = len(sheets.sheet_text(self.set))
        self.say("cut", "table", self.pick([states - 1, 0,
                                            self.below(states)]))
        self.say("test", "table")
        self.say("start", 5)
        self.say("ask", self.below(9))
        self.say("fill", "file", self.pick([length, length - 1, 0]), 3)
        self.say("write")
        self.restore()
        self.say("fill", "file", self.pick([length - 1, states,
                                            self.below(length)]), 7)
        if self.chance(50):
            self.say("poke", "table", self.some_index(), 255)
        self.say("write")
        self.say("sum", "file")
        self.restore()
        self.say("fill", "work", self.below(states), 9)
        self.say("build")
        self.say("sum", "table")
        self.say("fill", "text", self.pick([0, text_length - 1,
                                            self.below(text_length)]), 1)
        self.say("sheet")
        self.say("sum", "text")

    # ---- acts: files -----------------------------------------------------

    def file_length(self):
        return 26 + 6 * self.set.count + self.states()

    def good_file(self):
        """The scene's set, its table, and its file at its right length."""
        self.restore()
        length = self.file_length()
        good = files.header(self.set, self.states()) + self.table
        if self.machine.buffers["file"] != good:
            self.say("fill", "file", length + self.pick([0, 0, 1, 9]),
                     self.below(256))
            self.say("write")
            self.say("sum", "file")
            self.say("cut", "file", length)

    def act_file(self):
        self.good_file()
        self.say("show", "file", 0, min(self.file_length(), 80))
        self.say("fill", "table", self.below(self.states() + 3), 5)
        self.say("open")
        self.say("sum", "table")

    def act_file_damage(self):
        """One byte of each part of the file altered."""
        self.good_file()
        header = 26 + 6 * self.set.count
        for least, most in self.shuffled([(0, 2), (3, 3), (4, 4),
                                          (5, header - 1), (5, header - 1),
                                          (header - 4, header - 1),
                                          (header, self.file_length() - 1)]):
            offset = self.between(least, most)
            before = self.machine.buffers["file"][offset]
            self.say("poke", "file", offset,
                     before ^ self.pick([1 << self.below(8),
                                         self.between(1, 255)]))
            self.say("open")
            if self.chance(40):
                self.say("sum", "table")
            if self.chance(80):
                self.say("poke", "file", offset, before)

    def act_file_length(self):
        """Files cut short and lengthened, some with an altered byte too."""
        self.good_file()
        length = self.file_length()
        header = length - self.states()
        for wanted in (length + self.pick([1, 2, 40]), length - 1,
                       self.between(header, length - 1),
                       self.between(5, header - 1),
                       self.pick([3, 4, self.below(5)])):
            self.say("cut", "file", wanted)
            self.say("open")
            if self.chance(50) and wanted > 0:
                self.say("poke", "file", self.below(wanted), self.below(256))
                self.say("open")
                self.say("sum", "table")

    def act_file_of_another(self):
        """The file of a set that differs in one field of the record."""
        self.good_file()
        for _ in range(3):
            way = self.below(5)
            number = self.between(1, self.set.count)
            task = self.set.tasks[number - 1]
            if way <= 1:
                name = bytearray(self.set.name)
                length = len(self.set.name.rstrip(b"\0"))
                place = self.pick([length - 1, self.below(length),
                                   min(length, 15)])
                name[place] = self.pick(sets.NAME_CHARACTERS)
                self.say("name", name.hex())
            elif way == 2:
                self.say("kind", number, 1 - task.kind)
            elif way == 3:
                self.say("gaps", number,
                         task.gaps | 1 << (self.between(task.deadline, 16)
                                           - 1))
            else:
                self.say("runs", number,
                         task.runs | 1 << (self.between(1, task.deadline)
                                           - 1))
            self.say("open")
            if self.chance(60):
                self.enter_record(self.set)
