"""make.py SEED COUNT: a command text of COUNT lines for replay.

The text is made from the seed alone. It is made of scenes. A scene takes
one set and goes through acts (the methods called act_...), each of which
may leave set, table and run in any state; `restore` brings set and table
back.
"""

import sys

import sets
from make_cases import all_cases
from make_runs import Runs
from make_sheets import Sheets
from make_tables import Tables
from maker import LARGE_WORK, MOST_WORK, built_table

INTERESTING_NUMBERS = [0, 1, 2, 15, 16, 17, 127, 128, 255, 256, 65535, 65536,
                       16777215, 16777216, 16777217, 2147483647, 2147483648,
                       4294967294, 4294967295, 4294967296]

CASES = all_cases()


class Maker(Tables, Sheets, Runs):
    def act_lines(self):
        """Lines that are mangled, or nearly."""
        for _ in range(4):
            line = self.pick(self.lines[-60:])
            place = self.below(len(line) + 1)
            way = self.below(8)
            if way == 0:
                line = line[:place] + self.pick([b" ", b"\r", b"\t", b"\0",
                                                 b"0", b"-", b"+", b"F",
                                                 b"\xff", b"x"]) + line[place:]
            elif way == 1:
                line = line[:place] + line[place + 1:]
            elif way == 2:
                line = line[:place]
            elif way == 3:
                words = line.split(b" ")
                which = self.below(len(words))
                words[which] = b"%d" % self.pick(INTERESTING_NUMBERS)
                line = b" ".join(words)
            elif way == 4:
                words = line.split(b" ")
                words.append(self.pick(words))
                line = b" ".join(words)
            elif way == 5:
                line = line.upper()
            elif way == 6:
                line = self.pick([
                    b"", b" ", b"reset ", b" reset", b"resets", b"show",
                    b"show set 1", b"show run 0 1", b"show table 0",
                    b"show text 0 0", b"show work 0 257", b"show file 70000 1",
                    b"sum", b"sum set", b"sum table work", b"fill",
                    b"fill table 65537 0", b"fill work 65537 0",
                    b"fill file 70001 0", b"fill text 1201 0",
                    b"fill text 3 256", b"cut file 70001", b"cut text 1201",
                    b"poke text 1200 1", b"text", b"text 0", b"text 0g",
                    b"text 0A", b"text 000", b"name 00", b"count 256",
                    b"kind 0 1", b"kind 8 1", b"kind 1 256", b"runs 1 65536",
                    b"gaps 1 65536", b"deadline 1 256", b"start",
                    b"start 4294967296", b"start 01", b"ask 256", b"ask -1",
                    b"ask none", b"report 1 2 0", b"report 1 0 256",
                    b"report 1 0", b"age 1 none", b"job 1", b"job 1 256",
                    b"job 0 none", b"awaited", b"awaited 256", b"ticks none",
                    b"arrived 1 4294967296", b"test", b"test file", b"open x",
                    b"reading 18446744073709551616"])
            else:
                long = self.pick([250, 255, 256, 257, 300, 1000])
                line = self.pick([b"text ", b"ask "]) + b"0" * (long - 5)
            self.say(line.replace(b"\n", b" "))

    def act_cases(self):
        """Some of the fixed cases."""
        for _ in range(2):
            for command in self.pick(CASES)[:60]:
                self.say(command.encode("ascii"))

    # ---- scenes --------------------------------------------------------

    def next_acts(self, number):
        """The next acts of the rota; all come before one comes again."""
        rota = [self.act_build, self.act_damage_one,
                self.act_damage_many, self.act_smaller_table,
                self.act_own_table, self.act_short,
                self.act_sheet_back, self.act_sheets, self.act_sheets,
                self.act_sheets_in_order, self.act_one_rule,
                self.act_sheet_long, self.act_reader, self.act_print,
                self.act_records, self.act_bad_set, self.act_too_many_states,
                self.act_file, self.act_file_damage, self.act_file_damage,
                self.act_file_length, self.act_file_of_another,
                self.act_guarded_run, self.act_run_wrong, self.act_run_wrong,
                self.act_run_to_miss, self.act_run_anywhere,
                self.act_entry_refused, self.act_run_mangled, self.act_sums,
                self.act_last_ticks, self.act_lines, self.act_cases]
        while len(self.rota) < number:
            self.rota += self.shuffled(rota)
        acts = self.rota[:number]
        del self.rota[:number]
        return acts

    def scene_safe(self):
        """A set that has a table, and some acts."""
        self.set = self.choose_set(safe=True)
        self.table = built_table(self.set)
        self.restore()
        for act in self.next_acts(8):
            act()

    def scene_unsafe(self):
        """Refusal 8, and what may be asked of a set without a table."""
        for _ in range(2):
            self.set = self.choose_set(safe=False)
            self.table = None
            self.restore()
            states = self.states()
            self.say("fill", "table", states + self.below(9), self.below(256))
            self.say("fill", "work", states + self.below(9), self.below(256))
            self.say("build")
            self.say("sum", "table")
            self.say("sum", "work")
            self.pick([self.act_build, self.act_sheet_back, self.act_print,
                       self.act_without_table])()

    def act_without_table(self):
        """What a set without a safe schedule answers elsewhere."""
        self.say("test", "table")
        self.say("fill", "file", self.file_length(), 1)
        self.say("write")
        self.act_run()
        self.say("fill", "table", self.states(), self.pick([1, 3, 2]))
        self.say("test", "table")
        self.act_run()

    def scene_sets(self):
        """Several sets as they come, safe or not: entered and built."""
        for _ in range(3):
            self.set = self.random_set(2, 3000, MOST_WORK)
            self.table = None
            self.restore()
            states = self.states()
            self.say("fill", "table", states + self.below(3), self.below(256))
            self.say("fill", "work", states, self.below(256))
            self.say("build")
            self.say("sum", "table")

    def scene_large(self):
        """A few sets with many states."""
        if self.chance(30):
            tasks = [sets.Task(self.below(2), c, 1 << (c - 1), 1 << (a - 1))
                     for c, a in self.shuffled([(14, 16), (1, 5), (4, 5)])]
            self.set = sets.make_set(self.random_name(), tasks)
        else:
            self.set = self.random_set(10000, sets.MOST_STATES, LARGE_WORK)
        self.table = built_table(self.set)
        self.restore()
        if self.table is None:
            self.act_build()
            return
        self.say("sum", "table")
        self.say("test", "table")
        self.act_damage_one()
        self.act_file()
        self.act_print()
        self.restore()
        self.act_guarded_run()

    def make(self):
        """Scenes until there are enough lines."""
        scenes = 0
        while len(self.lines) < self.count:
            if self.chance(5):
                self.say("reset")
            self.scene_safe()
            self.scene_unsafe()
            self.scene_sets()
            scenes += 1
            if scenes % 10 == 3:
                self.scene_large()
        del self.lines[self.count:]
        del self.answers[self.count:]
        return b"".join(line + b"\n" for line in self.lines)


if __name__ == "__main__":
    maker = Maker(int(sys.argv[1]), int(sys.argv[2]))
    sys.stdout.buffer.write(maker.make())
