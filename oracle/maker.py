"""What all parts of make.py share: the random numbers, the command text so
far, the set of the scene, and how it is entered.

Each command is also given to the oracle's own replay as soon as it is
made, so that the next one can be chosen with knowledge of what is held
then: a proposal that is allowed or not, a report that is possible or not,
a byte that matters.
"""

import random

import game
import sets
import sheets
import shield
from refusal import Refused
from replay import Replay

MOST_WORK = 120000  # outcomes of all states together, for most sets
LARGE_WORK = 1200000  # the same for the few large sets


class Base:
    def __init__(self, seed, count):
        self.random = random.Random(seed)
        self.count = count
        self.machine = Replay()
        self.lines = []
        self.answers = []
        self.set = None  # the scene's set
        self.table = None  # its built table, None if there is none
        self.rota = []  # the acts that come next

    # ---- small things ---------------------------------------------------

    def below(self, limit):
        return self.random.randrange(limit)

    def between(self, least, most):
        return least + self.below(most - least + 1)

    def pick(self, things):
        return things[self.below(len(things))]

    def chance(self, percent):
        return self.below(100) < percent

    def shuffled(self, things):
        rest = list(things)
        out = []
        while rest:
            out.append(rest.pop(self.below(len(rest))))
        return out

    def say(self, *words):
        """Add one command, given as its words or as bytes."""
        if len(words) == 1 and isinstance(words[0], bytes):
            line = words[0]
        else:
            line = " ".join(str(word) for word in words).encode("ascii")
        answer = self.machine.answer(line)
        self.lines.append(line)
        self.answers.append(answer)
        return answer

    def states(self):
        return sets.state_number(self.set)

    # ---- sets ------------------------------------------------------------

    def some_of(self, values, percent):
        return [value for value in values if self.chance(percent)]

    def random_task(self, most_deadline, most_above, hard_percent):
        """A valid task; its gaps lie up to twice `most_above` above D."""
        deadline = self.between(1, most_deadline)
        cmax = min(self.between(1, deadline), self.between(1, deadline))
        amin = min(16, deadline + min(self.between(0, most_above),
                                      self.between(0, most_above)))
        top = min(16, amin + min(self.between(0, most_above),
                                 self.between(0, most_above)))
        c_values = self.some_of(range(1, cmax), 40) + [cmax]
        a_values = [amin] + self.some_of(range(amin + 1, top + 1), 50)
        kind = sets.HARD if self.chance(hard_percent) else sets.SOFT
        return sets.Task(kind, deadline, sets.bits_of(c_values),
                         sets.bits_of(a_values))

    def random_name(self):
        length = self.pick([1, 2, 4, 8, 9, 15, 16, 16])
        letters = sets.NAME_CHARACTERS.decode("ascii")
        return "".join(self.pick(letters) for _ in range(length))

    def random_set(self, least_states, most_states, most_work):
        """A valid set within the limits."""
        while True:
            n = self.pick([1, 2, 2, 2, 3, 3, 3, 4, 4, 5, 6, 7])
            most_deadline = [0, 16, 8, 6, 4, 3, 2, 2][n]
            most_above = [0, 4, 4, 3, 3, 2, 1, 1][n]
            percents = [30, 60, 80, 100] if n <= 3 else [10, 20, 40, 60]
            for _ in range(30):
                percent = self.pick(percents)
                tasks = [self.random_task(most_deadline, most_above, percent)
                         for _ in range(n)]
                if n > 1 and self.chance(30):
                    tasks[-1] = tasks[0]
                made = sets.make_set(self.random_name(), tasks)
                states = sets.state_number(made)
                if least_states <= states <= most_states \
                        and work_of(made) <= most_work:
                    return made

    def choose_set(self, safe):
        """A set with a safe start, or one without, as asked for."""
        least, most = self.pick([(2, 40), (20, 400), (100, 1500),
                                 (1000, 4000)])
        rounds_wanted = 1 if self.chance(75) else 0
        for _ in range(60):
            made = self.random_set(least, most, MOST_WORK)
            removed_in, rounds = shield.removal_rounds(game.all_moves(made))
            if (removed_in[game.START] == 0) != safe:
                continue
            if rounds >= rounds_wanted:
                return made
        tasks = [sets.Task(1, 2, 1, 2)] * (2 if safe else 3)
        return sets.make_set(self.random_name(), tasks)

    def enter_text(self, text):
        self.say("cut", "text", 0)
        while text:
            length = self.pick([125, 125, 125, 125, self.between(1, 125)])
            self.say("text", text[:length].hex())
            text = text[length:]

    def enter_record(self, wanted):
        """Set each field that differs."""
        held = self.machine.set
        if held.name != wanted.name:
            self.say("name", wanted.name.hex())
        if held.count != wanted.count:
            self.say("count", wanted.count)
        for number in range(1, 8):
            have = self.machine.set.tasks[number - 1]
            want = wanted.tasks[number - 1]
            for field in ("kind", "deadline", "runs", "gaps"):
                if getattr(have, field) != getattr(want, field):
                    self.say(field, number, getattr(want, field))

    def restore(self):
        """Bring back the scene's set and, if it has one, its table."""
        if self.machine.set != self.set:
            if self.chance(80):
                self.enter_text(sheets.sheet_text(self.set))
                self.say("read")
            else:
                self.enter_record(self.set)
        if self.table is None:
            return
        held = self.machine.buffers["table"]
        if held[:self.states()] == self.table:
            return
        differing = [index for index in range(self.states())
                     if index >= len(held) or held[index] != self.table[index]]
        if len(held) >= self.states() and len(differing) <= 3:
            for index in differing:
                self.say("poke", "table", index, self.table[index])
        else:
            extra = self.pick([0, 0, 1, 7])
            self.say("fill", "table", self.states() + extra, self.below(256))
            self.say("fill", "work", self.states() + extra, self.below(256))
            self.say("build")


def work_of(task_set):
    """About how many outcomes all states of a set have."""
    work = sets.state_number(task_set) * (task_set.count + 1)
    for task in task_set.tasks[:task_set.count]:
        amax = sets.longest(task.gaps)
        work *= (amax + len(sets.values_of(task.gaps)) - 1) / amax
    return work


def built_table(task_set):
    """The builder's table of a set, or None if it has none."""
    states = sets.state_number(task_set)
    table = bytearray(states)
    try:
        shield.build(task_set, table, bytearray(states))
    except Refused:
        return None
    return bytes(table)
