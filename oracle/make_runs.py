"""Parts of a command text about runs."""

import game
import runs
import sets
from maker import Base


class Runs(Base):
    def possible_reports(self):
        """The reports that the game allows now, as (finished, arrivals)."""
        run = self.machine.run
        state = runs.state_of(self.set, run)
        return [(int(finished), arrivals) for finished, arrivals, _ in
                game.outcomes(self.set, state, run.awaited)]

    def next_reading(self):
        return (self.machine.run.reading + 1) % (1 << 32)

    def good_report(self):
        finished, arrivals = self.pick(self.possible_reports())
        return self.say("report", self.next_reading(), finished, arrivals)

    def first_reading(self):
        return self.pick([0, 4294967295, 4294967293, self.below(1 << 32)])

    def act_run(self):
        """A guarded run by the rules, with whatever table is held."""
        self.say("start", self.first_reading())
        for _ in range(self.between(4, 12)):
            answer = self.say("ask", self.below(self.set.count + 1))
            if answer.startswith("refused"):
                break
            answer = self.good_report()
            if answer.startswith("refused"):
                break
            if self.chance(15):
                self.say("show", "run")
        self.say("show", "run")

    def act_guarded_run(self):
        self.restore()
        self.act_run()

    def act_run_wrong(self):
        """A run with calls in between that are to be refused."""
        self.restore()
        n = self.set.count
        self.say("start", self.first_reading())
        for _ in range(self.between(4, 9)):
            if self.chance(20):
                self.say("report", self.next_reading(), 0, 0)
            if self.chance(20):
                self.say("ask", self.pick([n + 1, 8, 255, self.below(256)]))
            if self.machine.run.awaited is None:
                self.say("ask", self.below(n + 1))
            if self.machine.run.awaited is None:
                break
            if self.chance(20):
                self.say("ask", self.below(n + 2))
            finished, arrivals = self.pick(self.possible_reports())
            if self.chance(30):
                reading = self.pick([self.machine.run.reading,
                                     (self.machine.run.reading + 2)
                                     % (1 << 32), 0, self.below(1 << 32)])
                self.say("report", reading, finished, arrivals)
            if self.machine.run.awaited is not None and self.chance(60):
                self.say("report", self.next_reading(),
                         self.pick([finished, self.below(2)]),
                         self.pick([arrivals ^ (1 << self.below(8)),
                                    arrivals | 1 << n if n < 7 else 128,
                                    self.below(1 << n), self.below(256)]))
            if self.chance(25):
                self.say("show", "run")
            if self.machine.run.awaited is not None:
                self.good_report()
        self.say("show", "run")

    def act_run_to_miss(self):
        """An altered table, so that the run may come to a refusal 16 or 19."""
        self.restore()
        if self.chance(60):
            self.say("fill", "table", self.states(), 1)
        else:
            for _ in range(4):
                index = self.some_index()
                self.say("poke", "table", index, self.bent_entry(
                    self.machine.buffers["table"][index]))
        self.act_run()

    def put_run(self, run):
        """Set each field of the run that differs."""
        held = self.machine.run
        for field in ("ticks", "substitutions", "reading", "awaited"):
            if getattr(held, field) != getattr(run, field):
                value = getattr(run, field)
                self.say(field, "none" if value is None else value)
        for number in range(1, 8):
            have = held.places[number - 1]
            want = run.places[number - 1]
            for field in ("age", "job", "arrived", "finished", "replaced"):
                if getattr(have, field) != getattr(want, field):
                    value = getattr(want, field)
                    self.say(field, number, "none" if value is None else value)

    def fitting_run(self, awaiting):
        """A run that fits the set, in any state, reachable or not."""
        ticks = self.pick([0, 1, 5, 1000, runs.MOST_TICKS - 1,
                           self.below(runs.MOST_TICKS)])
        places = []
        late = self.chance(50)
        for task in self.set.tasks[:self.set.count]:
            age = self.below(sets.longest(task.gaps))
            if late and self.chance(60):
                age = min(task.deadline - 1, sets.longest(task.gaps) - 1)
            job = None
            if ticks == 0 or self.chance(75):
                job = self.below(sets.longest(task.runs))
            in_hand = 0 if job is None else 1
            arrived = self.pick([1, ticks + 1, self.between(1, ticks + 1)])
            finished = self.between(0, arrived - in_hand)
            places.append(runs.Place(age, job, arrived, finished,
                                     arrived - in_hand - finished))
        places += [runs.NO_PLACE] * (7 - self.set.count)
        awaited = None
        if awaiting:
            state = tuple((place.age, place.job)
                          for place in places[:self.set.count])
            awaited = self.pick(game.choices(self.set, state))
        substitutions = self.pick([0, ticks, self.between(0, ticks)])
        return runs.Run(tuple(places), ticks, substitutions,
                        self.first_reading(), awaited)

    def act_run_anywhere(self):
        """Any state that fits: an ask or a report, possible or not."""
        self.restore()
        for _ in range(2):
            self.put_run(self.fitting_run(awaiting=False))
            self.say("ask", self.below(self.set.count + 1))
            self.put_run(self.fitting_run(awaiting=True))
            if self.chance(70):
                self.good_report()
            else:
                self.say("report", self.next_reading(), self.below(2),
                         self.below(1 << self.set.count))
            self.say("show", "run")

    def act_entry_refused(self):
        """The entry at the run's own index altered: refusal 16, or not."""
        self.restore()
        n = self.set.count
        run = self.fitting_run(awaiting=False)
        self.put_run(run)
        state = runs.state_of(self.set, run)
        index = game.index_of(self.set, state)
        runnable = game.choices(self.set, state)
        others = [c for c in range(1, 8) if c not in runnable]
        allowed = self.pick(runnable)
        entries = [0, 1 << allowed, self.below(256),
                   self.bent_entry(self.table[index]),
                   sum(1 << c for c in runnable)]
        if others:
            entries.append(1 << allowed | 1 << self.pick(others))
            entries.append(1 << self.pick(others))
        if n < 7:
            entries.append(1 << allowed | 1 << self.between(n + 1, 7))
        for entry in self.shuffled(entries):
            self.say("poke", "table", index, entry)
            self.say("ask", self.pick([allowed, self.below(n + 2)]))
            if self.machine.run.awaited is not None:
                self.say("show", "run")
                self.put_run(run)

    def spoiling_commands(self):
        """Commands each of which may make the held run unfit."""
        run = self.machine.run
        n = self.set.count
        inside = self.between(1, n)
        place = run.places[inside - 1]
        task = self.set.tasks[inside - 1]
        amax = sets.longest(task.gaps)
        cmax = sets.longest(task.runs)
        commands = [
            ("age", inside, self.pick([amax - 1, amax, 255, self.below(256)])),
            ("job", inside, self.pick([cmax - 1, cmax, 255, "none", 0])),
            ("arrived", inside, self.pick([0, place.arrived + 1, run.ticks + 1,
                                           run.ticks + 2, 4294967295])),
            ("finished", inside, self.pick([place.finished + 1, 4294967295])),
            ("replaced", inside, self.pick([place.replaced + 1, 4294967295])),
            ("ticks", self.pick([0, run.ticks + 1, runs.MOST_TICKS,
                                 runs.MOST_TICKS + 1, 4294967295])),
            ("substitutions", run.ticks + 1),
            ("substitutions", self.pick([run.ticks, run.ticks + 2,
                                         4294967295])),
            ("awaited", self.pick([0, n, n + 1, 7, 8, 255, "none", inside])),
            ("awaited", self.between(1, n)),
            ("reading", self.first_reading()),
        ]
        if n < 7:
            beyond = self.between(n + 1, 7)
            commands += [("age", beyond, 1), ("job", beyond, 0),
                         ("arrived", beyond, 1), ("finished", beyond, 1),
                         ("replaced", beyond, 1)]
        return commands

    def act_run_mangled(self):
        """A run state with one field spoiled, then mended, then another."""
        self.restore()
        run = self.fitting_run(awaiting=self.chance(40))
        self.put_run(run)
        for command in self.shuffled(self.spoiling_commands())[:9]:
            self.say(*command)
            if self.chance(15):
                self.say(*self.pick(self.spoiling_commands()))
            if self.chance(50):
                self.say("ask", self.below(self.set.count + 1))
            if self.machine.run.awaited is not None or self.chance(20):
                self.say("report", self.next_reading(), self.below(2),
                         self.below(1 << self.set.count))
            else:
                self.say("ask", self.below(self.set.count + 1))
            if self.chance(20):
                self.say("show", "run")
            self.put_run(run)

    def act_sums(self):
        """Counts whose sums hold, or would if they wrapped, but which are
        out of bounds; and the bounds themselves."""
        self.restore()
        run = self.fitting_run(awaiting=False)
        which = self.below(self.set.count)
        place = run.places[which]
        in_hand = 0 if place.job is None else 1
        most = run.ticks + 1
        for changed in self.shuffled([
                place._replace(finished=4294967295,
                               replaced=place.arrived - in_hand + 1),
                place._replace(job=None, arrived=0, finished=0, replaced=0),
                place._replace(arrived=most + 1, finished=most + 1 - in_hand,
                               replaced=0),
                place._replace(arrived=most, replaced=most - in_hand,
                               finished=0)]):
            places = list(run.places)
            places[which] = changed
            self.put_run(run._replace(places=tuple(places)))
            self.say("ask", self.below(self.set.count + 1))
            if self.chance(30):
                self.say("show", "run")

    def act_last_ticks(self):
        """The end of the ticks."""
        self.restore()
        self.say("start", self.first_reading())
        self.say("ticks", self.pick([runs.MOST_TICKS - 1,
                                     runs.MOST_TICKS - 2]))
        if self.chance(30):
            self.say("substitutions", self.machine.run.ticks)
        for _ in range(3):
            self.say("ask", self.below(self.set.count + 2))
            if self.machine.run.awaited is not None:
                self.good_report()
            else:
                self.say("report", self.next_reading(), 0, 0)
        self.say("awaited", "none")
        self.say("ticks", runs.MOST_TICKS)
        self.say("ask", self.pick([0, 1, 255]))
        self.say("ask", self.below(self.set.count + 1))
        self.say("show", "run")
        self.say("awaited", 0)
        self.say("report", self.next_reading(), 0, 0)
