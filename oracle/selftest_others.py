"""Comparisons with slower or different definitions of the same things."""

import random
import re

import game
import make
import runs
import sets
import sheets
import shield
from maker import built_table
from selftest_base import answer, build_of, refused, same, set_of

# The form as a pattern of the re module, and ends of sheets. A beginning
# that some sheet has can be completed with one of these ends.
PATTERN = re.compile(
    rb"set [A-Z0-9-]{1,16}\n"
    rb"((hard|soft) N N(,N)* N(,N)*\n){1,7}".replace(
        b"N", rb"(1[0-6]|[1-9])"))
ENDS = [end[i:] for end in (b"set A\nhard 1 1 1\n", b"set A\nsoft 1 1 1\n")
        for i in range(len(end) + 1)]


def fault_by_trying(text):
    if PATTERN.fullmatch(text):
        return None
    for length in range(len(text), -1, -1):
        if any(PATTERN.fullmatch(text[:length] + end) for end in ENDS):
            return length


def compare_forms():
    maker = make.Maker(20, 0)
    for _ in range(250):
        maker.set = maker.random_set(2, 60000, 10 ** 9)
        text = sheets.sheet_text(maker.set)
        same("sheet read back", sheets.read_sheet(text), maker.set)
        for _ in range(maker.between(1, 3)):
            text = maker.pick([maker.bent_bytes, maker.bent_sheet])(text)
        same("form %r" % text, sheets.form_fault(text), fault_by_trying(text))


def compare_outcomes():
    """The table of moves against trying all reports in each state."""
    maker = make.Maker(21, 0)
    for _ in range(25):
        task_set = maker.random_set(2, 150, 20000)
        moves = game.all_moves(task_set)
        for index in range(sets.state_number(task_set)):
            state = game.state_at(task_set, index)
            same("index", game.index_of(task_set, state), index)
            tried = {}
            for choice in game.choices(task_set, state):
                led_to = []
                for _, _, parts in game.outcomes(task_set, state, choice):
                    if any(part.missed for part in parts):
                        led_to = None
                        break
                    led_to.append(game.index_of(
                        task_set, [(p.age, p.job) for p in parts]))
                tried[choice] = led_to
            same("choices", list(tried), list(moves[index]))
            for choice, led_to in tried.items():
                have = moves[index][choice]
                same("outcomes", None if have is None else sorted(have),
                     None if led_to is None else sorted(led_to))


def forced_within(task_set, index, ticks, known):
    """Whether the generator can force a miss within so many ticks, by
    playing the game out."""
    if ticks == 0:
        return False
    if (index, ticks) in known:
        return known[index, ticks]
    state = game.state_at(task_set, index)
    result = True
    for choice in game.choices(task_set, state):
        beaten = False
        for _, _, parts in game.outcomes(task_set, state, choice):
            if any(part.missed for part in parts):
                beaten = True
                break
            following = game.index_of(task_set,
                                      [(p.age, p.job) for p in parts])
            if forced_within(task_set, following, ticks - 1, known):
                beaten = True
                break
        if not beaten:
            result = False
            break
    known[index, ticks] = result
    return result


def compare_rounds():
    """Rounds of removal against playing the game out."""
    maker = make.Maker(22, 0)
    for _ in range(40):
        task_set = maker.random_set(2, 60, 2000)
        removed_in, rounds = shield.removal_rounds(game.all_moves(task_set))
        known = {}
        for index in range(len(removed_in)):
            fewest = 0
            for ticks in range(1, rounds + 3):
                if forced_within(task_set, index, ticks, known):
                    fewest = ticks
                    break
            same("fewest ticks", fewest, removed_in[index])
        same("R", rounds, max(removed_in))


def compare_tables():
    """All tables of a few small sets: those that pass lie in the built one,
    which passes; a set without a built table has none that passes."""
    for line, most in (("hard 1 1 1", 256), ("soft 1 1 1", 256),
                       ("hard 1 1 1,2", 4), ("soft 1 1 2", 4),
                       ("hard 2 2 2", 4), ("hard 1 1 3", 4)):
        task_set = set_of(line)
        got, built = build_of(task_set)
        same("built passes", answer(shield.test_table, task_set, built), None)
        states = len(built)
        table = bytearray(states)
        for number in range(most ** states):
            for index in range(states):
                table[index] = number // most ** index % most
            if shield.lowest_fault(task_set, states, table) is None:
                same("contained", all(t & ~b == 0
                                      for t, b in zip(table, built)), True)
    pair = set_of("hard 1 1 1", "hard 1 1 1")
    same("no table", build_of(pair)[0], refused(8, 1))
    table = bytearray(4)
    for number in range(8 ** 4):
        for index in range(4):
            table[index] = number // 8 ** index % 8
        same("none passes",
             shield.lowest_fault(pair, 4, table) is None, False)


def compare_runs():
    """Guarded runs under tables that pass, by reports that are possible."""
    maker = make.Maker(23, 0)
    rng = random.Random(23)
    for _ in range(40):
        task_set = maker.choose_set(safe=True)
        states = sets.state_number(task_set)
        table = bytearray(built_table(task_set))
        for _ in range(states // 4):
            index = rng.randrange(states)
            before = table[index]
            table[index] = before & rng.randrange(256)
            if states < 200 and \
                    shield.lowest_fault(task_set, states, table) is not None:
                table[index] = before
        if shield.lowest_fault(task_set, states, table) is not None:
            table = bytearray(built_table(task_set))
        run = runs.start(task_set, 4294967290)
        for tick in range(60):
            proposal = rng.randrange(task_set.count + 1)
            choice, run = runs.ask(task_set, table, run, proposal)
            entry = table[game.index_of(task_set,
                                        runs.state_of(task_set, run))]
            same("allowed", entry >> choice & 1, 1)
            if entry >> proposal & 1:
                same("given back", choice, proposal)
            possible = game.outcomes(task_set, runs.state_of(task_set, run),
                                     choice)
            finished, arrivals, _ = possible[rng.randrange(len(possible))]
            run = runs.report(task_set, run, (run.reading + 1) % 2 ** 32,
                              finished, arrivals)
            same("fits", runs.fits(task_set, run), True)
        same("ticks", run.ticks, 60)


PARTS = [compare_forms, compare_outcomes, compare_rounds, compare_tables,
         compare_runs]
