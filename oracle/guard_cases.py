"""What crates/guard_cases has to print, as the runs of this folder answer.

    python3 oracle/guard_cases.py | cmp - crates/guard_cases/stdout
"""

import runs
import shield
from refusal import Refused
from runs import Place, start
from sets import HARD, SOFT, Task, bits_of, make_set, state_number


def task(text):
    """A task from its line in a sheet, as `hard 2 1,2 3`."""
    kind, deadline, times, gaps = text.split()
    values = lambda listed: bits_of(int(k) for k in listed.split(","))
    return Task(HARD if kind == "hard" else SOFT, int(deadline), values(times), values(gaps))


def case(*tasks):
    return make_set("CASE", [task(text) for text in tasks])


PAIR = case("hard 2 1 2", "hard 2 1 2")
EXAMPLE = case("hard 2 1 3", "soft 2 1,2 3")
TIES = case("soft 3 1 3", "soft 2 1 2", "soft 2 1 4")
MANY = case(*["soft 1 1 1"] * 7)
LATE = case("hard 2 3 3")


def built(task_set):
    size = state_number(task_set)
    table = bytearray(size)
    shield.build(task_set, table, bytearray(size))
    return table


# ---- what is printed -----------------------------------------------------

def shown(run):
    job = lambda place: "-" if place.job is None else place.job
    places = "".join(f" {p.age}/{job(p)}/{p.arrived}/{p.finished}/{p.replaced}" for p in run.places)
    awaits = "nothing" if run.awaited is None else run.awaited
    return (f" run{places} ticks {run.ticks} substitutions {run.substitutions}"
            f" reading {run.reading} awaits {awaits}")


def refusal(f):
    return f" refused {f.number} place {f.place}"


def do_start(label, task_set, reading):
    try:
        answer, run = " done", runs.start(task_set, reading)
    except Refused as f:
        answer, run = refusal(f), runs.ZERO_RUN
    print(f"start {label}:{answer}{shown(run)}")


def asked(task_set, table, run, proposal):
    """The answer, and the run: refused, as it was given."""
    try:
        choice, after = runs.ask(task_set, bytes(table), run, proposal)
        return f" choice {choice}", after
    except Refused as f:
        return refusal(f), run


def reported(task_set, run, reading, finished, arrivals):
    try:
        return " done", runs.report(task_set, run, reading, finished, arrivals)
    except Refused as f:
        return refusal(f), run


def ask(label, task_set, table, run, proposal):
    answer, after = asked(task_set, table, run, proposal)
    print(f"ask {label}:{answer}{shown(after)}")
    return after


def report(label, task_set, run, reading, finished, arrivals):
    answer, after = reported(task_set, run, reading, finished, arrivals)
    print(f"report {label}:{answer}{shown(after)}")
    return after


# ---- runs that are set place by place ------------------------------------

def placed(run, number, age, job, arrived, finished, replaced):
    places = list(run.places)
    places[number - 1] = Place(age, job, arrived, finished, replaced)
    return run._replace(places=tuple(places))


def totalled(run, ticks, substitutions):
    return run._replace(ticks=ticks, substitutions=substitutions)


def awaiting(run, choice):
    return run._replace(awaited=choice)


def pair_at(first, second):
    """PAIR after a tick, with a state (age, job) of each task."""
    run = totalled(start(PAIR, 5), 1, 0)
    for number, (age, job) in enumerate((first, second), start=1):
        run = placed(run, number, age, job, 1, 1 if job is None else 0, 0)
    return run


# ---- starts and asks -----------------------------------------------------

def starts():
    one = task("hard 1 1 1")
    do_start("PAIR, 5", PAIR, 5)
    do_start("PAIR, 4294967295", PAIR, 4294967295)
    do_start("hard 1 1 1, 0", case("hard 1 1 1"), 0)
    do_start("seven of soft 1 1 1, 1", MANY, 1)
    do_start("hard 2 3 3, 5", LATE, 5)
    do_start("no task, 5", case("hard 1 1 1")._replace(count=0), 5)
    beyond = case("hard 1 1 1")
    tasks = list(beyond.tasks)
    tasks[2] = one
    do_start("a record beyond the count, 5", beyond._replace(tasks=tuple(tasks)), 5)
    do_start("hard 16 16 16, hard 13 13 16, 5", case("hard 16 16 16", "hard 13 13 16"), 5)


FRESH = start(PAIR, 5)
FIRST = pair_at((0, None), (0, 0))
LAST = pair_at((1, None), (1, None))
TIGHT = pair_at((1, 0), (1, 0))


def ask_with(label, run, changed, proposal):
    table = built(PAIR)
    for index, entry in changed.items():
        table[index] = entry
    ask(label, PAIR, table, run, proposal)


def proposals():
    for index, run in [(0, FRESH), (1, FIRST), (15, LAST)]:
        for proposal in range(3):
            ask_with(f"PAIR at {index}, {proposal}", run, {}, proposal)


def entries():
    ask_with("PAIR at 10, 1", TIGHT, {}, 1)
    for index, entry, proposal, run in [(10, 4, 1, TIGHT), (10, 1, 2, TIGHT), (1, 7, 2, FIRST), (1, 2, 1, FIRST),
                                        (0, 0, 1, FRESH), (0, 15, 1, FRESH), (0, 130, 1, FRESH), (0, 7, 0, FRESH),
                                        (2, 6, 0, pair_at((1, 0), (0, 0)))]:
        ask_with(f"PAIR at {index} with entry {entry}, {proposal}", run, {index: entry}, proposal)


def ask_order():
    waits = awaiting(FRESH, 1)
    mangled = totalled(FRESH, 0, 1)
    used = totalled(FRESH, 16777216, 0)
    ask("hard 2 3 3 and 7 and 21", LATE, b"", mangled, 1)
    ask("7, none", PAIR, b"", FRESH, 1)
    for number, run, proposal in [(21, mangled, 1), (14, waits, 1), (20, used, 1), (15, FRESH, 3)]:
        ask(f"7 and {number}", PAIR, [6] * 15, run, proposal)
    for label, run, changed, proposal in [
            ("21", mangled, {}, 1),
            ("21 and 14", awaiting(totalled(FRESH, 0, 2), 1), {}, 1),
            ("21 and 14 and 20", awaiting(used, 0), {}, 1),
            ("21 and 15 and 16", mangled, {0: 0}, 3),
            ("14", waits, {}, 1),
            ("14 and 15", waits, {}, 3),
            ("14 and 16", waits, {0: 0}, 1),
            ("20", used, {}, 1),
            ("20 and 15", used, {}, 3),
            ("20 and 16", used, {0: 0}, 1),
            ("15", FRESH, {}, 3),
            ("15, 255", FRESH, {}, 255),
            ("15 and 16", FRESH, {0: 0}, 3),
            ("16", FRESH, {0: 0}, 1)]:
        ask_with(label, run, changed, proposal)
    ask("17 bytes", PAIR, [6] * 17, FRESH, 1)


def substitutes():
    fresh = start(TIES, 5)
    for slacks, ages in [("3, 2 and 2", (0, 0, 0)), ("1, 1 and 2", (2, 1, 0)), ("2, 2 and 1", (1, 0, 1))]:
        run = fresh
        for number, age in enumerate(ages, start=1):
            run = placed(run, number, age, 0, 1, 0, 0)
        print(f"D minus age {slacks}")
        for entry in range(17):
            line = f"entry {entry}:"
            for proposal in range(4):
                answer, after = asked(TIES, [entry] * state_number(TIES), run, proposal)
                line += f"{answer} substitutions {after.substitutions}"
            print(line)


def seven_tasks():
    run = start(MANY, 5)
    for entry, proposal in [(255, 0), (255, 7), (255, 8), (127, 7), (128, 0)]:
        every = "" if entry == 255 else f"every entry {entry}, "
        ask(f"seven of soft 1 1 1, {every}{proposal}", MANY, [entry] * 128, run, proposal)


# ---- reports -------------------------------------------------------------

def report_at(index, run, choice, finished, arrivals):
    if choice == 0:
        said = "idle finished" if finished else "idle"
    else:
        said = f"{choice} finished" if finished else f"{choice} not finished"
    report(f"PAIR at {index}, {said}, {arrivals}", PAIR, awaiting(run, choice), 6, finished, arrivals)


def readings():
    run = awaiting(start(PAIR, 4294967295), 1)
    report("4294967295 again", PAIR, run, 4294967295, True, 0)
    report("1 after 4294967295", PAIR, run, 1, True, 0)
    report("4294967294 after 4294967295", PAIR, run, 4294967294, True, 0)
    after = awaiting(report("0 after 4294967295", PAIR, run, 0, True, 0), 2)
    report("0 again", PAIR, after, 0, True, 3)
    report("1 after 0", PAIR, after, 1, True, 3)
    before = awaiting(start(PAIR, 4294967294), 1)
    report("0 after 4294967294", PAIR, before, 0, True, 0)
    report("4294967295 after 4294967294", PAIR, before, 4294967295, True, 0)


def misses():
    for choice, finished, arrivals in [(0, False, 3), (0, False, 1), (0, False, 2), (0, False, 0), (1, True, 3),
                                       (2, True, 3), (1, False, 3), (0, True, 3), (0, False, 7), (0, False, 131)]:
        report_at(10, TIGHT, choice, finished, arrivals)
    half = pair_at((1, None), (1, 0))
    for choice, finished, arrivals in [(0, False, 3), (2, True, 3), (2, True, 1)]:
        report_at(11, half, choice, finished, arrivals)


def outcomes():
    fresh = pair_at((0, 0), (0, 0))
    for choice, finished, arrivals in [(1, True, 0), (1, False, 0), (1, True, 1), (0, False, 0), (0, True, 0)]:
        report_at(0, fresh, choice, finished, arrivals)
    for arrivals in (0, 1, 2, 3, 4, 128):
        report_at(15, LAST, 0, False, arrivals)
    run = awaiting(start(MANY, 5), 7)
    for arrivals in (127, 255, 63):
        report(f"seven, 7 finished, {arrivals}", MANY, run, 6, True, arrivals)


def early():
    run = awaiting(start(EXAMPLE, 5), 2)
    report("soft 2 1,2 3, finished after 1", EXAMPLE, run, 6, True, 0)
    after = awaiting(report("soft 2 1,2 3, not finished after 1", EXAMPLE, run, 6, False, 0), 2)
    report("soft 2 1,2 3, not finished after 2", EXAMPLE, after, 7, False, 0)
    report("soft 2 1,2 3, finished after 2, 19 for 1", EXAMPLE, after, 7, True, 0)
    free = case("hard 1 1 1,2")
    run = awaiting(start(free, 5), 1)
    report("hard 1 1 1,2, arrives", free, run, 6, True, 1)
    after = awaiting(report("hard 1 1 1,2, stays away", free, run, 6, True, 0), 0)
    report("hard 1 1 1,2, stays away again", free, after, 7, False, 0)
    report("hard 1 1 1,2, arrives later", free, after, 7, False, 1)


def report_order():
    waits = awaiting(TIGHT, 0)
    mangled = awaiting(totalled(TIGHT, 1, 3), 0)
    report("hard 2 3 3 and 21", LATE, mangled, 6, False, 3)
    for label, run, reading, finished, arrivals in [
            ("21", mangled, 6, True, 3),
            ("21 and 14", totalled(TIGHT, 1, 2), 6, True, 3),
            ("21 and 17", mangled, 5, True, 3),
            ("21 and 18", mangled, 6, True, 255),
            ("21 and 19", mangled, 6, False, 3),
            ("14", TIGHT, 6, True, 0),
            ("14 and 17", TIGHT, 5, True, 0),
            ("14 and 18", TIGHT, 6, True, 255),
            ("17", waits, 7, False, 3),
            ("17 and 18", waits, 5, True, 255),
            ("17 and 19", waits, 5, False, 3),
            ("18 and 19", waits, 6, False, 1),
            ("19", waits, 6, False, 3)]:
        report(label, PAIR, run, reading, finished, arrivals)


def replaced():
    run = start(EXAMPLE, 5)
    for reading, (label, choice, finished, arrivals) in enumerate([
            ("hard 2 1 3 done", 1, True, 0),
            ("soft 2 1,2 3 given 1", 2, False, 0),
            ("both arrive, soft replaced", 0, False, 3),
            ("hard done again", 1, True, 0),
            ("soft finished", 2, True, 0),
            ("both arrive, none replaced", 0, False, 3),
            ("soft given 1", 2, False, 0),
            ("hard done late", 1, True, 0),
            ("both arrive, soft replaced again", 0, False, 3)], start=6):
        run = report(label, EXAMPLE, awaiting(run, choice), reading, finished, arrivals)
    report("six of seven replaced", MANY, awaiting(start(MANY, 5), 3), 6, True, 127)


# ---- a state fits the set ------------------------------------------------

MIDWAY = placed(placed(totalled(start(EXAMPLE, 5), 10, 4), 1, 1, 0, 4, 3, 0), 2, 1, 1, 4, 1, 2)


def tried(label, run):
    ask(label, EXAMPLE, [1] * 54, run, 0)
    report(label, EXAMPLE, run, 6, False, 0)


def tried_places(number, cases):
    for label, *place in cases:
        tried(label, placed(MIDWAY, number, *place))


def ranges():
    tried("midway", MIDWAY)
    tried_places(1, [("age 2, overdue", 2, 0, 4, 3, 0), ("age 3", 3, 0, 4, 3, 0), ("age 255", 255, 0, 4, 3, 0),
                     ("age 3, no job", 3, None, 4, 4, 0), ("given 1 of 1", 1, 1, 4, 3, 0),
                     ("given 255", 1, 255, 4, 3, 0)])
    tried_places(2, [("given 1 at age 0", 0, 1, 4, 1, 2), ("given 2 of 2", 1, 2, 4, 1, 2),
                     ("age 3 of the second", 3, 0, 4, 1, 2)])


def choices():
    for choice in (0, 1, 2, 3, 255):
        tried(f"awaits {choice}", awaiting(MIDWAY, choice))
    overdue = placed(MIDWAY, 1, 2, 0, 4, 3, 0)
    tried("awaits 1 at age 2", awaiting(overdue, 1))
    tried("awaits 2 beside it", awaiting(overdue, 2))
    none = placed(MIDWAY, 1, 1, None, 4, 4, 0)
    tried("awaits 1 with no job", awaiting(none, 1))
    tried("awaits 0 with no job", awaiting(none, 0))


def sums():
    tried_places(1, [("arrived 5", 1, 0, 5, 3, 0), ("arrived 3", 1, 0, 3, 3, 0),
                     ("replaced 1 of a hard task", 1, 0, 5, 3, 1), ("no job, arrived 4", 1, None, 4, 3, 0),
                     ("no job, arrived 3", 1, None, 3, 3, 0)])
    tried_places(2, [("a wrapped sum", 1, None, 1, 4294967295, 2),
                     ("a wrapped sum with a job", 1, 0, 1, 4294967295, 1), ("arrived 0", 1, None, 0, 0, 0),
                     ("arrived 1", 1, 0, 1, 0, 0), ("arrived 11", 1, 0, 11, 5, 5),
                     ("arrived 12", 1, 0, 12, 6, 5)])


def totals():
    waits = awaiting(MIDWAY, 1)
    for label, run, ticks, substitutions in [
            ("16777216 ticks", MIDWAY, 16777216, 4),
            ("16777217 ticks", MIDWAY, 16777217, 4),
            ("4294967295 ticks", MIDWAY, 4294967295, 4),
            ("10 substitutions", MIDWAY, 10, 10),
            ("11 substitutions", MIDWAY, 10, 11),
            ("4294967295 substitutions", MIDWAY, 10, 4294967295),
            ("11 substitutions, awaits 1", waits, 10, 11),
            ("12 substitutions, awaits 1", waits, 10, 12),
            ("4294967295 substitutions, awaits 1", waits, 10, 4294967295),
            ("16777215 ticks, awaits 1", waits, 16777215, 4),
            ("16777216 ticks, awaits 1", waits, 16777216, 4),
            ("16777216 ticks and substitutions", MIDWAY, 16777216, 16777216),
            ("16777215 ticks, all and one substituted", waits, 16777215, 16777216)]:
        tried(label, totalled(run, ticks, substitutions))


def places():
    for number in (3, 7):
        print(f"in place {number}:")
        tried_places(number, [("age 1", 1, None, 0, 0, 0), ("a job", 0, 0, 0, 0, 0), ("a fresh job", 0, 0, 1, 0, 0),
                              ("arrived 1", 0, None, 1, 0, 0), ("finished 1", 0, None, 0, 1, 0),
                              ("replaced 1", 0, None, 0, 0, 1), ("nothing", 0, None, 0, 0, 0)])


def last_tick():
    table = [1] * 54
    run = ask("at 16777215 ticks", EXAMPLE, table, totalled(MIDWAY, 16777215, 16777215), 1)
    run = report("at 16777215 ticks, refused", EXAMPLE, run, 6, False, 3)
    run = placed(run, 1, 1, None, 4, 4, 0)
    run = report("at 16777215 ticks", EXAMPLE, run, 6, False, 0)
    run = ask("at 16777216 ticks", EXAMPLE, table, run, 0)
    report("at 16777216 ticks", EXAMPLE, run, 7, False, 0)


# ---- runs of many ticks --------------------------------------------------

def first_taken(task_set, run, first):
    for j in range(512):
        bits = (first + j) % 512
        answer, after = reported(task_set, run, (run.reading + 1) % 2 ** 32, bits >= 256, bits % 256)
        if answer == " done":
            return f" report {bits}", after
    return "", run


def ticks(*tasks, label=None):
    task_set = case(*tasks)
    table = built(task_set)
    run = start(task_set, 4294967290)
    for i in range(24):
        proposal = i % 4 if len(tasks) < 4 else i % 8
        answer, run = asked(task_set, table, run, proposal)
        said, run = first_taken(task_set, run, i * 37)
        print(f"tick of {label or ', '.join(tasks)}: ask {proposal}{answer}{said}{shown(run)}")


def walks():
    ticks("hard 2 1 2", "hard 2 1 2", label="PAIR")
    ticks("hard 2 1 3", "soft 2 1,2 3")
    ticks("soft 3 1 3", "soft 2 1 2", "soft 2 1 4")
    ticks(*["soft 1 1 1"] * 7, label="seven of soft 1 1 1")
    ticks("soft 14 14 16", "hard 1 1 5", "hard 5 1,4 5")


for group in (starts, proposals, entries, ask_order, substitutes, seven_tasks, readings, misses, outcomes, early,
              report_order, replaced, ranges, choices, sums, totals, places, last_tick, walks):
    group()
