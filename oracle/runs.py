"""A guarded run: start, ask, report, and whether a state fits the set.

Document 01, "A run".
"""

from typing import NamedTuple

from game import IDLE, index_of, is_runnable, tick
from refusal import Refused
from sets import MOST_TASKS, longest, test_set

MOST_TICKS = 16777216
READINGS = 1 << 32  # "a 32-bit tick reading that rolls over to zero"


class Place(NamedTuple):
    """What a run holds for one task."""
    age: int
    job: object  # ticks given, or None if no job is in hand
    arrived: int
    finished: int
    replaced: int


class Run(NamedTuple):
    places: tuple  # always seven; task i is places[i - 1]
    ticks: int
    substitutions: int
    reading: int  # the last one taken
    awaited: object  # the choice whose report is awaited, or None


NO_PLACE = Place(0, None, 0, 0, 0)

# "a refused start [returns] one of zeros with no job"
ZERO_RUN = Run((NO_PLACE,) * MOST_TASKS, 0, 0, 0, None)


def state_of(task_set, run):
    return tuple((place.age, place.job)
                 for place in run.places[:task_set.count])


def fits(task_set, run):
    """Whether a run's state fits a set that has passed its test."""
    n = task_set.count
    for number in range(1, MOST_TASKS + 1):
        place = run.places[number - 1]
        # "places beyond n are zero with no job"
        if number > n:
            if place != NO_PLACE:
                return False
            continue
        task = task_set.tasks[number - 1]
        # "ages and ticks given are in range": "age (ticks since its last
        # arrival, 0 to amax-1)", "ticks already given, 0 to cmax-1"
        if not 0 <= place.age <= longest(task.gaps) - 1:
            return False
        if place.job is not None:
            if not 0 <= place.job <= longest(task.runs) - 1:
                return False
        # "the job sums hold": "arrived is always these two plus the job in
        # hand"
        in_hand = 0 if place.job is None else 1
        if place.arrived != place.finished + place.replaced + in_hand:
            return False
        # "arrived is 1 to ticks+1"
        if not 1 <= place.arrived <= run.ticks + 1:
            return False
    # "ticks are at most 16,777,216"
    if run.ticks > MOST_TICKS:
        return False
    if run.awaited is None:
        # "substitutions are at most ticks"
        return run.substitutions <= run.ticks
    # "(one more while a report is awaited)"
    if run.substitutions > run.ticks + 1:
        return False
    # "no report is awaited at the last tick"
    if run.ticks == MOST_TICKS:
        return False
    # "an awaited choice is idle or runnable"
    if run.awaited == IDLE:
        return True
    if run.awaited > n:
        return False
    place = run.places[run.awaited - 1]
    return is_runnable(task_set.tasks[run.awaited - 1], place.age, place.job)


def start(task_set, reading):
    """The run's first state, or a refusal of the set."""
    test_set(task_set)
    fresh = Place(0, 0, 1, 0, 0)
    n = task_set.count
    places = (fresh,) * n + (NO_PLACE,) * (MOST_TASKS - n)
    return Run(places, 0, 0, reading, None)


def least_slack(task_set, run, entry):
    """ "the allowed task with least D minus age, lowest number on a tie,
    and idle if no task is allowed" """
    best = IDLE
    best_slack = None
    for number in range(1, task_set.count + 1):
        if entry & (1 << number):
            slack = (task_set.tasks[number - 1].deadline
                     - run.places[number - 1].age)
            if best_slack is None or slack < best_slack:
                best = number
                best_slack = slack
    return best


def ask(task_set, table, run, proposal):
    """The choice and the next run, or a refusal.

    "Ask: 7, 21, 14, 20, 15, 16."
    """
    states = test_set(task_set)
    if len(table) < states:
        raise Refused(7, states)
    if not fits(task_set, run):
        raise Refused(21, 0)
    if run.awaited is not None:
        raise Refused(14, 0)
    if run.ticks == MOST_TICKS:
        raise Refused(20, 0)
    if proposal > task_set.count:
        raise Refused(15, 0)
    state = state_of(task_set, run)
    index = index_of(task_set, state)
    entry = table[index]
    # "entry 0, or names a task not runnable or above n"
    if entry == 0:
        raise Refused(16, index)
    for bit in range(1, 8):
        if entry & (1 << bit):
            if bit > task_set.count:
                raise Refused(16, index)
            if not is_runnable(task_set.tasks[bit - 1], *state[bit - 1]):
                raise Refused(16, index)
    # "gives it back if the entry allows it"
    if entry & (1 << proposal):
        return proposal, run._replace(awaited=proposal)
    choice = least_slack(task_set, run, entry)
    return choice, run._replace(awaited=choice,
                                substitutions=run.substitutions + 1)


def report(task_set, run, reading, finished, arrivals):
    """The next run, or a refusal. "Report: 21, 14, 17, 18, 19." """
    test_set(task_set)
    if not fits(task_set, run):
        raise Refused(21, 0)
    if run.awaited is None:
        raise Refused(14, 0)
    if reading != (run.reading + 1) % READINGS:
        raise Refused(17, 0)
    parts = tick(task_set, state_of(task_set, run), run.awaited,
                 finished, arrivals)
    if parts is None:
        raise Refused(18, 0)
    for number, part in enumerate(parts, start=1):
        if part.missed:
            raise Refused(19, number)
    places = list(run.places)
    for number, part in enumerate(parts, start=1):
        old = run.places[number - 1]
        arrives = arrivals & (1 << (number - 1)) != 0
        finishes = finished and number == run.awaited
        places[number - 1] = Place(part.age, part.job,
                                   old.arrived + int(arrives),
                                   old.finished + int(finishes),
                                   old.replaced + int(part.replaced))
    return Run(tuple(places), run.ticks + 1, run.substitutions, reading, None)
