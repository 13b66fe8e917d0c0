"""States, their indices, one tick, and the outcomes of a choice.

Document 01, "Tasks and numbers" and "One tick". A task's state is a pair
(age, job): job is the ticks already given, or None if no job is in hand.
A whole state is a tuple of such pairs, task 1 first. All functions here
take a set that has passed its test.
"""

from functools import lru_cache
from typing import NamedTuple

from sets import HARD, local_numbers, longest, state_number, values_of

IDLE = 0
START = 0  # "Index 0 is the start: all jobs fresh."


# ---- indices -------------------------------------------------------------

def local_number(task, age, job):
    """ "age x (cmax+1) + g, where g is the ticks given, or cmax if no job
    is in hand." """
    cmax = longest(task.runs)
    g = cmax if job is None else job
    return age * (cmax + 1) + g


def local_state(task, number):
    cmax = longest(task.runs)
    age, g = divmod(number, cmax + 1)
    return (age, None if g == cmax else g)


def index_of(task_set, state):
    """ "The index of a whole state is mixed radix, task 1 lowest." """
    index = 0
    weight = 1
    for task, (age, job) in zip(task_set.tasks, state):
        index += weight * local_number(task, age, job)
        weight *= local_numbers(task)
    return index


def state_at(task_set, index):
    state = []
    for task in task_set.tasks[:task_set.count]:
        index, number = divmod(index, local_numbers(task))
        state.append(local_state(task, number))
    return tuple(state)


# ---- one tick ------------------------------------------------------------

def is_runnable(task, age, job):
    """ "a runnable task: job in hand and age below D" """
    return job is not None and age < task.deadline


class Part(NamedTuple):
    """What one tick does to one task."""
    age: int
    job: object  # ticks given, or None
    missed: bool
    replaced: bool


def tick_task(task, age, job, is_run, finishes, arrives):
    """One task's part of a tick, or None if it is impossible."""
    # "2. The run task's ticks given rise by one to t. If t is in C, the
    # job may finish; if t is cmax, it must. No other job finishes."
    if is_run:
        t = job + 1
        if finishes and t not in values_of(task.runs):
            return None
        if not finishes and t == longest(task.runs):
            return None
        job = None if finishes else t
    elif finishes:
        return None
    # "3. Every age rises by one to a. A hard job still in hand with a at
    # least D is a miss, also when the next job arrives in this very tick."
    a = age + 1
    missed = task.kind == HARD and job is not None and a >= task.deadline
    # "4. If a is in A, the next job may arrive; if a is amax, it must. A
    # fresh job has age 0 and nothing given. A soft job still in hand is
    # then replaced."
    if arrives and a not in values_of(task.gaps):
        return None
    if not arrives and a == longest(task.gaps):
        return None
    if arrives:
        return Part(0, 0, missed, job is not None)
    return Part(a, job, missed, False)


def tick(task_set, state, choice, finished, arrivals):
    """All tasks' parts of a tick, or None if the outcome is impossible.

    `choice` is 0 for idle or the number of a runnable task; `finished`
    says whether the run job finishes; bit i-1 of `arrivals` is task i.
    """
    if finished and choice == IDLE:
        return None
    if arrivals >> task_set.count != 0:
        return None
    parts = []
    for number, (age, job) in enumerate(state, start=1):
        is_run = number == choice
        arrives = bool(arrivals & (1 << (number - 1)))
        part = tick_task(task_set.tasks[number - 1], age, job, is_run,
                         finished and is_run, arrives)
        if part is None:
            return None
        parts.append(part)
    return parts


def choices(task_set, state):
    """ "The scheduler idles or runs a runnable task." """
    found = [IDLE]
    for number, (age, job) in enumerate(state, start=1):
        if is_runnable(task_set.tasks[number - 1], age, job):
            found.append(number)
    return found


def outcomes(task_set, state, choice):
    """Every possible (finished, arrivals, parts) of a choice, by trying all."""
    found = []
    for finished in (False, True):
        for arrivals in range(1 << task_set.count):
            parts = tick(task_set, state, choice, finished, arrivals)
            if parts is not None:
                found.append((finished, arrivals, parts))
    return found


# ---- all moves of a set --------------------------------------------------
# "The generator's choices for different tasks are independent": so the
# outcomes of a choice are all combinations of the tasks' own outcomes.
# The same as outcomes() above, which the self-test compares, but quicker.

def task_moves(task, is_run, weight):
    """For each local number: None if some outcome misses, otherwise the
    shares of the successors' indices."""
    moves = []
    for number in range(local_numbers(task)):
        age, job = local_state(task, number)
        if is_run and not is_runnable(task, age, job):
            moves.append(None)
            continue
        parts = []
        for finishes in (False, True):
            for arrives in (False, True):
                part = tick_task(task, age, job, is_run, finishes, arrives)
                if part is not None:
                    parts.append(part)
        if any(part.missed for part in parts):
            moves.append(None)
        else:
            moves.append([weight * local_number(task, part.age, part.job)
                          for part in parts])
    return moves


@lru_cache(maxsize=2)  # the same set is asked for again and again
def all_moves(task_set):
    """For each index a dictionary from each choice there to the indices it
    can lead to, or to None if one of its outcomes is a miss."""
    tasks = task_set.tasks[:task_set.count]
    waiting = []
    running = []
    weight = 1
    for task in tasks:
        waiting.append(task_moves(task, False, weight))
        running.append(task_moves(task, True, weight))
        weight *= local_numbers(task)
    found = []
    for index in range(state_number(task_set)):
        state = state_at(task_set, index)
        locals_ = [local_number(task, age, job)
                   for task, (age, job) in zip(tasks, state)]
        moves = {}
        for choice in choices(task_set, state):
            successors = [0]
            for place, number in enumerate(locals_):
                table = running if place + 1 == choice else waiting
                shares = table[place][number]
                if shares is None:
                    successors = None
                    break
                successors = [a + b for a in successors for b in shares]
            moves[choice] = successors
        found.append(moves)
    return found
