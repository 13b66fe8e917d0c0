"""Tasks, lists of values, sets, and the test of a set's record.

Document 01, "Tasks and numbers" and the line "A record" of "Order".
"""

from functools import lru_cache
from typing import NamedTuple

from refusal import Refused

SOFT = 0
HARD = 1

# "A set has a name of 1 to 16 characters from A-Z, 0-9 and `-`, and 1 to
# 7 tasks, numbered from 1."
NAME_CHARACTERS = b"ABCDEFGHIJKLMNOPQRSTUVWXYZ0123456789-"
NAME_BYTES = 16
MOST_TASKS = 7

# "The number of states S is the product, at most 60,000."
MOST_STATES = 60000


class Task(NamedTuple):
    """A record: kind and deadline are a byte each, the lists 16 bits each."""
    kind: int
    deadline: int
    runs: int  # the list C
    gaps: int  # the list A


class TaskSet(NamedTuple):
    """ "The set is carried whole, as seven task records beside a count." """
    name: bytes  # always 16 bytes
    count: int
    tasks: tuple  # always seven records; task i is tasks[i - 1]


NO_TASK = Task(0, 0, 0, 0)

# "A refusal returns zeros beside its number and place": the set that a
# refused read gives back.
ZERO_SET = TaskSet(bytes(NAME_BYTES), 0, (NO_TASK,) * MOST_TASKS)


def make_set(name, tasks):
    """A set from a name (text) and a sequence of tasks, padded with zeros."""
    padded_name = name.encode("ascii").ljust(NAME_BYTES, b"\0")
    padded_tasks = tuple(tasks) + (NO_TASK,) * (MOST_TASKS - len(tasks))
    return TaskSet(padded_name, len(tasks), padded_tasks)


# ---- lists ---------------------------------------------------------------
# "A list is kept as 16 bits, value k at bit k-1."

def bits_of(values):
    bits = 0
    for k in values:
        bits |= 1 << (k - 1)
    return bits


@lru_cache(maxsize=None)  # only so that it is quick
def values_of(bits):
    return tuple(k for k in range(1, 17) if bits & (1 << (k - 1)))


@lru_cache(maxsize=None)
def shortest(bits):
    return min(values_of(bits))


@lru_cache(maxsize=None)
def longest(bits):
    return max(values_of(bits))


# ---- numbers of states ---------------------------------------------------

def local_numbers(task):
    """ "There are amax x (cmax+1) local numbers." """
    return longest(task.gaps) * (longest(task.runs) + 1)


def state_number(task_set):
    """S, the product; Python's numbers do not wrap."""
    product = 1
    for task in task_set.tasks[:task_set.count]:
        product *= local_numbers(task)
    return product


# ---- the test of a record ------------------------------------------------

def name_is_good(name):
    """1 to 16 characters, then only zero bytes.

    "Records beyond the count are all zero, and so are the bytes of its
    16-byte name beyond the last character."
    """
    characters = name.rstrip(b"\0")
    if len(characters) == 0:
        return False
    return all(byte in NAME_CHARACTERS for byte in characters)


def test_task(number, deadline, c_values, a_values):
    """ "Required: cmax at most D, and the shortest gap at least D." """
    if max(c_values) > deadline:
        raise Refused(4, number)
    if min(a_values) < deadline:
        raise Refused(5, number)


def test_states(task_set):
    states = state_number(task_set)
    if states > MOST_STATES:
        raise Refused(6, 0)
    return states


def test_set(task_set):
    """S, or a refusal.

    "A record: 3 place 0, then 3, 4, 5 by task, 6; every call with a set
    tests it so."
    """
    if not name_is_good(task_set.name):
        raise Refused(3, 0)
    if not 1 <= task_set.count <= MOST_TASKS:
        raise Refused(3, 0)
    for number in range(1, MOST_TASKS + 1):
        task = task_set.tasks[number - 1]
        if number > task_set.count:
            if task != NO_TASK:
                raise Refused(3, number)
            continue
        if task.kind not in (SOFT, HARD):
            raise Refused(3, number)
        if not 1 <= task.deadline <= 16:
            raise Refused(3, number)
        if task.runs == 0 or task.gaps == 0:
            raise Refused(3, number)
        test_task(number, task.deadline,
                  values_of(task.runs), values_of(task.gaps))
    return test_states(task_set)
