"""The builder and the tester of shield tables.

Document 01, "Shield". An entry is one byte: "bit 0 idle, bit i task i".
"""

from game import START, all_moves
from refusal import Refused
from sets import test_set


def is_good(successors, holds):
    """Whether each outcome of a choice is no miss and in a state that holds."""
    return successors is not None and all(holds[index] for index in successors)


def removal_rounds(moves):
    """For each index the round that removes it, 0 if none does; and R.

    "Begin with all states. A round removes, at once, each state in which
    every choice of the scheduler has an outcome that misses or leads to a
    state removed in an earlier round. The rounds number R is the least k
    for which rounds k+1 and k leave the same states."
    """
    removed_in = [0] * len(moves)
    left = [True] * len(moves)
    k = 0
    while True:
        falling = [index for index in range(len(moves)) if left[index]
                   and not any(is_good(successors, left)
                               for successors in moves[index].values())]
        if not falling:
            return removed_in, k
        k += 1
        for index in falling:
            left[index] = False
            removed_in[index] = k


def build(task_set, table, work):
    """The number of safe states, R and the start's entry, or a refusal.

    "Build: then 7 (table, work), 8."
    """
    states = test_set(task_set)
    if len(table) < states:
        raise Refused(7, states)
    if len(work) < states:
        raise Refused(7, states)
    moves = all_moves(task_set)
    removed_in, rounds = removal_rounds(moves)
    # "No buffer changes, except that 8 zeroes the first S bytes of table
    # and work." After success too the work buffer "holds zeros in its
    # first S. Bytes beyond S stay."
    work[:states] = bytes(states)
    table[:states] = bytes(states)
    if removed_in[START] != 0:
        raise Refused(8, removed_in[START])
    safe = [k == 0 for k in removed_in]
    for index in range(states):
        # "set when each outcome of that choice is no miss and safe. Unsafe
        # states have entry 0."
        if safe[index]:
            for choice, successors in moves[index].items():
                if is_good(successors, safe):
                    table[index] |= 1 << choice
    return sum(safe), rounds, table[START]


def lowest_fault(task_set, states, table):
    """None if the table passes, otherwise the lowest faulty index.

    "A table passes the test exactly when entry 0 is non-zero and each
    non-zero entry names only idle or tasks runnable there, each with all
    outcomes no miss and on a non-zero entry. Index 0 counts as faulty when
    its entry is zero."
    """
    moves = all_moves(task_set)
    for index in range(states):
        entry = table[index]
        if entry == 0:
            if index == START:
                return index
            continue
        for bit in range(8):
            if entry & (1 << bit):
                if bit not in moves[index]:
                    return index
                if not is_good(moves[index][bit], table):
                    return index
    return None


def test_table(task_set, table):
    """Nothing, or a refusal. "Test: 7, 13." """
    states = test_set(task_set)
    if len(table) < states:
        raise Refused(7, states)
    fault = lowest_fault(task_set, states, table)
    if fault is not None:
        raise Refused(13, fault)
