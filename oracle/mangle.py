"""mangle.py SEED COUNT: a command text of COUNT lines, most of them mangled.

Each line is one of the stored batch, with some bytes put in, taken out or
changed, or a word changed, often so that the line is no command any more.
Commands that take the oracle long are left out.
"""

import random
import sys

import batch

BYTES = b" 0123456789abcdefABCDEFgx-+\t\r\0\xff"
WORDS = [b"", b"none", b"set", b"run", b"table", b"work", b"file", b"text",
         b"0", b"00", b"1", b"2", b"7", b"8", b"255", b"256", b"257",
         b"1200", b"1201", b"65535", b"65536", b"65537", b"70000", b"70001",
         b"4294967295", b"4294967296", b"18446744073709551616",
         b"18446744073709551617", b"9" * 40]
SLOW = (b"build", b"test table", b"write", b"open", b"print")
LONGEST = 200


def put(line, r):
    place = r.randrange(len(line) + 1)
    return line[:place] + bytes([r.choice(BYTES)]) + line[place:]


def take(line, r):
    place = r.randrange(len(line) + 1)
    return line[:place] + line[place + 1:]


def change(line, r):
    place = r.randrange(len(line) + 1)
    return line[:place] + bytes([r.choice(BYTES)]) + line[place + 1:]


def word(line, r):
    words = line.split(b" ")
    words[r.randrange(len(words))] = r.choice(WORDS)
    return b" ".join(words)


def more(line, r):
    return line + b" " + r.choice(WORDS)


def fewer(line, r):
    return line[:line.rfind(b" ") + r.randrange(2)]


def long(line, r):
    """About as long as a line may be."""
    if r.randrange(10) == 0:
        line += b"0" * (r.choice([254, 255, 256, 257, 600]) - len(line))
    return line


WAYS = [put, take, change, word, word, more, fewer, long]


def mangle(seed, count):
    r = random.Random(seed)
    base = [line for line in batch.batch().split(b"\n") if len(line) <= LONGEST]
    lines = []
    while len(lines) < count:
        line = r.choice(base)
        for _ in range(r.choice([0, 1, 1, 1, 2, 3])):
            line = r.choice(WAYS)(line, r)
        if line not in SLOW:
            lines.append(line)
    return b"\n".join(lines) + b"\n"


if __name__ == "__main__":
    sys.stdout.buffer.write(mangle(int(sys.argv[1]), int(sys.argv[2])))
