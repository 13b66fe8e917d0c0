"""fresh.py SEED COUNT [BATCHES [PROGRAM]]: fresh batches for `replay`.

Makes two batches of COUNT lines from each seed from SEED on, one by make.py
and one of mangled lines by mangle.py, gives them to the program and to the
oracle, and compares their answers. BATCHES is 1 if it is
not given; 0 goes on until it is stopped or a line differs. PROGRAM is
crates/replay/out/replay, which `rt run` leaves there, if it is not given. The
exit code is not zero if a line differs.
"""

import os
import subprocess
import sys

import make
import mangle
import replay

HERE = os.path.dirname(os.path.abspath(__file__))
PROGRAM = os.path.join(HERE, "..", "crates", "replay", "out", "replay")


def compare(name, text, program):
    """Whether program and oracle agree on a text; prints what they say."""
    got = subprocess.run([program], input=text, stdout=subprocess.PIPE,
                         check=True).stdout.split(b"\n")
    expected = replay.replay(text).encode("ascii").split(b"\n")
    for place, (a, b) in enumerate(zip(got, expected), start=1):
        if a != b:
            print("%s line %d: %r" % (
                name, place, replay.lines_of(text)[place - 1]))
            print("  program: %r" % a)
            print("  oracle:  %r" % b)
            return False
    if len(got) != len(expected):
        print("%s: %d answers, not %d" % (
            name, len(got) - 1, len(expected) - 1))
        return False
    refused = [answer for answer in got if answer.startswith(b"refused ")]
    print("%s: %d lines agree, %d refused, %d mangled" % (
        name, len(got) - 1, len(refused),
        len([answer for answer in got if answer.startswith(b"?")])),
        flush=True)
    return True


def main(words):
    seed, count = int(words[0]), int(words[1])
    batches = int(words[2]) if len(words) > 2 else 1
    program = words[3] if len(words) > 3 else PROGRAM
    done = 0
    while batches == 0 or done < batches:
        for maker, text in (("make", make.Maker(seed + done, count).make()),
                            ("mangle", mangle.mangle(seed + done, count))):
            if not compare("%s %d" % (maker, seed + done), text, program):
                return 1
        done += 1
    return 0


if __name__ == "__main__":
    sys.exit(main(sys.argv[1:]))
