#!/usr/bin/env python3
"""Brings the repository's own names to the spelling of today's Rattle, after port.py: words in snake case.

usage: python3 tools/respell.py        at the top of the repository, once, after port.py

`respell.tsv` has a line a name: 'own' for a name that port.py left, 'port' for one that port.py turned in crates/ and left in pages and edits.
A name is turned where it stands as a whole word: in specs/, proofs/ and src/, in must-fail edits, and between backticks in the pages."""
import os
import re

HERE = os.path.dirname(os.path.abspath(__file__))
WORD = re.compile(r"[^\s(){}.,;:`\[\]|@\"=]+")
QUOTED = re.compile(r"`[^`\n]+`")


def table():
    own, port = {}, {}
    with open(os.path.join(HERE, "respell.tsv"), encoding="utf-8") as f:
        for line in f:
            kind, old, new = line.rstrip("\n").split("\t")
            (own if kind == "own" else port)[old] = new
    return own, port


def turned(text, names):
    return WORD.sub(lambda m: names.get(m.group(), m.group()), text)


def rewrite(path, turn):
    with open(path, encoding="utf-8") as f:
        old = f.read()
    new = turn(old)
    if new != old:
        with open(path, "w", encoding="utf-8") as f:
            f.write(new)


def main():
    own, port = table()
    both = {**port, **own}
    for folder, dirs, files in os.walk("crates"):
        dirs[:] = sorted(d for d in dirs if d not in ("out", "target"))
        for name in sorted(files):
            path = os.path.join(folder, name)
            if name.endswith((".antt", ".rt")):
                rewrite(path, lambda t: turned(t, own))
            elif name.endswith(".edit"):
                rewrite(path, lambda t: turned(t, both))
    for path in ["README.md", *(os.path.join(d, f) for d in ("docs", "oracle") for f in sorted(os.listdir(d)) if f.endswith(".md"))]:
        rewrite(path, lambda t: QUOTED.sub(lambda m: turned(m.group(), both), t))


main()
