#!/usr/bin/env python3
"""Brings the repository's own definitions, lemmas and fields to one spelling: words in snake case, types in camel case.

usage: python3 tools/respell.py [TOP]

It reads the names from respell.txt beside it, and turns them in the .antt, .rt and .edit files below TOP/crates. A name is
turned where it stands as a whole word: in code and clauses, and in comments between backquotes; never in a string. After
a dot it is turned only where it is a field of a record, since what the check makes from the code's own names stands there
too. It runs once, after the kit's own script and before any edit by hand.
"""

import os
import re
import sys

HERE = os.path.dirname(os.path.realpath(__file__))
TOP = sys.argv[1] if len(sys.argv) > 1 else os.path.dirname(HERE)
LETTERS = r"A-Za-z0-9_'?≤<≡≢·+*/^%≠∷∙ℕ-"
WORD = re.compile(rf"(?<![{LETTERS}])[{LETTERS}]+")
STRING = re.compile(r'"(?:\\.|[^"\\\n])*"')


def names():
    new, fields = {}, set()
    with open(os.path.join(HERE, "respell.txt"), encoding="utf-8") as f:
        for line in f:
            if line.startswith("#"):
                continue
            words = line.split()
            new[words[0]] = words[1]
            if words[2:] == ["field"]:
                fields.add(words[0])
    return new, fields


NEW, FIELDS = names()


def words(text):
    def turn(m):
        word = m[0]
        if word not in NEW or (m.start() and text[m.start() - 1] == "." and word not in FIELDS):
            return word
        return NEW[word]

    return WORD.sub(turn, text)


def outside_strings(text):
    out, at = [], 0
    for m in STRING.finditer(text):
        out += [words(text[at : m.start()]), m[0]]
        at = m.end()
    return "".join(out) + words(text[at:])


def line(text, mark):
    """One line: its code, and of the comment that mark begins the parts between backquotes."""
    at = text.find(mark)
    if mark == "--":
        m = re.search(r"(?:^|(?<=\s))--(?=\s|$)", text)
        at = m.start() if m else -1
    if at < 0:
        return outside_strings(text)
    parts = text[at:].split("`")
    parts[1::2] = [words(p) for p in parts[1::2]]
    return outside_strings(text[:at]) + "`".join(parts)


def main():
    for folder, dirs, files in os.walk(os.path.join(TOP, "crates")):
        dirs[:] = sorted(d for d in dirs if d != "out")
        for f in sorted(files):
            if not f.endswith((".antt", ".rt", ".edit")):
                continue
            path = os.path.join(folder, f)
            with open(path, encoding="utf-8") as it:
                old = it.read()
            mark = "--" if f.endswith(".antt") else "//"
            new = "\n".join(line(l, mark) for l in old.split("\n"))
            if new != old:
                with open(path, "w", encoding="utf-8") as it:
                    it.write(new)


main()
