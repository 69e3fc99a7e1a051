#!/usr/bin/env python3
"""Respells this repository's own definitions and lemmas: words in snake case, a dash only between two names.

usage: python3 tools/respell.py      at the top of the repository, once, after the port script

tools/respelled.txt has a line `OLD NEW` for each name. Turned are .antt files, the clauses and `ghost use` lines of .rt files,
and must-fail edits. Functions of src/, exported names, strings and outputs keep their names.
"""
import glob
import os
import re

HERE = os.path.dirname(os.path.realpath(__file__))
with open(os.path.join(HERE, "respelled.txt"), encoding="utf-8") as f:
    TABLE = dict(line.split() for line in f if line.strip())

# a name ends where white space, a bracket or one of . , ; : stands
NAME = re.compile(r"[^\s(){}\[\].,;:⦃⦄`\"]+")
CLAUSE = re.compile(r"^\s*(ghost |requires|ensures|invariant|//)")


def respelled(text):
    return NAME.sub(lambda m: TABLE.get(m.group(0), m.group(0)), text)


def turn(path):
    with open(path, encoding="utf-8") as f:
        text = f.read()
    if path.endswith(".rt"):
        new = "".join(respelled(line) if CLAUSE.match(line) else line for line in text.splitlines(keepends=True))
    else:
        new = respelled(text)
    if new != text:
        with open(path, "w", encoding="utf-8") as f:
            f.write(new)
        return 1
    return 0


if __name__ == "__main__":
    paths = []
    for pattern in ("crates/*/specs/**/*.antt", "crates/*/proofs/**/*.antt", "crates/*/src/**/*.rt", "crates/*/must-fail/*.edit"):
        paths += glob.glob(pattern, recursive=True)
    print("respelled: %d files" % sum(turn(p) for p in sorted(paths)))
