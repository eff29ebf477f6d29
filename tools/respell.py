#!/usr/bin/env python3
"""Brings the repository's own definitions, fields and lemmas to snake case, after the kit's port.py.

usage: respell.py ROOT

A name that is declared in an .antt file of crates/ in lower camel case (pathOf) is written in snake case (path_of), and a field or a
definition of specs/ that has dashes between lower-case words (in-sizes) with underscores (in_sizes). A lemma keeps the dash that joins
two names. Types and modules keep their capitals, and what src/ names keeps its spelling. Names that would fall together are printed,
and nothing is written. It was run once; a second run changes nothing.
"""

import glob
import os
import re
import sys

W = r"[^\s(){}.;,@\"«»\[\]\\:`]+"
TOKEN = re.compile(W)
HEAD = re.compile(r"^(?:(?:abbrev|unfoldable|opaque|pub|ruleset|data|record) +)*(" + W + r") *(?:\([^)]*\) *)*:")
FIELD = re.compile(r"^ +(?:pub +)?(" + W + r") *:")
CAMEL = re.compile(r"^[a-z][a-z0-9_]*[A-Z]")
DASHED = re.compile(r"^[a-z][a-z0-9_]*(-[a-z][a-z0-9_]*)+$")


# Lemmas whose names a definition takes.
LEMMAS = {"getD-items": "get_or-items", "model_in": "model_at-lists_in", "size_above": "size_above-sized"}


def snake(part):
    if not CAMEL.match(part):
        return part
    s = re.sub(r"([a-z0-9])([A-Z])", r"\1_\2", part)
    return re.sub(r"([A-Z]+)([A-Z][a-z])", r"\1_\2", s).lower()


def files(root, *ends):
    for e in ends:
        yield from sorted(glob.glob(os.path.join(root, e), recursive=True))


def read(path):
    with open(path, encoding="utf-8", newline="") as f:
        return f.read()


def main(root):
    every = set()
    fields = set()
    turn = dict(LEMMAS)
    for p in files(root, "crates/*/specs/**/*.antt", "crates/*/proofs/**/*.antt"):
        spec = "/specs/" in p
        inside = False
        for line in read(p).split("\n"):
            m = HEAD.match(line)
            field = False
            if m:
                inside = bool(re.match(r"^(pub +)?(record|data)\b|^(abbrev |unfoldable )?(pub +)?(record|data)\b", line))
            elif inside and line.startswith(" "):
                m = FIELD.match(line)
                field = True
            if not m:
                continue
            name = m.group(1)
            (fields if field else every).add(name)
            new = "-".join(snake(x) for x in name.split("-"))
            if new == name and spec and DASHED.match(name):
                new = name.replace("-", "_")
            if new != name and name not in turn:
                turn[name] = new
    taken = {turn.get(x, x) for x in every if not DASHED.match(x)} | every - set(turn)
    for name in [x for x in turn if DASHED.match(x)]:
        if turn[name] in taken or turn[name] in fields:
            del turn[name]
    clash = [(a, b) for a, b in turn.items() if a in every and b in every - set(turn) or [turn[x] for x in turn if x in every].count(b) > 1]
    if clash:
        print("would fall together:", clash)
        return 1
    for p in files(root, "crates/*/specs/**/*.antt", "crates/*/proofs/**/*.antt", "crates/*/src/**/*.rt"):
        old = read(p)
        new = TOKEN.sub(lambda m: turn.get(m.group(0), m.group(0)), old)
        if new != old:
            with open(p, "w", encoding="utf-8", newline="") as f:
                f.write(new)
    print(len(turn), "names respelled")
    for a in sorted(turn):
        print(a, turn[a])
    return 0


if __name__ == "__main__":
    sys.exit(main(*sys.argv[1:]))
