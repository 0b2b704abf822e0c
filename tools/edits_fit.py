#!/usr/bin/env python3
"""Lists the wrong programs' edits that don't fit the text: those with an old text that doesn't stand exactly once.

usage: python3 tools/edits_fit.py [-v] [PATTERN...]        at the top of the repository

The edits are crates/*/must-fail/*.edit, crates/*/wrong/*.edit and tests/wrong/*/CRATE/*.edit; with patterns, those whose path has one of
them in it. The pairs of an edit are applied one after the other, in memory. An edit of tests/wrong with the line 'expect: does not apply'
has to be one that doesn't. With -v each listed edit is followed by its old text. The exit status is 1 where an edit is listed.
"""

import glob
import os
import re
import sys


def pairs(path):
    """The pairs of an edit, as (file, old, new), and what it says after 'expect: '."""
    file = old = expect = ""
    out = []
    with open(path, encoding="utf-8") as f:
        for line in f.read().split("\n"):
            if line.startswith("file: "):
                file = line[6:]
            elif line.startswith("old: "):
                old = line[5:]
            elif line.startswith("new:"):
                new = line[4:]
                out.append((file, old, new[1:] if new.startswith(" ") else new))
                old = ""
            elif line.startswith("expect: "):
                expect = line[8:]
    return out, expect


def crate_of(path):
    part = path.split("/")
    return part[1] if part[0] == "crates" else part[-2]


def apply(path, top="."):
    """What is wrong with an edit, '' where nothing is, and the texts that it makes, by file."""
    texts = {}
    made, _ = pairs(path)
    if not made:
        return "it has no 'old:' and 'new:' pair", texts
    for file, old, new in made:
        name = f"{top}/crates/{crate_of(path)}/{file}"
        if name not in texts:
            if not os.path.isfile(name):
                return f"no file {file}", texts
            with open(name, encoding="utf-8") as f:
                texts[name] = f.read()
        n = texts[name].count(old) if old else 0
        if n != 1:
            return f"{n} times in {file}: {old}", texts
        texts[name] = texts[name].replace(old, new)
    return "", texts


def edits():
    for pattern in ("crates/*/must-fail/*.edit", "crates/*/wrong/*.edit", "tests/wrong/*/*/*.edit"):
        yield from sorted(glob.glob(pattern))


def main():
    words = [w for w in sys.argv[1:] if w != "-v"]
    told = n = 0
    for path in edits():
        if words and not any(w in path for w in words):
            continue
        n += 1
        said, _ = apply(path)
        _, expect = pairs(path)
        if expect.startswith("does not apply"):
            said = "" if said else "it applies, and should not"
        if said:
            told += 1
            print(f"{path}: {said}" if "-v" in sys.argv else path)
    print(f"{n} edits, {told} don't fit")
    sys.exit(1 if told else 0)


if __name__ == "__main__":
    main()
