#!/usr/bin/env python3
"""Brings the definitions, lemmas and fields of crates/ to snake case, as the library's own: `badWindows` becomes `bad_windows`.

usage: python3 tools/snake_case.py        at the top of the repository, once

The words are those in lower camel case that stand in an .antt file, alone or as a part of a name with dashes. They are rewritten in
.antt, .rt and .edit files below crates/ and tests/ and in the pages, outside string literals of .rt files. A lemma that has the snake
case name of a definition already gets `_lem` first. Functions, strings, inputs and outputs keep their names.
"""

import os
import re
import sys

WORD = re.compile(r"(?<![A-Za-z0-9_'])[a-z][a-z0-9_']*[A-Z][A-Za-z0-9_']*")
STRING = re.compile(r'"(?:[^"\\\n]|\\.)*"')
# Not a name of this repository.
KEPT = {"x2APIC"}
# Lemmas that would fall together with a definition: name, and the modules that define it.
LEMMAS = {
    "at_table": ["dma.proofs.Stepped", "translation.proofs.Types"],
    "at_top": ["leaves.proofs.Passes"],
    "first_step": ["claims.proofs.ScalableAnswers"],
    "head_bytes": ["traced.proofs.Heads", "packing.proofs.FourWords"],
    "in_place": ["faults.proofs.Recording"],
    "load_after": ["meter.proofs.Runs"],
    "some_left": ["second.proofs.Rights"],
    "spot_in": ["image.proofs.WindowEntries"],
    "stops_at": ["built.proofs.Own", "interrupts.proofs.Admissions"],
    "takes_at": ["interrupts.proofs.Admissions", "translation.proofs.Admissions", "dma.proofs.Admissions"],
    "walk_step": ["dma.proofs.Walks"],
}


def snake(word):
    if word in KEPT:
        return word
    return re.sub(r"(?<=[a-z0-9'])([A-Z])", lambda m: "_" + m.group(1).lower(), word)


def files(top, endings):
    for folder, dirs, names in os.walk(top):
        dirs[:] = sorted(d for d in dirs if d not in ("out", ".git", "target"))
        for name in sorted(names):
            if name.endswith(endings):
                yield os.path.join(folder, name)


def module_of(path):
    m = re.fullmatch(r"crates/(\w+)/(specs|proofs)/(\w+)\.antt", path)
    return f"{m.group(1)}.{m.group(2)}.{m.group(3)}" if m else None


def apart(path, text):
    """Lemmas of LEMMAS in a file that defines or imports them."""
    for name, modules in LEMMAS.items():
        here = module_of(path) in modules
        for module in modules:
            here = here or any(
                re.search(rf"(?<![\w.'-]){name}(?![\w'-])", m)
                for m in re.findall(rf"use Rattle\.{re.escape(module)}\.\{{([^}}]*)\}}", text)
            )
        if here:
            text = re.sub(rf"(?<![\w.'-]){name}(?![\w'-])", name + "_lem", text)
    return text


def main():
    if not os.path.isdir("crates"):
        sys.exit("snake_case: no crates/ here")
    words = set()
    for path in files("crates", (".antt",)):
        with open(path, encoding="utf-8") as f:
            words |= {w for w in WORD.findall(f.read()) if snake(w) != w}
    turn = lambda text: WORD.sub(lambda m: snake(m.group(0)) if m.group(0) in words else m.group(0), text)
    changed = 0
    pages = [p for p in files(".", (".md",)) if os.path.basename(p) != "CHANGELOG.md"]
    places = list(files("crates", (".antt", ".rt", ".edit"))) + list(files("tests", (".edit", ".awk")))
    for path in places + pages:
        with open(path, encoding="utf-8") as f:
            old = f.read()
        new = apart(path, old) if path.endswith(".antt") else old
        if path.endswith(".rt"):
            parts, at = [], 0
            for m in STRING.finditer(new):
                parts += [turn(new[at : m.start()]), m.group(0)]
                at = m.end()
            new = "".join(parts) + turn(new[at:])
        else:
            new = turn(new)
        if new != old:
            with open(path, "w", encoding="utf-8") as f:
                f.write(new)
            changed += 1
    print(f"snake_case: {len(words)} words, {changed} files")


main()
