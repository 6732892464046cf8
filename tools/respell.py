#!/usr/bin/env python3
"""Respells the repository's own definitions and lemmas as today's Rattle does: words in snake case, `trackEntry` and `part-length` become `track_entry` and `part_length`.

usage: tools/respell.py [--list]      at the top of the repository, once, after port.py; --list prints the names and writes nothing

Turned are names in camel case that begin small, wherever they stand in ghost code, and names with a dash that a file of specs/ or proofs/ of
this repository declares. A lemma whose new name is a definition's gets `_lem`. Functions of src/, exported names, strings and modules keep theirs, and
so do the names that Rattle makes of a function (goals, steps, `Need-..`): the folders proofs/FUNCTION/ are read for their own lemmas alone.
"""
import re
import sys
from pathlib import Path

CRATES = Path(__file__).resolve().parent.parent / "crates"
# a name of antt: the parts of a path are names of their own
NAME = re.compile(r"(?<![\w'·-])[A-Za-z_][\w']*(?:-[\w'+*]+)*")
CAMEL = re.compile(r"[a-z][a-z0-9_]*[A-Z]\w*'?")
DECLARED = re.compile(r"^ *(?:(?:abbrev|unfoldable|pub|unfold|opaque) )*([a-z][\w'-]*)(?: [^:=\n]*)? :\s", re.M)
FIELD = re.compile(r"^ +(?:pub )?([a-z][\w']*(?:-[\w']+)+) : ", re.M)
# what a file of a function's proof names by the goals of that function
GOAL = re.compile(r"^(?:abbrev )?([a-z][\w'-]*) : (?:goal|tie)\.", re.M)
SPEC = re.compile(r"^pub ([a-z][\w'-]*-spec) : ", re.M)
# names that antt, its library or Rattle spell so
LEFT = {"ownVal", "or-false", "sets-eq"}
# new names that a module of the library has, which is imported beside the lemma
TAKEN = {"in_float"}


def snake(name):
    out = []
    for part in name.split("-"):
        part = re.sub(r"(?<=[a-z0-9])(?=[A-Z])", "_", part) if part[:1].islower() else part
        out.append(part.lower() if part[:1].islower() else part)
    return "_".join(out)


def antt():
    for path in sorted(CRATES.glob("*/*/**/*.antt")):
        if path.relative_to(CRATES).parts[1] in ("specs", "proofs"):
            yield path


def main():
    texts = {p: p.read_text(encoding="utf-8") for p in antt()}
    codes = {p: p.read_text(encoding="utf-8") for p in sorted(CRATES.glob("*/src/**/*.rt"))}
    every = {m[0] for t in [*texts.values(), *codes.values()] for m in NAME.finditer(t)}
    camel = {n for n in every for n in n.split("-") if CAMEL.fullmatch(n) and n not in LEFT}
    lemmas, goals, plain = set(), set(), set()
    for path, text in texts.items():
        goals |= set(GOAL.findall(text)) | set(SPEC.findall(text))
        for name in [*DECLARED.findall(text), *FIELD.findall(text)]:
            (lemmas if "-" in name else plain).add(name)
    lemmas -= goals | LEFT
    taken = TAKEN | {snake(n) for n in camel} | {n for n in plain if n not in camel}
    table = {n: snake(n) for n in camel}
    for name in sorted(lemmas):
        new = snake(name)
        table[name] = new + "_lem" if new in taken or new in table.values() else new
    if "--list" in sys.argv:
        for old, new in sorted(table.items()):
            print(old, new)
        return

    def word(m):
        name = m[0]
        if name in table:
            return table[name]
        return "-".join(table.get(p, p) if CAMEL.fullmatch(p) else p for p in name.split("-"))

    for path, text in texts.items():
        path.write_text(NAME.sub(word, text), encoding="utf-8")
    for path, text in codes.items():
        # strings and comments aside, only ghost code has such names
        path.write_text(re.sub(r'//[^\n]*|"(?:[^"\\\n]|\\.)*"|' + NAME.pattern, lambda m: m[0] if m[0][0] in '/"' else word(m), text), encoding="utf-8")


main()
