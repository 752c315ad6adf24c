#!/usr/bin/env python3
"""Respells the definitions and lemmas of this repository for Rattle's names of today: words in snake case.

usage: tools/port_names.py        at the top, once, after port.py
       tools/port_names.py -n     prints the renamings, and what falls together, and changes nothing

A name that specs/ or a file of lemmas in proofs/ defines, with a capital behind a small letter or with a dash, is
respelled: entryLen-low becomes entry_len_low. Types, modules and what Rattle makes keep their names. So do functions
of src/, whose text has no such names outside clauses.
"""
import collections
import pathlib
import re
import sys

TOP = pathlib.Path(__file__).resolve().parent.parent
NAME = re.compile(r"(?<![\w'\-◌])[a-z][\w']*(?:-[\w'+*≡∷ℕ]+)*(?![\w'\-◌])")
DEFINED = re.compile(
    r"^\s*(?:(?:abbrev|unfoldable|opaque)\s+)*(?:pub\s+)?([a-z][^\s:(){}λ=,;.]*(?:\s+[a-z][^\s:(){}λ=,;.]*)*)"
    r"(?:\s+\{[^}]*\}(?:\s+[a-z]\S*)*)?\s*:(?:\s|$)", re.M)


def snake(name):
    name = name.replace("-", "_").replace("′", "'")
    return re.sub(r"(?<=[a-z0-9'])([A-Z])", lambda m: ("" if m.start() and name[m.start() - 1] == "_" else "_") + m.group(1).lower(), name)


# names that would fall together otherwise
APART = {"next-at": "next_at_lem"}
# names that are bound in other ways
BOUND = {n: snake(n) for n in ("digestsOf", "pieceWire", "onRight", "onLeft", "oldLong", "newLong", "check-complete",
                               "digests-nodes", "lies-append", "lies-part", "opened-refused", "stands-left", "stepped-inside", "value-bound")}
# fields, and a lemma that no file has beside the definition
STAYS = {"first_reads", "second_reads", "no_value"}


def antt(kind):
    return sorted(TOP.glob(f"crates/*/{kind}"))


def code(text):
    return re.sub(r"--[^\n]*", "", text)


def main():
    shared = antt("specs/**/*.antt") + [p for p in antt("proofs/*.antt")]
    imported, defined = set(), collections.defaultdict(set)
    for p in antt("specs/**/*.antt") + antt("proofs/**/*.antt"):
        for m in re.finditer(r"use (\S+?)\.\{([^}]*)\}", p.read_text()):
            if m.group(1).split(".")[1:2] and m.group(1).split(".")[1] in crates():
                continue
            imported |= {n.strip().split(" ")[0] for n in m.group(2).split(",")}
    for p in shared:
        for m in DEFINED.finditer(code(p.read_text())):
            for n in m.group(1).split():
                defined[n].add(p)
    new = {}
    for n in defined:
        if n not in imported and n not in ("pub", "where") and snake(n) != n:
            new[n] = snake(n)
    # a lemma that would have its definition's name gets _lem
    for n in defined:
        if n in imported or n in ("pub", "where"):
            continue
        camels = [m for m in defined if m != n and snake(m) == snake(n) and "-" not in m and m != snake(m)]
        if camels and n not in camels and n not in STAYS:
            new[n] = snake(n) + "_lem"
    new.update(APART)
    new.update(BOUND)
    together = collections.defaultdict(set)
    for n in defined:
        together[new.get(n, n)].add(n)
    for k, ns in together.items():
        if len(ns) > 1:
            print("falls together:", k, {n: [str(p.relative_to(TOP)) for p in defined[n]] for n in ns})
    for n, k in new.items():
        if k in imported:
            print("is a library's:", n, k)
    if "-n" in sys.argv:
        for n, k in sorted(new.items()):
            print(n, k)
        print(len(new))
        return

    # a name in snake case already is a function of src/ as well: there it stays
    camel = {n: k for n, k in new.items() if "-" not in n and n != n.lower()}

    def respelled(text, names):
        return NAME.sub(lambda m: names.get(m.group(0), m.group(0)), text)

    for p in shared:
        p.write_text(respelled(p.read_text(), new))
    for p in antt("proofs/**/*.antt"):
        if p in shared:
            continue
        # behind a dot stand names that Rattle makes, with dashes, and the repository's, without
        p.write_text(NAME.sub(lambda m: (camel if m.start() and m.string[m.start() - 1] == "." else new).get(m.group(0), m.group(0)), p.read_text()))
    for p in antt("src/**/*.rt") + antt("must-fail/*.edit"):
        text = p.read_text()
        p.write_text(re.sub(r'"(?:[^"\\\n]|\\.)*"|[^"]+|"', lambda m: m.group(0) if m.group(0)[0] == '"' else respelled(m.group(0), camel), text)
                     if p.suffix == ".rt" else respelled(text, new))
    for p in [TOP / "README.md"] + sorted(TOP.glob("docs/**/*.md")) + [TOP / "tests/README.md"]:
        if p.exists():
            p.write_text(respelled(p.read_text(), camel))


def crates():
    return {p.name for p in (TOP / "crates").iterdir()}


main()
