#!/usr/bin/env python3
"""check_claims.py: holds each claim to a proof of exactly its type, in the proofs of its own crate.

A claim is a type without arguments in a specs/Claims.antt, or in a specs/BenchSheet.antt: `abbrev pub NAME :
Type 0`. What takes arguments there, or is no type, is a part of claims. A proof is a declaration of type `claims.NAME`,
with its definition, in a file that has the line `use Rattle.CRATE.specs.Claims as claims`; or of type `NAME`, where
such a line brings that name itself.

What is declared so is proved by the crate's check. That refuses a hole, an axiom, a declaration without a definition, a
file that no `mod` line names, and another thing under a name that a `use` line brings.
"""
import re
import sys
from pathlib import Path

CRATES = Path(__file__).resolve().parent.parent / "crates"


def statements(path):
    """What stands in an antt file, without comments, each on one line: a line further in goes on with the one above."""
    text = path.read_text()
    if "{-" in text:
        sys.exit("%s: this tool reads no comments in braces" % path.relative_to(CRATES.parent))
    return re.sub(r"\n\s*[ \t](?=\S)", " ", re.sub(r"\s*--.*", "", text)).split("\n")


def declarations(lines):
    """Name and type of each signature."""
    for line in lines:
        signature = re.fullmatch(r"(?:unfoldable |abbrev |pub )*([^\s:]+) : (.*)", line)
        if signature:
            yield signature.groups()


def claims():
    """Crate, file and name of each claim."""
    for path in [*sorted(CRATES.glob("*/specs/Claims.antt")), *sorted(CRATES.glob("*/specs/BenchSheet.antt"))]:
        for name, kind in declarations(statements(path)):
            if re.fullmatch(r"Type \d+", kind):
                yield path.parent.parent.name, path.stem, name


def files_of_proofs(crate):
    """The files that the crate's proofs/Lib.antt names."""
    folder = CRATES / crate / "proofs"
    for line in statements(folder / "Lib.antt"):
        module = re.fullmatch(r"(?:pub )?mod (\w+)", line)
        if module:
            yield statements(folder / (module[1] + ".antt"))


def spellings(lines, crate, file, claim):
    """How the claim is written in a file of proofs, by the lines that bring it."""
    for line in lines:
        brought = re.fullmatch(r"use Rattle\.%s\.specs\.%s(?: as (\w+)|\.\{(.*)\})" % (crate, file), line)
        if brought and brought[1]:
            yield "%s.%s" % (brought[1], claim)
        elif brought and claim in brought[2].split(", "):
            yield claim


def is_defined(name, lines):
    return any(re.match(r"%s(?: [^=]*)? = (?!\?)" % re.escape(name), line) for line in lines)


def is_proved(crate, file, claim):
    for lines in files_of_proofs(crate):
        types = set(spellings(lines, crate, file, claim))
        if any(kind in types and is_defined(name, lines) for name, kind in declarations(lines)):
            return True
    return False


def main():
    missing = ["crates/%s/proofs: no proof of %s %s" % claim for claim in claims() if not is_proved(*claim)]
    sys.exit("\n".join(missing) or 0)


if __name__ == "__main__":
    main()
