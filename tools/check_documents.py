#!/usr/bin/env python3
"""check_documents.py: holds what the documents say of the repository to the repository.

- Every link of a document to a file leads to one.
- In the tables of docs/DEMANDS.md every definition, function, law, proof, edit and test exists, and every claim and every
  edit is in one of them. In those of docs/DEFINITIONS.md every definition and every claim exists.
- The public calls are those that docs/DEMANDS.md lists, and none has a `requires`.
- No array of crates/sha256 has 64 words, as docs/DEMANDS.md says: each has sixteen.
"""
import re
import sys
from pathlib import Path

sys.dont_write_bytecode = True  # a run leaves nothing in the repository

from check_claims import claims

TOP = Path(__file__).resolve().parent.parent
CRATES = TOP / "crates"
PROGRAMS = {"bench_sheet", "sha256_vectors", "ringaudit"}
# The modules of what users call. What else is public there is for the crates above.
USERS_MODULES = ["sha256/src/lib.rt", "ringlog/src/*.rt", "inclusion/src/*.rt", "split/src/*.rt", "rfc6962/src/*.rt",
                 "ringlog_c/src/lib.rt"]
problems = []


def problem(document, text):
    problems.append("%s: %s" % (document, text))


def tables(document):
    """The rows of a document's tables but for their headings, as lists of cells."""
    for line in (TOP / document).read_text().split("\n"):
        if line.startswith("| ") and not line.startswith(("| Sentence", "| |", "|---")):
            yield [cell.strip() for cell in line[1:-1].split("|")]


def text_of(pattern):
    return "\n".join(path.read_text() for path in sorted(CRATES.glob(pattern)))


def is_declared(name, text):
    """Whether antt text declares the name: at the beginning of a line, as a field or as a case."""
    declared = r"(?m)^\s*(?:abbrev |unfoldable |pub |record |data )*%s(?=[\s:(])" % re.escape(name)
    return re.search(declared, text) is not None


def definitions(cell):
    """CRATE/FILE `name`, `name`: the crate, the file and each name that follows it."""
    for place in re.finditer(r"\b([a-z_0-9]+)/([A-Z]\w*)((?:[, ]+(?:and )?`[^`]+`)+)", cell):
        for name in re.findall(r"`([^`]+)`", place.group(3)):
            yield place.group(1), place.group(2), name


def check_definitions(document, cell):
    for crate, file, name in definitions(cell):
        if not is_declared(name, text_of("%s/specs/%s.antt" % (crate, file))):
            problem(document, "no %s in crates/%s/specs/%s.antt" % (name, crate, file))


def check_links(document):
    for target in re.findall(r"\]\(([^)#]+)(?:#[^)]*)?\)", (TOP / document).read_text()):
        if "://" not in target and not ((TOP / document).parent / target).exists():
            problem(document, "no file " + target)


def check_other_names(document, cell):
    """A name that stands behind no CRATE/FILE is a function of the code, a law, or one that the toolchain supplies."""
    known = {name for _, _, name in definitions(cell)} | {"requires"}
    for name in set(re.findall(r"`([\w-]+)`", cell)) - known:
        if not re.search(r"\bfn %s\b" % re.escape(name), text_of("*/src/*.rt")) and not is_declared(name, text_of("*/proofs/*.antt")):
            problem(document, "no function and no law " + name)


def proof_exists(place):
    crate, _, rest = place.partition("/")
    folder = CRATES / crate / "proofs"
    return folder.exists() and (not rest or (folder / rest).is_dir() or (folder / (rest + ".antt")).exists())


def check_proofs(document, cell):
    for place in re.findall(r"\b[a-z_0-9]+/\w+", cell):
        if not proof_exists(place):
            problem(document, "no proof " + place)


def check_tests(document, cell):
    for test in filter(None, (part.strip() for part in cell.split(";"))):
        if ": " in test:
            file, sentence = test.split(": ", 1)
            path = TOP / "tests/tests" / (file + ".rs")
            name = sentence.replace(" ", "_")
            if not path.exists() or "#[test]\nfn %s()" % name not in path.read_text():
                problem(document, "no test %s in %s" % (name, path.relative_to(TOP)))
        elif test != "C" and not set(re.findall(r"\w+", test)) <= PROGRAMS:
            problem(document, "no test " + test)


def check_edits(document, listed):
    """Each edit is listed, and its name is that of no other."""
    edits = [path.stem for path in CRATES.glob("*/must-fail/*.edit")]
    for edit in sorted(listed ^ set(edits)):
        problem(document, ("no edit " if edit in listed else "not listed: the edit ") + edit)
    for edit in sorted({edit for edit in edits if edits.count(edit) > 1}):
        problem(document, "two edits are called " + edit)


def check_demands(document):
    listed, told = set(), set()
    for row in tables(document):
        if len(row) != 5:
            problem(document, "a row of %d cells: %s" % (len(row), row[0]))
            continue
        _, said, proved, refused, tests = row
        check_definitions(document, said)
        check_other_names(document, said)
        check_proofs(document, proved)
        check_tests(document, tests)
        told.update(definitions(said))
        listed.update(filter(None, refused.split(", ")))
    check_edits(document, listed)
    for claim in sorted(set(claims()) - told):
        problem(document, "not listed: the claim %s/%s %s" % claim)


def names_given(text):
    """The names that the `pub use` lines of a root file give out."""
    lines = re.findall(r"(?m)^pub use \w+::(?:(\w+)|\{([\w,\s]+)\});", text)
    return {name for line in lines for part in line for name in re.findall(r"\w+", part)}


def public_calls():
    """Each function that the users' crates give out, with its contract up to the body."""
    calls = {}
    for pattern in USERS_MODULES:
        text = text_of(pattern)
        given = names_given(text_of(pattern.split("/")[0] + "/src/lib.rt"))
        in_lib = pattern.endswith("lib.rt")
        for name, contract in re.findall(r"^pub (?:extern \"C\" )?fn (\w+)(.*?)^\{", text, re.S | re.M):
            if in_lib or name in given:
                calls[name] = contract
    return calls


def check_public_calls(document):
    row = next(row for row in tables(document) if "no `requires`" in row[0])
    calls = public_calls()
    listed = set(re.findall(r"`(\w+)`", row[1]))
    exported = {name for name in calls if name.startswith("ringlog_")}
    for name in sorted(listed ^ (set(calls) - exported)):
        problem(document, ("no public call " if name in listed else "not listed: the call ") + name)
    for name in sorted(name for name in calls if "requires" in calls[name]):
        problem(document, "%s has a requires" % name)
    if len(exported) != 15:
        problem(document, "ringlog_c has %d functions" % len(exported))


def check_claims_named(document):
    known = {name for _, _, name in claims()}
    for row in tables(document):
        check_definitions(document, row[-1])
        for names in re.findall(r"claims? ((?:`\w+`(?:, )?)+)", row[-1]):
            for name in set(re.findall(r"\w+", names)) - known:
                problem(document, "no claim " + name)


def check_arrays(document):
    """Each array of words in sha256 has sixteen, and no array has arrays."""
    for array in re.findall(r"\[[^\[\]]*u32; (?!16\])\w+\]|\[\[.*?\]; \w+\]", text_of("sha256/src/*.rt")):
        problem(document, "an array of sha256: " + array)


def main():
    for path in [*sorted(TOP.glob("*.md")), TOP / "samples/README.md", *sorted((TOP / "docs").rglob("*.md"))]:
        check_links(path.relative_to(TOP))
    check_demands("docs/DEMANDS.md")
    check_public_calls("docs/DEMANDS.md")
    check_claims_named("docs/DEFINITIONS.md")
    check_arrays("docs/DEMANDS.md")
    sys.exit("\n".join(problems) or 0)


main()
