#!/usr/bin/env python3
"""header_examples.py HEADER: prints the examples in the header's comments as one program, which is both C and C++.

An example is what stands four spaces further in, behind a line of a comment that begins with "Example" and ends in a colon.
Every function has one in the comment above it, which calls it and ends in an assert. A #line before each names its place in
the header, so that a compiler, or a false assert, does too.
"""
import re
import sys
from pathlib import Path

COMMENT_AND_CODE = re.compile(r"(/\*.*?\*/)(.*?)(?=/\*|\Z)", re.DOTALL)
HEADING = re.compile(r" \* Example.*:$")
FUNCTION = re.compile(r"\b(ringlog_\w+)\(")
ENDS_IN_ASSERT = re.compile(r"(^|[;{}])\s*assert\([^;]*\);\s*$")


def example(comment):
    """The line in the comment, from 0, at which its example begins, and the example's lines."""
    lines = comment.split("\n")
    begin = 1 + next((at for at, line in enumerate(lines) if HEADING.match(line)), len(lines))
    while begin < len(lines) and lines[begin] == " *":
        begin += 1
    end = begin
    while end < len(lines) and re.match(r" \*($|     )", lines[end]):
        end += 1
    return begin, [line[3:] for line in lines[begin:end]]


def main():
    path = sys.argv[1]
    header = Path(path).read_text()
    program = []
    for found in COMMENT_AND_CODE.finditer(header):
        begin, lines = example(found[1])
        functions = FUNCTION.findall(found[2])
        if not functions and not lines:
            continue
        text = "\n".join(lines)
        if len(functions) != 1 or functions[0] not in FUNCTION.findall(text) or not ENDS_IN_ASSERT.search(text):
            sys.exit("%s: no example that calls it and ends in an assert: %s" % (path, ", ".join(functions) or text))
        program += ['#line %d "%s"' % (header.count("\n", 0, found.start()) + begin + 1, path)] + lines
    if not program:
        sys.exit("%s: no function" % path)
    includes = ["#undef NDEBUG", '#include "ringlog.h"', "", "#include <assert.h>", "#include <string.h>", ""]
    print("\n".join(includes + ["int main(void)", "{"] + program + ["    return 0;", "}"]))


main()
