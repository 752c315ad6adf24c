#!/usr/bin/env python3
"""make_vectors.py SHA256ShortMsg.rsp FOLDER: writes FOLDER/stdin and FOLDER/stdout, for the program sha256_vectors.

First NIST's messages with NIST's digests, in their order. Then messages of the lengths where padding changes its shape and
of the longest that is taken, with Python's digests, and one byte more, which is refused.
"""
import hashlib
import re
import sys
from pathlib import Path

PATTERN = bytes(range(251))  # a prime number of bytes, so that the blocks of 64 repeat only after 251 blocks
TAKEN = [55, 56, 63, 64, 65, 119, 120, 127, 128, 65535]
REFUSED = 65536


def line(length, pattern):
    return "%d %s" % (8 * length, pattern)


def main():
    source, folder = Path(sys.argv[1]), Path(sys.argv[2])
    nist = re.findall(r"Len = (\d+)\s+Msg = ([0-9a-f]+)\s+MD = ([0-9a-f]{64})", source.read_text())
    asked = ["%s %s" % (bits, message) for bits, message, _ in nist]
    answers = [digest for _, _, digest in nist]
    for length in TAKEN:
        message = (PATTERN * (length // len(PATTERN) + 1))[:length]
        asked.append(line(length, PATTERN.hex()))
        answers.append(hashlib.sha256(message).hexdigest())
    asked.append(line(REFUSED, PATTERN.hex()))
    answers.append("refused 1")
    (folder / "stdin").write_text("\n".join(asked) + "\n")
    (folder / "stdout").write_text("\n".join(answers) + "\n")


main()
