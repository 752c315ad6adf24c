#!/usr/bin/env python3
"""make_samples.py FOLDER: writes sample logs for ringaudit, and beside each NAME.log a NAME.txt, what ringaudit prints of it.
In FOLDER/phone and FOLDER/auditor it writes logs for the examples of these names, and runs.txt, what they print of them, with
the status.

What is expected comes from plain models on lists of values, of document 01 and of RFC 6962, which share nothing with the
crates.
"""
import sys
from pathlib import Path

sys.dont_write_bytecode = True  # a run leaves nothing in the repository

from samples.auditor import auditor_samples
from samples.log import BODY, CHANGE, TAP, TICKET, bent, log, whole
from samples.phone import phone_samples


def report(values, data):
    """What ringaudit prints of these bytes, of which the log of these values counts."""
    counted = len(log(values))
    state = "whole" if counted == len(data) else "torn"
    return "entries %d\nbytes %d of %d\nstate %s\n" % (len(values), counted, len(data), state)


def main():
    folder = Path(sys.argv[1])
    tap = [bytes([TAP]) + (1).to_bytes(8, "big")]
    kinds = [TAP, CHANGE, TAP, TICKET, TAP, TAP, CHANGE, TICKET]
    values = [bytes([kind]) + bytes(16 * i + k for k in range(BODY[kind])) for i, kind in enumerate(kinds, 1)]
    for name, (counted, data) in {
        "torn": (tap, log(tap) + b"\x01\x00\x00"),
        "whole": whole(values),
        "bent": bent(values, 3),
    }.items():
        (folder / (name + ".log")).write_bytes(data)
        (folder / (name + ".txt")).write_text(report(counted, data))
    for name, samples in [("phone", phone_samples), ("auditor", auditor_samples)]:
        (folder / name).mkdir(exist_ok=True)
        samples(folder / name, values)


main()
