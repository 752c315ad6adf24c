"""What examples/phone.c prints of logs that are made here.

A log is here its list of values; the ring's is the first of two. Two logs are compared value by value; reads and the
lengths of proofs come from document 01's formulas.
"""
from samples.log import NAME, bent, log, replaced, sha256, whole


def in_common(first, second):
    """How many values two lists have in common, from the first on."""
    k = 0
    while k < min(len(first), len(second)) and first[k] == second[k]:
        k += 1
    return k


def ones(x):
    return bin(x).count("1")


def moves(n, i):
    """hops(n,i) and lefts(n,i)."""
    j = (n ^ (i - 1)).bit_length() - 1  # the highest bit where n and i - 1 differ
    turn = j != (n & -n).bit_length() - 1  # the trailing zeros of n
    return ones(n >> j + 1) + turn + j, turn + j - ones((i - 1) % 2**j)


def reads(m, n, differ_at):
    """How many entries a search reads in a log of m values; differ_at is 0 where the logs do not differ."""
    if m == 0 or n == 0:
        return min(m, 1)
    return 1 + moves(m, n)[1] + (moves(n, differ_at)[1] if differ_at else 0)


def audit_text(name, values, total):
    """What phone prints of an audit that finds the log of these values in so many bytes."""
    data = log(values)
    root = data[-37:-5] if data else sha256(b"")  # the top digest stands before the length item
    state = "whole" if len(data) == total else "torn"
    return "%s: entries %d, bytes %d of %d, %s\nroot: %s\n" % (name, len(values), len(data), total, state, root.hex())


def search_text(ring, copy):
    """What the search finds, by comparing value by value, and its reads by their formula."""
    common, n = in_common(ring, copy), min(len(ring), len(copy))
    differ_at = common + 1 if common < n else 0
    verdict = ("differ at %d" % differ_at if differ_at else "same" if len(ring) == len(copy)
               else "the ring's log is shorter" if len(ring) < len(copy) else "the copy is shorter")
    return "split: %s, in common %d\nreads: %d in the ring's log, %d in the copy\n" % (
        verdict, common, reads(len(ring), n, differ_at), reads(len(copy), n, differ_at))


def repair_text(ring, copy):
    """The piece, and the repaired copy: the donor has more values, and of equally many it is the first."""
    common, take = in_common(ring, copy), len(ring) >= len(copy)
    donor, other = (ring, copy) if take else (copy, ring)
    begin, end = len(log(donor[:common])), len(log(donor))
    text = "%s: bytes %d from %d on, behind %d values; %d given up\n" % (
        "take" if take else "send", end - begin, begin, common, len(other) - common)
    return text + (audit_text("repaired", ring, end) + "same now: yes\n" if take else "same now: no\n")


def proof_text(ring, copy, index):
    """The proof from the copy, with as many values as the ring has, under the ring's root."""
    if not 1 <= index <= len(ring):
        return "value: refused with 2, no such index or count\n"
    if ring != copy[:len(ring)]:
        return "value: refused with 7, a digest disagrees\n"
    return "proof: value %d, %s, bytes %d: yes\nwith one bit changed: no\n" % (
        index, NAME[ring[index - 1][0]], 32 * moves(len(ring), index)[0])


def phone_text(copy, received, index=None):
    """What phone prints of two files, and its status."""
    (held, held_bytes), (ring, ring_bytes) = copy, received
    text = audit_text("received", ring, len(ring_bytes)) + audit_text("copy", held, len(held_bytes))
    text += search_text(ring, held) + repair_text(ring, held)
    same = len(ring) >= len(held)
    if index is not None or ring:
        proved = proof_text(ring, ring if same else held, len(ring) if index is None else index)
        same = same and proved.startswith("proof")
        text += proved
    return text + "status %d\n" % (0 if same else 1)


def phone_files(values):
    """The files that phone is run on, made from eight values; a file is the values that count, and its bytes."""
    return {
        "copy.log": whole(values[:5]),
        "received-longer.log": whole(values),
        "received-torn.log": (values[:7], log(values)[:-20]),
        "received-bent.log": bent(values, 7),
        "received-shorter.log": whole(values[:3]),
        "received-split.log": whole(replaced(values, 3)),
        "received-split-equal.log": whole(replaced(values[:5], 4)),
        "received-split-shorter.log": whole(replaced(values[:4], 3)),
        "received-junk.log": ([], bytes(range(100))),
    }


def phone_samples(folder, values):
    """Writes those files, and the runs on them."""
    files = phone_files(values)
    for name, (_, data) in files.items():
        (folder / name).write_bytes(data)

    files["/dev/null"] = ([], b"")
    text = ""
    for run in [
        "copy.log copy.log", "copy.log received-longer.log", "copy.log received-torn.log", "copy.log received-bent.log",
        "copy.log received-shorter.log", "copy.log received-split.log", "copy.log received-split-equal.log",
        "copy.log received-split-shorter.log", "copy.log received-junk.log", "copy.log /dev/null", "/dev/null /dev/null",
        "/dev/null received-longer.log", "received-torn.log received-longer.log", "received-junk.log received-split.log",
        "copy.log received-longer.log 1", "copy.log received-longer.log 4", "copy.log received-longer.log 9",
        "copy.log received-longer.log 0", "copy.log received-shorter.log 4", "copy.log received-split-shorter.log 1",
    ]:
        copy, received, *index = run.split()
        text += "$ phone %s\n" % run + phone_text(files[copy], files[received], *map(int, index))
    for run, told in [
        ("copy.log missing.log", "missing.log: cannot be read"),
        ("missing.log copy.log", "missing.log: cannot be read"),
        ("copy.log /dev/zero", "/dev/zero: over 2097152 bytes"),
        ("copy.log", "usage: phone COPY RECEIVED [INDEX]"),
        ("copy.log copy.log 1x", "usage: phone COPY RECEIVED [INDEX]"),
    ]:
        text += "$ phone %s\n%s\nstatus 2\n" % (run, told)
    (folder / "runs.txt").write_text(text)
