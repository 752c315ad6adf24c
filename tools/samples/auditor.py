"""What examples/auditor.c prints of logs that are made here.

What the owner sends is RFC 6962 on the list of values. The auditor's checks are not modelled: the owner is honest about
the log, so a check says yes exactly where the root that was kept is that of the log's own first values.
"""
from samples.log import NAME, bent, log, replaced, whole
from samples.rfc6962 import consistency, path, tree_hash

NO_SUCH = "refused with 2, no such index or count\n"
BROKEN = "refused with 6, the log is not well formed, does not open, or a link is broken\n"
USAGE = "usage: auditor first LOG\n       auditor next LOG COUNT ROOT\n       auditor value LOG INDEX COUNT ROOT\n"
YES, NO, UNUSABLE, REFUSED = range(4)


def head(values):
    return len(values), tree_hash(values)


def head_text(name, count, root):
    return "%s: %d %s\n" % (name, count, root.hex())


def digests_text(digests):
    return "bytes %d\n" % (32 * len(digests)) + "".join("  %s\n" % digest.hex() for digest in digests)


def owner_head_text(values, data):
    if data == log(values):
        return head_text("owner's head", *head(values))
    told = "owner's log: well formed in %d values, bytes %d of %d\n" % (len(values), len(log(values)), len(data))
    return "owner's root: " + BROKEN + told


def first_text(values, data):
    text = owner_head_text(values, data)
    if data != log(values):
        return text, REFUSED
    return text + head_text("auditor keeps", *head(values)), YES


def next_text(values, data, count, root):
    text, keeps = owner_head_text(values, data), head_text("auditor keeps", count, root)
    if data != log(values):
        return text + keeps, REFUSED
    if count > len(values):
        return text + "owner's consistency proof: " + NO_SUCH + keeps, REFUSED
    if count > 0:
        text += "owner's consistency proof: from %d values, " % count + digests_text(consistency(count, values))
    known = count == 0 or root == tree_hash(values[:count])
    text += "auditor's check, that of %d values the first %d are those known: " % (len(values), count)
    if not known:
        return text + "no\n" + keeps, NO
    return text + "yes\n" + head_text("auditor keeps", *head(values)), YES


def last_index(data):
    """The index of the entry that the last five bytes give the length of; None where they give none."""
    if not data:
        return 0
    begin = len(data) - int.from_bytes(data[-4:], "big")
    if data[-5] != 0x30 or begin < 0:
        return None
    return int.from_bytes(data[begin + 1:begin + 5], "big")


def value_text(values, data, index, count, root):
    """In a log that opens, the cut to fewer values than the last entry's index goes past what is damaged here."""
    n = last_index(data)
    if n is None:
        return "owner's cut: " + BROKEN, REFUSED
    if count > n:
        return "owner's cut: " + NO_SUCH, REFUSED
    if count > len(values):
        return "owner's path: " + BROKEN, REFUSED
    if not 1 <= index <= count:
        return "owner's path: " + NO_SUCH, REFUSED
    values, item = values[:count], values[index - 1]
    text = "owner's value: %d, %s, %s\n" % (index, NAME[item[0]], item.hex())
    text += "owner's path: in %d values, " % count + digests_text(path(index - 1, values))
    known = root == tree_hash(values)
    text += "auditor's check, that this is value %d of %d: %s\n" % (index, count, "yes" if known else "no")
    return text, YES if known else NO


def auditor_files(values):
    """The files that auditor is run on, made from eight values."""
    return {
        "seen.log": whole(values[:5]),
        "grown.log": whole(values),
        "rewritten.log": whole(replaced(values, 3)),
        "shorter.log": whole(values[:3]),
        "damaged.log": bent(values, 7),
        "torn.log": (values[:7], log(values)[:-20]),
    }


def auditor_runs(values):
    """What is asked, the file, and its other arguments."""
    kept = [head(values[:n]) for n in range(len(values) + 1)]
    rewritten = head(replaced(values, 3))
    yield from (("first", name) for name in ["seen.log", "grown.log", "damaged.log", "torn.log", "/dev/null"])
    yield from (("next", "grown.log", *kept[n]) for n in [5, 8, 7, 6, 4, 3, 1, 0])
    yield from (("next", "rewritten.log", *kept[n]) for n in [8, 5, 4, 3, 2])
    yield from (("next", name, *kept[5]) for name in ["seen.log", "shorter.log", "damaged.log", "torn.log", "/dev/null"])
    yield "next", "grown.log", 8, kept[5][1]
    yield from (("value", "grown.log", i, *kept[8]) for i in [1, 3, 8, 9, 0])
    yield from (("value", "grown.log", i, *kept[5]) for i in [4, 5, 6])
    yield "value", "seen.log", 1, *kept[1]
    yield from (("value", "rewritten.log", i, *kept[8]) for i in [1, 3])
    yield "value", "rewritten.log", 3, *rewritten
    yield from (("value", "damaged.log", 3, *kept[n]) for n in [8, 5])
    yield from (("value", name, 3, *kept[5]) for name in ["torn.log", "shorter.log", "/dev/null"])
    yield "value", "/dev/null", 1, *kept[0]


def auditor_samples(folder, values):
    """Writes those files, and the runs on them."""
    files = auditor_files(values)
    for name, (_, data) in files.items():
        (folder / name).write_bytes(data)

    files["/dev/null"] = whole([])
    texts = {"first": first_text, "next": next_text, "value": value_text}
    text = ""
    for asked, name, *rest in auditor_runs(values):
        arguments = [asked, name] + [part.hex() if isinstance(part, bytes) else str(part) for part in rest]
        told, status = texts[asked](*files[name], *rest)
        text += "$ auditor %s\n%sstatus %d\n" % (" ".join(arguments), told, status)
    root = tree_hash(values[:5]).hex()
    for run, told in [
        ("first missing.log", "missing.log: cannot be read\n"),
        ("first /dev/zero", "/dev/zero: over 2097152 bytes\n"),
        ("first", USAGE),
        ("last seen.log", USAGE),
        ("next grown.log 5", USAGE),
        ("next grown.log 5 " + root[:-1], USAGE),
        ("next grown.log 5 " + root + "0", USAGE),
        ("next grown.log 5 " + root[:-1] + "g", USAGE),
        ("value grown.log 1x 5 " + root, USAGE),
    ]:
        text += "$ auditor %s\n%sstatus %d\n" % (run, told, UNUSABLE)
    (folder / "runs.txt").write_text(text)
