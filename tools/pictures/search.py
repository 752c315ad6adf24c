"""The picture of a search in two logs: what it reads, which way it goes, and the digests that it compares."""
from typing import NamedTuple

from pictures.columns import Columns
from pictures.drawing import Picture, legend
from pictures.rules import begin, left, nodes, right, search, top, way


class Read(NamedTuple):
    """A read: in the log 0 or 1, its number among the reads of both, the entry, and all that in words."""

    log: int
    number: int
    entry: int
    line: str


def tap(number):
    return b"\x10" + number.to_bytes(8, "big")


def reads_of(moves):
    """The reads among the moves of a search: openings and moves to the left."""
    reads = []
    for number, (log, node, _, to) in enumerate([move for move in moves if move[2]], 1):
        how = "open" if node is None else "left, (%d,%d) to (%d,%d)" % (node + to)
        reads.append(Read(log, number, to[0], "%s: entry %d at %d" % (how, to[0], begin(to[0]))))
    return reads


def description(reads, compared):
    lines = ["%d, %s log: %s." % (read.number, ("first", "second")[read.log], read.line) for read in reads]
    digests = ["(%d,%d) %s" % (*node, "equal" if same else "different") for node, same in compared]
    return "Reads in order. %s Digests compared: %s." % (" ".join(lines), ", ".join(digests))


def draw_links(columns, taken, n):
    """The links of a log. Those taken stand out: the ones on the way to entry n, and the ones down from there."""
    for node in nodes(columns.n):
        if node[1]:
            if (node, False, right(*node)) not in taken:
                columns.down(*node, "faint")
            if (node, True, left(*node)) not in taken:
                columns.across(*node, "faint", "faint-head")
    bring = way(top(columns.n), n) if columns.n > n else []
    for node, goes_left, to in taken:
        kind = "bring" if (node, goes_left, to) in bring else "down"
        if goes_left:
            columns.across(*node, kind, kind + "-head")
        else:
            columns.down(*node, kind)


def draw_nodes(columns, taken, n, compared):
    """The nodes of a log, each with how its two digests compare, if they were compared."""
    passed = {top(columns.n), top(n)} | {to for _, _, to in taken}
    marks = {node: "=" if same else "≠" for node, same in compared}
    for node in nodes(columns.n):
        columns.node(*node, "node" if node in passed else "other", marks.get(node))


def draw_reads(picture, columns, reads, x, y):
    """The numbers of a log's reads at its entries, and the list of them at (x, y)."""
    for read in reads:
        picture.badge(columns.place(read.entry, 0)[0] - 25, columns.floor + 12.5, read.number)
    picture.text(x - 10, y, "%d reads" % len(reads), anchor="start", bold=True)
    for row, read in enumerate(reads):
        picture.badge(x, y + 26 + 30 * row, read.number)
        picture.text(x + 18, y + 30.5 + 30 * row, read.line, anchor="start")


def draw_legend(picture, x, y, n):
    marks = [
        (0, "bring", "way to entry %d" % n),
        (170, "down", "way down to the difference"),
        (400, "read", "entry read"),
        (520, "other", "not on the way"),
        (670, "≠ =", "how the two digests compare"),
    ]
    legend(picture, x, y, marks)


def search_picture(folder):
    first = [tap(k) for k in range(1, 8)]
    second = first[:2] + [tap(33)] + first[3:5]
    moves, compared = search(first, second)
    reads = reads_of(moves)
    n, place = min(len(first), len(second)), compared[-1][0][0]
    title = "The search in two logs of %d and %d taps that differ at %d" % (len(first), len(second), place)
    picture = Picture("search", title, description(reads, compared))
    names = ["First log: %d taps" % len(first), "Second log: %d taps, another value %d" % (len(second), place)]
    x, y, pitch = 112, 0, 98
    side = x + len(first) * pitch + 34  # right of the columns
    for k, (name, log) in enumerate(zip(names, (first, second))):
        columns = Columns(picture, len(log), x, y + 46, pitch=pitch, row=58, width=70, height=28, size=13)
        mine = [read for read in reads if read.log == k]
        taken = [tuple(move) for which, *move in moves if which == k and move[0]]
        picture.text(20, y + 30, name, size=15, anchor="start", bold=True)
        columns.entries({read.entry for read in mine})
        draw_links(columns, taken, n)
        draw_nodes(columns, taken, n, compared)
        draw_reads(picture, columns, mine, side, y + 72)
        y = columns.end
    result = "They differ at %d: %d in common" % (place, place - 1)
    picture.text(side - 10, y - 62, result, size=15, anchor="start", bold=True)
    draw_legend(picture, x, y + 20, n)
    picture.write(folder, 1110, y + 46)
