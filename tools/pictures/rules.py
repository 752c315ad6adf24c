"""Document 01's rules: the nodes of entries, the tree, lengths of logs of taps, digests, and the search."""
import hashlib

TAP = 9  # the length of a tap's value item


def heights(i):
    """The heights of entry i's nodes above its leaf, rising."""
    return [p + 1 for p in range((i - 1).bit_length()) if (i - 1) >> p & 1]


def top(i):
    return (i, max(heights(i), default=0))


def left(i, h):
    return ((i - 1) // 2 ** (h - 1) * 2 ** (h - 1), h - 1)


def right(i, h):
    return (i, max((k for k in heights(i) if k < h), default=0))


def nodes(n):
    return [(i, h) for i in range(1, n + 1) for h in [0] + heights(i)]


def tree(node):
    """The nodes that are reached from a node."""
    return {node} | (tree(left(*node)) | tree(right(*node)) if node[1] else set())


def length(i):
    """The length of entry i of a log of taps."""
    return 43 + TAP + 70 * len(heights(i))


def begin(i):
    """Where entry i of a log of taps begins."""
    return sum(length(k) for k in range(1, i))


def digest(values, node):
    i, h = node
    if h == 0:
        data = b"\x00" + values[i - 1]
    else:
        data = bytes([h]) + digest(values, left(i, h)) + digest(values, right(i, h))
    return hashlib.sha256(data).digest()


def way(node, i):
    """The moves from a node down to leaf i, each with the node that it goes to."""
    moves = []
    while node[1]:
        goes_left = i <= left(*node)[0]
        moves.append((node, goes_left, left(*node) if goes_left else right(*node)))
        node = moves[-1][2]
    return moves


def search(first, second):
    """The search in two logs that differ: its moves and its comparisons, in order.

    A move is (log, node, whether it goes left, where it goes), an opening (log, None, True, top), a comparison
    (node, whether its digests are equal).
    """
    logs, n = (first, second), min(len(first), len(second))
    moves = [(k, None, True, top(len(log))) for k, log in enumerate(logs)]
    for k, log in enumerate(logs):
        if len(log) > n:
            moves += [(k, *move) for move in way(top(len(log)), n)]
    compared = []

    def equal(node):
        compared.append((node, digest(first, node) == digest(second, node)))
        return compared[-1][1]

    node = top(n)
    assert not equal(node)
    while node[1]:
        goes_left = not equal(left(*node))
        to = left(*node) if goes_left else right(*node)
        assert goes_left or not equal(to)
        moves += [(k, node, goes_left, to) for k in range(2)]
        node = to
    return moves, compared
