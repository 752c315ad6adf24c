"""Section 2.1 of RFC 6962 on lists of value items, in the RFC's own words. Its leaves are counted from 0."""
from samples.log import sha256


def split(n):
    """The largest power of two smaller than n."""
    k = 1
    while 2 * k < n:
        k *= 2
    return k


def tree_hash(values):
    """MTH(D[n])."""
    if not values:
        return sha256(b"")
    if len(values) == 1:
        return sha256(b"\x00" + values[0])
    k = split(len(values))
    return sha256(b"\x01" + tree_hash(values[:k]) + tree_hash(values[k:]))


def path(m, values):
    """PATH(m, D[n]), the digests in a list."""
    if len(values) == 1:
        return []
    k = split(len(values))
    if m < k:
        return path(m, values[:k]) + [tree_hash(values[k:])]
    return path(m - k, values[k:]) + [tree_hash(values[:k])]


def subproof(m, values, known):
    """SUBPROOF(m, D[n], b), the digests in a list."""
    if m == len(values):
        return [] if known else [tree_hash(values)]
    k = split(len(values))
    if m <= k:
        return subproof(m, values[:k], known) + [tree_hash(values[k:])]
    return subproof(m - k, values[k:], False) + [tree_hash(values[:k])]


def consistency(m, values):
    """PROOF(m, D[n]), the digests in a list."""
    return subproof(m, values, True)
