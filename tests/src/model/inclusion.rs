//! Inclusion of a value in a tree of n values, from the numbers, the value and the siblings on its
//! path alone.

#![forbid(unsafe_code)]

use super::entry::MOST;
use super::item::is_value;
use super::tree::{leaf_digest, left_child, node_digest, right_child, top, Digest};

/// With j the highest bit where n and i − 1 differ:
/// ones(floor(n / 2^(j+1))) + [j ≠ trailing zeros of n] + j, for 1 ≤ i ≤ n.
pub fn hops(n: usize, i: usize) -> usize {
    let differ = |j: &u32| n >> j & 1 != (i - 1) >> j & 1;
    let j = (0..usize::BITS).rev().find(differ).expect("i − 1 below n");
    let ones = (n >> j >> 1).count_ones() as usize;
    ones + usize::from(j != n.trailing_zeros()) + j as usize
}

/// The root that value i of n and its siblings give, the sibling next to the leaf first. There is a
/// sibling for each hop.
pub fn fold(n: usize, i: usize, value: &[u8], siblings: &[Digest]) -> Digest {
    fold_up((n, top(n)), i, leaf_digest(value), siblings)
}

/// The digest of the node (k, h), with the leaf (i, 0) under it.
fn fold_up((k, h): (usize, u8), i: usize, leaf: Digest, siblings: &[Digest]) -> Digest {
    if h == 0 {
        assert!(siblings.is_empty(), "a sibling for each hop");
        return leaf;
    }
    let (sibling, below) = siblings.split_last().expect("a sibling for each hop");
    let (left, right) = (left_child(k, h), right_child(k, h));
    if i <= left.0 {
        node_digest(h, &fold_up(left, i, leaf, below), sibling)
    } else {
        node_digest(h, sibling, &fold_up(right, i, leaf, below))
    }
}

/// Whether 1 ≤ i ≤ n ≤ 4,096, the item is a value item, the proof has 32 · hops(n, i) bytes, the
/// root has 32, and the fold gives the root.
pub fn check_proof(n: usize, i: usize, item: &[u8], proof: &[u8], root: &[u8]) -> bool {
    1 <= i
        && i <= n
        && n <= MOST
        && is_value(item)
        && proof.len() == 32 * hops(n, i)
        && root.len() == 32
        && fold(n, i, item, &digests(proof)) == root
}

/// The digests that the bytes are, 32 bytes each.
fn digests(bytes: &[u8]) -> Vec<Digest> {
    let digest = |bytes: &[u8]| bytes.try_into().expect("32 bytes");
    bytes.chunks_exact(32).map(digest).collect()
}
