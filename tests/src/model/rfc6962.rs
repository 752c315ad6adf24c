//! RFC 6962, section 2.1, in its own words: D[n] is a list of n inputs, each of any bytes, and
//! D[a:b] are its inputs from a to b - 1, counted from 0.

#![forbid(unsafe_code)]

use super::sha256;
use super::tree::Digest;

/// The largest power of two smaller than n, for n > 1.
pub fn largest_power_below(n: usize) -> usize {
    let powers = (0..usize::BITS).map(|p| 1 << p);
    let smaller = powers.take_while(|&k| k < n);
    smaller.last().expect("n > 1")
}

/// The hash of a list with one entry, a leaf: SHA-256(0x00 || d(0)).
pub fn leaf_hash(d: &[u8]) -> Digest {
    sha256(&[&[0x00][..], d].concat())
}

/// The hash of a node: SHA-256(0x01 || left || right).
pub fn node_hash(left: &Digest, right: &Digest) -> Digest {
    sha256(&[&[0x01][..], left, right].concat())
}

/// D[0:k] and D[k:n], with k the largest power of two smaller than n, for n > 1.
fn split<V>(d: &[V]) -> (&[V], &[V]) {
    d.split_at(largest_power_below(d.len()))
}

/// The Merkle Tree Hash: MTH({}) = SHA-256(), MTH({d(0)}) = SHA-256(0x00 || d(0)), and for n > 1
/// MTH(D[n]) = SHA-256(0x01 || MTH(D[0:k]) || MTH(D[k:n])).
pub fn mth<V: AsRef<[u8]>>(d: &[V]) -> Digest {
    match d {
        [] => sha256(&[]),
        [d0] => leaf_hash(d0.as_ref()),
        _ => {
            let (left, right) = split(d);
            node_hash(&mth(left), &mth(right))
        }
    }
}

/// The audit path of the (m + 1)th input, 0 <= m < n: PATH(0, {d(0)}) = {}, and for n > 1
/// PATH(m, D[n]) = PATH(m, D[0:k]) : MTH(D[k:n]) for m < k, and
/// PATH(m, D[n]) = PATH(m - k, D[k:n]) : MTH(D[0:k]) for m >= k.
pub fn path<V: AsRef<[u8]>>(m: usize, d: &[V]) -> Vec<Digest> {
    if d.len() == 1 {
        assert_eq!(m, 0, "0 <= m < n");
        return Vec::new();
    }
    let (left, right) = split(d);
    let k = left.len();
    if m < k {
        [path(m, left), vec![mth(right)]].concat()
    } else {
        [path(m - k, right), vec![mth(left)]].concat()
    }
}

/// The consistency proof for the first m inputs, 0 < m <= n: PROOF(m, D[n]) = SUBPROOF(m, D[n], true).
pub fn proof<V: AsRef<[u8]>>(m: usize, d: &[V]) -> Vec<Digest> {
    subproof(m, d, true)
}

/// The subproof for m = n is empty if m is the value for which PROOF was originally requested, and else
/// the Merkle Tree Hash of D[m]: SUBPROOF(m, D[m], true) = {}, SUBPROOF(m, D[m], false) = {MTH(D[m])}.
/// For m < n it is
/// SUBPROOF(m, D[n], b) = SUBPROOF(m, D[0:k], b) : MTH(D[k:n]) if m <= k, and
/// SUBPROOF(m, D[n], b) = SUBPROOF(m - k, D[k:n], false) : MTH(D[0:k]) if m > k.
fn subproof<V: AsRef<[u8]>>(m: usize, d: &[V], b: bool) -> Vec<Digest> {
    if m == d.len() {
        return if b { Vec::new() } else { vec![mth(d)] };
    }
    let (left, right) = split(d);
    let k = left.len();
    if m <= k {
        [subproof(m, left, b), vec![mth(right)]].concat()
    } else {
        [subproof(m - k, right, false), vec![mth(left)]].concat()
    }
}
