//! The two checks of the RFC 6962 edition, from the numbers, the digests and the roots alone. They
//! go by the RFC's recursions for PATH and SUBPROOF, and take from the end what these put there
//! last.

#![forbid(unsafe_code)]

use super::entry::MOST;
use super::item::is_value;
use super::rfc6962::{largest_power_below, leaf_hash, node_hash};
use super::tree::Digest;

/// Whether 1 ≤ i ≤ n ≤ 4,096, the item is a value item, the path has exactly the digests that PATH has
/// for this i and n, the root has 32 bytes, and the item and the path give the root.
pub fn rfc6962_check_path(n: usize, i: usize, item: &[u8], path: &[u8], root: &[u8]) -> bool {
    if !(1 <= i && i <= n && n <= MOST && is_value(item) && root.len() == 32) {
        return false;
    }
    let given = |path: Vec<Digest>| root_by_path(i - 1, n, leaf_hash(item), &path);
    digests(path)
        .and_then(given)
        .map_or(false, |given| given == root)
}

/// MTH(D[n]) as this leaf hash of input m and PATH(m, D[n]) give it; none where the path has another
/// number of digests.
pub fn root_by_path(m: usize, n: usize, leaf: Digest, path: &[Digest]) -> Option<Digest> {
    if n == 1 {
        return path.is_empty().then_some(leaf);
    }
    let (beside, path) = path.split_last()?;
    let k = largest_power_below(n);
    if m < k {
        let left = root_by_path(m, k, leaf, path)?;
        Some(node_hash(&left, beside))
    } else {
        let right = root_by_path(m - k, n - k, leaf, path)?;
        Some(node_hash(beside, &right))
    }
}

/// Whether 1 ≤ m ≤ n ≤ 4,096, the roots have 32 bytes, and both come out of the proof by the RFC's
/// subproof rule with no byte left over. Where the rule omits the old root's digest, the lent old root
/// stands in for it.
pub fn rfc6962_check_consistency(
    m: usize,
    n: usize,
    proof: &[u8],
    old_root: &[u8],
    new_root: &[u8],
) -> bool {
    if !(1 <= m && m <= n && n <= MOST) {
        return false;
    }
    let (old_root, new_root): (Digest, Digest) = match (old_root.try_into(), new_root.try_into()) {
        (Ok(old_root), Ok(new_root)) => (old_root, new_root),
        _ => return false,
    };
    let given = |proof: Vec<Digest>| roots_by_proof(m, n, &old_root, &proof);
    digests(proof).and_then(given) == Some((old_root, new_root))
}

/// MTH(D[0:m]) and MTH(D[n]) as PROOF(m, D[n]) gives them, with this digest for MTH(D[0:m]) where it is
/// omitted; none where the proof has another number of digests.
pub fn roots_by_proof(
    m: usize,
    n: usize,
    omitted: &Digest,
    proof: &[Digest],
) -> Option<(Digest, Digest)> {
    roots_by_subproof(m, n, Some(omitted), proof)
}

/// The two as SUBPROOF(m, D[n], b) gives them. There is an omitted digest exactly where b is true.
fn roots_by_subproof(
    m: usize,
    n: usize,
    omitted: Option<&Digest>,
    subproof: &[Digest],
) -> Option<(Digest, Digest)> {
    if m == n {
        return match (omitted, subproof) {
            (Some(known), []) | (None, [known]) => Some((*known, *known)),
            _ => None,
        };
    }
    let (beside, subproof) = subproof.split_last()?;
    let k = largest_power_below(n);
    if m <= k {
        let (old, left) = roots_by_subproof(m, k, omitted, subproof)?;
        Some((old, node_hash(&left, beside)))
    } else {
        let (old, right) = roots_by_subproof(m - k, n - k, None, subproof)?;
        Some((node_hash(beside, &old), node_hash(beside, &right)))
    }
}

/// How many digests PROOF(m, D[n]) has, for 1 ≤ m ≤ n.
pub fn proof_len(m: usize, n: usize) -> usize {
    subproof_len(m, n, true)
}

fn subproof_len(m: usize, n: usize, b: bool) -> usize {
    if m == n {
        return usize::from(!b);
    }
    let k = largest_power_below(n);
    if m <= k {
        subproof_len(m, k, b) + 1
    } else {
        subproof_len(m - k, n - k, false) + 1
    }
}

/// The digests that the bytes are, 32 bytes each; none where a byte is left over.
fn digests(bytes: &[u8]) -> Option<Vec<Digest>> {
    let digest = |bytes: &[u8]| bytes.try_into().ok();
    bytes.chunks(32).map(digest).collect()
}
