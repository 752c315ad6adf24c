//! What a consistency check is lent: claims that are true, and claims with one thing wrong.

use super::lent::{bend, count, near, spoil_length, spoil_root};
use super::long;
use crate::consistency::Consistency;
use crate::logs;
use crate::model::entry::MOST;
use crate::model::rfc6962::node_hash;
use crate::model::rfc6962_checks::proof_len;
use crate::model::tree::Digest;
use crate::random::Random;

/// A claim that holds in about half of the cases.
pub fn any(random: &mut Random) -> Consistency {
    let mut claim = match random.up_to(15) {
        0 => long::consistency(random),
        1..=4 => of_log(random),
        _ => folded(random),
    };
    if random.up_to(1) == 0 {
        spoil(&mut claim, random);
    }
    claim
}

/// The claim that a list of values goes on from its first ones.
fn of_log(random: &mut Random) -> Consistency {
    let n = 1 + random.up_to(39);
    let m = old_count(n, random);
    Consistency::of(logs::log(n, random).values(), m)
}

/// A claim of any digests, with the roots that they give. Now and then there are more values than a
/// log can have.
fn folded(random: &mut Random) -> Consistency {
    let n = count(random);
    let m = old_count(n, random);
    Consistency::folded(m, n, random)
}

/// From 1 to n: now and then n, more often a power of two.
fn old_count(n: usize, random: &mut Random) -> usize {
    match random.up_to(5) {
        0 => n,
        1 | 2 => (1 << random.up_to(12)).min(n),
        _ => 1 + random.up_to(n - 1),
    }
}

/// Changes one thing, in most cases so that the claim is false.
fn spoil(claim: &mut Consistency, random: &mut Random) {
    match random.up_to(15) {
        0 => claim.n = near(1 + random.up_to(MOST), random),
        1 => claim.n = *random.one_of(&[claim.n - 1, claim.n + 1, claim.n + (1 << 32)]),
        2 => claim.m = *random.one_of(&[0, claim.n + 1, claim.m + (1 << 32), usize::MAX]),
        3 => claim.m = near(random.up_to(claim.n + 1), random),
        4 => tell_another_old_count(claim, random),
        5 | 6 => bend(&mut claim.proof, random),
        7 => spoil_length(&mut claim.proof, random),
        8 | 9 => spoil_root(&mut claim.old_root, random),
        10 | 11 => spoil_root(&mut claim.new_root, random),
        12 => go_on_above(claim, random),
        13 => part_elsewhere(claim, random),
        14 => drop(claim.proof.splice(..0, claim.old_root.clone())),
        _ => claim.proof.clear(),
    }
}

/// Another old count, with as many digests as it takes.
fn tell_another_old_count(claim: &mut Consistency, random: &mut Random) {
    claim.m = old_count(claim.n, random);
    let len = 32 * proof_len(claim.m, claim.n);
    claim.proof.resize(len, 0);
}

/// Adds one digest to the proof, and makes the new root the one above it.
fn go_on_above(claim: &mut Consistency, random: &mut Random) {
    let beside = random.digest();
    let root: Digest = claim.new_root[..].try_into().expect("32 bytes");
    claim.proof.extend(beside);
    claim.new_root = node_hash(&root, &beside).to_vec();
}

/// Old root and proof are one behind the other what they were, and parted at another byte.
fn part_elsewhere(claim: &mut Consistency, random: &mut Random) {
    let both = [&claim.old_root[..], &claim.proof].concat();
    let len = *random.one_of(&[31, 33, both.len()]);
    let (old_root, proof) = both.split_at(len.min(both.len()));
    claim.old_root = old_root.to_vec();
    claim.proof = proof.to_vec();
}
