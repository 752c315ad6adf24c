//! The two roots of a consistency check: both must come out of the proof and have 32 bytes, and where
//! the proof omits the old root's digest, the lent old root stands in for it.

use ringlog_tests::consistency::Consistency;
use ringlog_tests::logs::{self, MASKS};
use ringlog_tests::model::rfc6962::mth;
use ringlog_tests::model::{sha256, Log};
use ringlog_tests::random::Random;
use ringlog_tests::ringlog;

/// Also where the old root stands in for the digest that the proof omits: for m a power of two it
/// then fails through the new root, and for m = n the roots are not equal.
#[test]
fn a_bent_bit_of_either_root_is_refused() {
    let mut random = Random::new(1);
    let few = Consistency::up_to(12, &mut random);
    for claim in few.into_iter().chain(Consistency::some(&mut random)) {
        for at in 0..32 {
            for mask in MASKS {
                let old = claim.holds_with(|claim| claim.old_root[at] ^= mask);
                assert!(!old, "byte {at} of the old root: {claim:02x?}");
                let new = claim.holds_with(|claim| claim.new_root[at] ^= mask);
                assert!(!new, "byte {at} of the new root: {claim:02x?}");
            }
        }
    }
}

#[test]
fn a_false_old_root_is_refused_also_where_it_stands_in() {
    let mut random = Random::new(2);
    let log = logs::log(41, &mut random);
    for claim in Consistency::up_to(40, &mut random) {
        let others = [
            [0; 32],
            sha256(&[]),
            mth(&log.values()[..claim.m]),
            mth(&log.values()[..claim.m + 1]),
        ];
        for other in others {
            let false_old = claim.holds_with(|claim| claim.old_root = other.to_vec());
            assert!(!false_old, "{claim:02x?}");
            let false_new = claim.holds_with(|claim| claim.new_root = other.to_vec());
            assert!(!false_new, "{claim:02x?}");
        }
        let turned = claim.holds_with(|claim| {
            std::mem::swap(&mut claim.old_root, &mut claim.new_root);
        });
        assert_eq!(turned, claim.m == claim.n, "{claim:02x?}");
    }
}

/// The roots of other beginnings of the same values.
#[test]
fn the_root_of_another_number_of_values_is_refused() {
    let log = logs::log(24, &mut Random::new(3));
    let roots: Vec<_> = (0..=24).map(|n| mth(&log.values()[..n])).collect();
    for n in 1..=24 {
        for m in 1..=n {
            let claim = Consistency::of(&log.values()[..n], m);
            for (other, root) in roots.iter().enumerate() {
                let old = claim.holds_with(|claim| claim.old_root = root.to_vec());
                assert_eq!(old, other == m, "{m} to {n}, old root of {other}");
                let new = claim.holds_with(|claim| claim.new_root = root.to_vec());
                assert_eq!(new, other == n, "{m} to {n}, new root of {other}");
            }
        }
    }
}

/// Whatever the roots are: nothing else is asked of them.
#[test]
fn for_equal_counts_yes_means_equal_roots_and_an_empty_proof() {
    let mut random = Random::new(4);
    for n in (1..=70).chain([2_047, 2_048, 2_049, 4_095, 4_096]) {
        for root in [[0; 32], sha256(&[]), random.digest()] {
            let claim = Consistency {
                m: n,
                n,
                proof: Vec::new(),
                old_root: root.to_vec(),
                new_root: root.to_vec(),
            };
            assert!(claim.holds(), "{claim:02x?}");
            let other = random.digest().to_vec();
            let unequal = claim.holds_with(|claim| claim.new_root = other.clone());
            assert!(!unequal, "{claim:02x?}");
            for len in [1, 31, 32, 33, 64] {
                let bytes = [root, root].concat();
                let not_empty = claim.holds_with(|claim| claim.proof = bytes[..len].to_vec());
                assert!(!not_empty, "{len} bytes: {claim:02x?}");
            }
        }
    }
}

/// The bytes behind a root that is cut short are those that it would have.
#[test]
fn a_root_that_has_not_32_bytes_is_refused_whatever_it_begins_with() {
    let mut random = Random::new(5);
    let some = Consistency::some(&mut random);
    for claim in Consistency::up_to(12, &mut random).into_iter().chain(some) {
        let Consistency {
            m,
            n,
            proof,
            old_root,
            new_root,
        } = &claim;
        let old_memory = [&old_root[..], old_root, &[0; 300]].concat();
        let new_memory = [&new_root[..], new_root, &[0; 300]].concat();
        for len in [0, 1, 8, 31, 33, 63, 64, 65, 288] {
            let (old, new) = (&old_memory[..len], &new_memory[..len]);
            let check = |old: &[u8], new: &[u8]| {
                let copied = claim.holds_with(|claim| {
                    claim.old_root = old.to_vec();
                    claim.new_root = new.to_vec();
                });
                copied || ringlog::rfc6962_check_consistency(*m, *n, proof, old, new)
            };
            assert!(!check(old, new_root), "old root of {len}: {claim:02x?}");
            assert!(!check(old_root, new), "new root of {len}: {claim:02x?}");
            assert!(!check(old, new), "both roots of {len}: {claim:02x?}");
        }
    }
}

/// Old root and proof are one behind the other what they should be, and parted at another byte.
#[test]
fn a_byte_of_the_proof_in_the_old_root_or_of_the_old_root_in_the_proof_is_refused() {
    let mut random = Random::new(6);
    let some = Consistency::some(&mut random);
    for claim in Consistency::up_to(24, &mut random).into_iter().chain(some) {
        let both = [&claim.old_root[..], &claim.proof].concat();
        for old_len in (0..=both.len()).filter(|&len| len != 32) {
            let parted = claim.holds_with(|claim| {
                claim.old_root = both[..old_len].to_vec();
                claim.proof = both[old_len..].to_vec();
            });
            assert!(!parted, "an old root of {old_len}: {claim:02x?}");
        }
    }
}

/// In the first edition, SUBPROOF over its own digests, and its roots. One and two values have the
/// same root in both.
#[test]
fn the_first_editions_roots_and_digests_are_refused_where_they_are_other_ones() {
    let values = logs::log(24, &mut Random::new(7)).values().to_vec();
    let first_root = |values: &[Vec<u8>]| Log::of(values).root().to_vec();
    for n in 1..=24 {
        for m in 1..=n {
            let claim = Consistency::of(&values[..n], m);
            let (old, new) = (first_root(&values[..m]), first_root(&values[..n]));
            let old_root = claim.holds_with(|claim| claim.old_root = old.clone());
            assert_eq!(old_root, m <= 2, "{m} to {n}");
            let new_root = claim.holds_with(|claim| claim.new_root = new.clone());
            assert_eq!(new_root, n <= 2, "{m} to {n}");
            let proof = first_subproof(m, &values[..n], true).concat();
            let with_proof = claim.holds_with(|claim| claim.proof = proof.clone());
            assert_eq!(with_proof, proof == claim.proof, "{m} to {n}");
            let all_of_it = Consistency {
                m,
                n,
                proof,
                old_root: old,
                new_root: new,
            };
            // Of equal counts only the roots are compared.
            assert_eq!(all_of_it.holds(), m == n || n <= 2, "{m} to {n}");
            let mut inclusion = Log::of(&values[..n]).path(m).concat();
            inclusion.resize(claim.proof.len(), 0);
            let with_path = claim.holds_with(|claim| claim.proof = inclusion.clone());
            assert_eq!(with_path, inclusion == claim.proof, "{m} to {n}");
        }
    }
}

/// SUBPROOF(m, D[n], b) with the roots of document 01 in place of the Merkle Tree Hash.
fn first_subproof(m: usize, d: &[Vec<u8>], b: bool) -> Vec<[u8; 32]> {
    let root = |d: &[Vec<u8>]| Log::of(d).root();
    if m == d.len() {
        return if b { vec![] } else { vec![root(d)] };
    }
    let k = d.len().next_power_of_two() / 2;
    let (left, right) = d.split_at(k);
    if m <= k {
        [first_subproof(m, left, b), vec![root(right)]].concat()
    } else {
        [first_subproof(m - k, right, false), vec![root(left)]].concat()
    }
}

/// The new list has another value at one place. Up to m it is no continuation of the old one;
/// behind m it is, and its own proof is accepted.
#[test]
fn a_list_that_has_another_value_up_to_m_is_refused() {
    let mut random = Random::new(8);
    for n in 1..=16 {
        let list = logs::log(n, &mut random).values().to_vec();
        for place in 1..=n {
            let mut other = list.clone();
            other[place - 1] = logs::value(&mut random);
            for m in 1..=n {
                let claim = Consistency::of(&list, m);
                let to_other = Consistency::of(&other, m);
                let its_proof = claim.holds_with(|claim| {
                    claim.proof = to_other.proof.clone();
                    claim.new_root = to_other.new_root.clone();
                });
                assert_eq!(its_proof, m < place, "{m} to {n}, another value {place}");
                let old_proof = claim.holds_with(|claim| {
                    claim.new_root = to_other.new_root.clone();
                });
                assert!(!old_proof, "{m} to {n}, another value {place}");
            }
        }
    }
}
