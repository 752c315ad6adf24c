//! The proof of a consistency check: exactly the digests that the RFC's subproof rule puts there, in its
//! order, and no byte left over.

use ringlog_tests::consistency::Consistency;
use ringlog_tests::far::far_longer;
use ringlog_tests::logs::{numbered_values, MASKS};
use ringlog_tests::model::rfc6962::mth;
use ringlog_tests::random::Random;
use ringlog_tests::ringlog;

fn digests(claim: &Consistency) -> Vec<Vec<u8>> {
    claim.proof.chunks(32).map(<[u8]>::to_vec).collect()
}

#[test]
fn a_bent_bit_of_any_digest_of_the_proof_is_refused() {
    let mut random = Random::new(1);
    for claim in Consistency::up_to(40, &mut random) {
        for digest in 0..claim.proof.len() / 32 {
            let (at, bit) = (32 * digest + random.up_to(31), 1 << random.up_to(7));
            let bent = claim.holds_with(|claim| claim.proof[at] ^= bit);
            assert!(!bent, "byte {at} of the proof: {claim:02x?}");
        }
    }
    for claim in Consistency::some(&mut random) {
        for at in 0..claim.proof.len() {
            for mask in MASKS {
                let bent = claim.holds_with(|claim| claim.proof[at] ^= mask);
                assert!(!bent, "byte {at} of the proof: {claim:02x?}");
            }
        }
    }
}

#[test]
fn digests_in_another_order_are_refused() {
    for claim in Consistency::up_to(40, &mut Random::new(2)) {
        let digests = digests(&claim);
        for one in 0..digests.len() {
            for other in one + 1..digests.len() {
                let mut swapped = digests.clone();
                swapped.swap(one, other);
                let swapped = claim.holds_with(|claim| claim.proof = swapped.concat());
                assert!(!swapped, "{one} and {other} of {claim:02x?}");
            }
        }
        let turned: Vec<_> = digests.iter().rev().cloned().collect();
        let turned = claim.holds_with(|claim| claim.proof = turned.concat());
        assert!(!turned || digests.len() < 2, "{claim:02x?}");
    }
}

/// The one more is any digest, one of the proof again, or a root. The old root before the others is
/// what the proof would be if the rule did not omit it.
#[test]
fn a_proof_with_a_digest_more_or_less_is_refused() {
    let mut random = Random::new(3);
    let some = Consistency::some(&mut random);
    for claim in Consistency::up_to(24, &mut random).into_iter().chain(some) {
        let digests = digests(&claim);
        for lost in 0..digests.len() {
            let mut fewer = digests.clone();
            fewer.remove(lost);
            let fewer = claim.holds_with(|claim| claim.proof = fewer.concat());
            assert!(!fewer, "without digest {lost}: {claim:02x?}");
        }
        let roots = [&claim.old_root, &claim.new_root].map(Vec::clone);
        let others = [vec![0; 32], random.digest().to_vec()];
        for extra in roots.iter().chain(&others).chain(&digests) {
            for at in 0..=digests.len() {
                let mut more = digests.clone();
                more.insert(at, extra.clone());
                let more = claim.holds_with(|claim| claim.proof = more.concat());
                assert!(!more, "one more at {at}: {claim:02x?}");
            }
        }
    }
}

/// Also where the bytes behind a proof that is cut short are those that it would have.
#[test]
fn a_proof_with_bytes_left_over_or_missing_is_refused() {
    let mut random = Random::new(4);
    let some = Consistency::some(&mut random);
    for claim in Consistency::up_to(16, &mut random).into_iter().chain(some) {
        let Consistency {
            m,
            n,
            proof,
            old_root,
            new_root,
        } = &claim;
        for len in 0..proof.len() {
            let torn = &proof[..len];
            let torn = ringlog::rfc6962_check_consistency(*m, *n, torn, old_root, new_root);
            assert!(!torn, "{len} bytes of {claim:02x?}");
        }
        for more in [1, 16, 31, 32, 33, 64, 256, 416] {
            let behind = claim.holds_with(|claim| claim.proof.extend(vec![0; more]));
            assert!(!behind, "{more} bytes behind {claim:02x?}");
            let before = claim.holds_with(|claim| {
                claim.proof.splice(..0, vec![0; more]);
            });
            assert!(!before, "{more} bytes before {claim:02x?}");
        }
    }
}

#[test]
fn an_empty_proof_is_refused_for_m_below_n_also_with_equal_roots() {
    for claim in Consistency::up_to(40, &mut Random::new(5)) {
        if claim.m < claim.n {
            let empty = claim.holds_with(|claim| claim.proof.clear());
            assert!(!empty, "{claim:02x?}");
            for same in [&claim.old_root, &claim.new_root] {
                let equal = claim.holds_with(|claim| {
                    claim.proof.clear();
                    claim.old_root = same.clone();
                    claim.new_root = same.clone();
                });
                assert!(!equal, "{claim:02x?}");
            }
        }
    }
}

/// Six values are no subtree of eight. A reading that omits the digest of every subtree where the
/// two trees agree has two digests for them.
#[test]
fn from_six_to_eight_values_two_digests_are_refused_and_three_are_accepted() {
    let d = numbered_values(8);
    let claim = Consistency::of(&d, 6);
    assert_eq!(claim.proof.len(), 3 * 32);
    assert!(claim.holds());
    let two = [mth(&d[6..8]), mth(&d[0..4])].concat();
    assert!(!claim.holds_with(|claim| claim.proof = two.clone()));
}

/// The bytes begin with those that would be right, and their number has the lower 32 bits that it
/// would have.
#[test]
fn no_lower_32_bits_of_a_length_are_taken_for_it() {
    for m in [2, 3, 5] {
        let Consistency {
            n,
            proof,
            old_root,
            new_root,
            ..
        } = Consistency::of(&numbered_values(5), m);
        let check = |proof: &[u8], old_root: &[u8], new_root: &[u8]| {
            ringlog::rfc6962_check_consistency(m, n, proof, old_root, new_root)
        };
        assert!(check(&proof, &old_root, &new_root), "{m} to {n}");
        let long = far_longer(&proof);
        assert!(!check(long, &old_root, &new_root), "{m} to {n}");
        let long = far_longer(&old_root);
        assert!(!check(&proof, long, &new_root), "{m} to {n}");
        let long = far_longer(&new_root);
        assert!(!check(&proof, &old_root, long), "{m} to {n}");
    }
}
