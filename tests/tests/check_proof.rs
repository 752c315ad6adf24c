//! The library's proof check: yes for the proofs of document 01's trees, no for everything else,
//! and on any numbers and bytes what the model answers.

use ringlog_tests::claims::{Claim, Edition};
use ringlog_tests::logs::{self, LONG, MASKS};
use ringlog_tests::model::tree::leaf_digest;
use ringlog_tests::model::{item, Log};
use ringlog_tests::random::Random;
use ringlog_tests::{refused, ringlog};

/// The claims of every value of logs of some lengths.
fn claims(counts: impl IntoIterator<Item = usize>, random: &mut Random) -> Vec<Claim> {
    let mut claims = Vec::new();
    for n in counts {
        let mut log = logs::log(n, random);
        claims.extend((1..=n).map(|i| Claim::of(&mut log, i)));
    }
    claims
}

/// Claims that hold of values of long logs, by proofs of up to 12 siblings.
fn long_claims(random: &mut Random) -> Vec<Claim> {
    let of = |(n, i)| {
        let item = logs::value(random);
        Claim::folded(n, i, item, random)
    };
    [(1_000, 1), (4_095, 1_366), (4_096, 4_096)]
        .map(of)
        .to_vec()
}

#[test]
fn the_path_of_every_value_of_1_to_70_is_accepted() {
    let mut random = Random::new(1);
    for claim in claims(1..=70, &mut random) {
        assert!(claim.holds(), "{claim:02x?}");
    }
}

#[test]
fn paths_of_long_logs_are_accepted_and_every_one_of_a_full_log() {
    let mut random = Random::new(2);
    let mut log = Log::default();
    for n in LONG {
        logs::grow(&mut log, n, &mut random);
        for i in logs::indexes(n, &mut random) {
            assert!(Claim::of(&mut log, i).holds(), "{i} of {n}");
        }
    }
    log.push(&logs::value(&mut random));
    for i in 1..=4_096 {
        assert!(Claim::of(&mut log, i).holds(), "{i} of 4,096");
    }
}

#[test]
fn whatever_folds_to_the_root_is_accepted_for_every_n_up_to_4096() {
    let mut random = Random::new(3);
    for n in 1..=4_096 {
        for i in [1, n, 1 + random.up_to(n - 1), 1 + random.up_to(n - 1)] {
            let item = logs::value(&mut random);
            let claim = Claim::folded(n, i, item, &mut random);
            assert!(claim.holds(), "{claim:02x?}");
            let bent = claim.holds_with(|claim| claim.root[n % 32] ^= 0x10);
            assert!(!bent, "{claim:02x?}");
        }
    }
}

#[test]
fn every_bent_byte_of_proof_item_or_root_is_refused() {
    let mut random = Random::new(4);
    let mut claims = claims([1, 2, 3, 7, 8, 13], &mut random);
    claims.extend(long_claims(&mut random));
    for claim in claims {
        for mask in MASKS {
            for at in 0..claim.proof.len() {
                let bent = claim.holds_with(|claim| claim.proof[at] ^= mask);
                assert!(!bent, "byte {at} of the proof: {claim:02x?}");
            }
            for at in 0..claim.item.len() {
                let bent = claim.holds_with(|claim| claim.item[at] ^= mask);
                assert!(!bent, "byte {at} of the item: {claim:02x?}");
            }
            for at in 0..32 {
                let bent = claim.holds_with(|claim| claim.root[at] ^= mask);
                assert!(!bent, "byte {at} of the root: {claim:02x?}");
            }
        }
    }
}

/// Also where the bytes behind a proof that is cut short are those that it would have.
#[test]
fn a_proof_of_another_length_is_refused() {
    let mut random = Random::new(5);
    let mut claims = claims([1, 2, 3, 7, 8, 22, 64], &mut random);
    claims.extend(long_claims(&mut random));
    for claim in claims {
        let Claim {
            n,
            i,
            item,
            proof,
            root,
            ..
        } = &claim;
        for len in 0..proof.len() {
            let torn = ringlog::check_proof(*n, *i, item, &proof[..len], root);
            assert!(!torn, "{len} bytes of {claim:02x?}");
        }
        for more in [1, 31, 32, 33, 64, 256, 384] {
            let behind = claim.holds_with(|claim| claim.proof.extend(vec![0; more]));
            assert!(!behind, "{more} bytes behind {claim:02x?}");
            let before = claim.holds_with(|claim| {
                claim.proof.splice(..0, vec![0; more]);
            });
            assert!(!before, "{more} bytes before {claim:02x?}");
        }
        let twice = claim.holds_with(|claim| claim.proof.extend(proof));
        assert!(!twice || proof.is_empty(), "{claim:02x?}");
    }
}

/// The proof has one sibling more, and the root is the one above it.
#[test]
fn a_longer_proof_is_refused_though_all_of_it_folds_to_the_root() {
    let mut random = Random::new(6);
    let mut claims = claims(1..=33, &mut random);
    claims.extend(long_claims(&mut random));
    for mut claim in claims {
        let sibling = random.digest();
        claim.proof.extend(sibling);
        for above in claim.roots_above(&sibling) {
            let more = claim.holds_with(|claim| claim.root = above.to_vec());
            assert!(!more, "{} of {}", claim.i, claim.n);
        }
    }
}

#[test]
fn siblings_in_another_order_are_refused() {
    let mut random = Random::new(7);
    for claim in claims([3, 4, 7, 8, 22, 40], &mut random) {
        let siblings = claim.proof.len() / 32;
        for one in 0..siblings {
            for other in one + 1..siblings {
                let swapped = claim.holds_with(|claim| {
                    let (before, behind) = claim.proof.split_at_mut(32 * other);
                    before[32 * one..][..32].swap_with_slice(&mut behind[..32]);
                });
                assert!(!swapped, "{one} and {other} of {claim:02x?}");
            }
        }
        let turned = claim.holds_with(|claim| {
            let siblings: Vec<_> = claim.proof.chunks(32).rev().collect();
            claim.proof = siblings.concat();
        });
        assert!(!turned || siblings < 2, "{claim:02x?}");
    }
}

#[test]
fn another_index_is_refused() {
    let mut random = Random::new(8);
    for claim in claims([1, 2, 3, 7, 8, 22, 33], &mut random) {
        for other in (0..=claim.n + 2).filter(|&other| other != claim.i) {
            let moved = claim.holds_with(|claim| claim.i = other);
            assert!(!moved, "{other} for {claim:02x?}");
        }
    }
}

/// Two trees can have one path to a leaf: value 1 of 3 and of 4 has siblings of the same heights on
/// the same side. Then the fold cannot tell the counts apart, and nothing else is asked.
#[test]
fn another_count_is_refused_unless_its_path_has_the_same_heights_and_sides() {
    let mut random = Random::new(9);
    let (mut same, mut refused) = (0, 0);
    for claim in claims([1, 2, 3, 4, 7, 8, 22], &mut random) {
        for other in (0..=70).filter(|&other| other != claim.n) {
            match claim.holds_with(|claim| claim.n = other) {
                true => same += 1,
                false => refused += 1,
            }
        }
    }
    assert!(same > 10 && refused > 1_000, "{same}, {refused}");
    let mut log = logs::log(4, &mut random);
    assert!(Claim::of(&mut log, 1).holds_with(|claim| claim.n = 3));
    assert!(!Claim::of(&mut log, 3).holds_with(|claim| claim.n = 3));
    assert!(!Claim::of(&mut log, 1).holds_with(|claim| claim.n = 5));
}

#[test]
fn the_root_or_the_proof_of_fewer_values_is_refused() {
    let mut random = Random::new(10);
    let mut log = Log::default();
    let mut grown: Vec<Vec<Claim>> = Vec::new();
    for n in 1..=20 {
        log.push(&logs::value(&mut random));
        let now: Vec<_> = (1..=n).map(|i| Claim::of(&mut log, i)).collect();
        for earlier in &grown {
            for (old, new) in earlier.iter().zip(&now) {
                let old_root = new.holds_with(|claim| claim.root = old.root.clone());
                assert!(!old_root, "{} of {}, root of {}", new.i, n, old.n);
                let old_proof = new.holds_with(|claim| claim.proof = old.proof.clone());
                assert!(!old_proof, "{} of {}, proof of {}", new.i, n, old.n);
            }
        }
        grown.push(now);
    }
}

#[test]
fn another_value_of_the_same_log_is_refused() {
    let mut random = Random::new(11);
    for n in 2..=16 {
        let mut log = logs::taps(n, &mut random);
        for i in 1..=n {
            let claim = Claim::of(&mut log, i);
            for other in (1..=n).filter(|&other| other != i) {
                let item = log.value(other).to_vec();
                let taken = claim.holds_with(|claim| claim.item = item.clone());
                assert!(!taken, "{other} for {i} of {n}");
            }
        }
    }
}

/// The root is the one that the item folds to, so nothing else is wrong.
#[test]
fn what_is_no_value_item_is_refused_though_it_folds_to_the_root() {
    let mut random = Random::new(12);
    for item in refused::no_values() {
        for (n, i) in [(1, 1), (2, 1), (7, 5), (4_096, 4_096)] {
            let claim = Claim::folded(n, i, item.clone(), &mut random);
            assert!(!claim.holds(), "{claim:02x?}");
        }
    }
    for kind in item::VALUES {
        let item = logs::value_of(kind, &mut random);
        let claim = Claim::folded(1, 1, item, &mut random);
        assert_eq!(claim.root, leaf_digest(&claim.item));
        assert!(claim.holds(), "{claim:02x?}");
    }
}

/// The paths of trees of more than 4,096 values, whose roots they fold to.
#[test]
fn more_than_4096_values_are_refused_though_the_path_folds_to_the_root() {
    let mut random = Random::new(13);
    for n in [4_096, 4_097, 4_098, 5_000, 8_191, 8_192, 8_193, 1 << 20] {
        for i in [1, 2, 4_096, 4_097, n].into_iter().filter(|&i| i <= n) {
            let item = logs::value(&mut random);
            let claim = Claim::folded(n, i, item, &mut random);
            assert_eq!(claim.holds(), n == 4_096, "{claim:02x?}");
        }
    }
    let mut log = logs::taps(4_097, &mut random);
    for i in [1, 2_048, 4_096, 4_097] {
        assert!(!Claim::of(&mut log, i).holds(), "{i} of 4,097");
    }
}

#[test]
fn index_0_and_indexes_above_n_are_refused_whatever_the_length_of_the_proof() {
    let mut random = Random::new(14);
    for n in [0, 1, 2, 3, 7, 8, 4_095, 4_096, 4_097] {
        for i in [0, n + 1, n + 2, 2 * n + 1, 4_097, usize::MAX] {
            for hops in 0..=14 {
                let item = logs::value(&mut random);
                let claim = Claim {
                    edition: Edition::First,
                    n,
                    i,
                    root: leaf_digest(&item).to_vec(),
                    proof: random.bytes(32 * hops),
                    item,
                };
                assert!(!claim.holds(), "{claim:02x?}");
            }
        }
    }
    for i in [0, 1, 2, usize::MAX] {
        let item = logs::value(&mut random);
        for root in [ringlog::root(&[]).digest, [0; 32], leaf_digest(&item)] {
            assert!(!ringlog::check_proof(0, i, &item, &[], &root), "{i} of 0");
        }
    }
}

#[test]
fn no_lower_32_bits_of_count_or_index_are_taken_for_it() {
    let mut random = Random::new(15);
    for claim in claims([1, 2, 7], &mut random) {
        for high in [1 << 32, 1 << 33, 1 << 48, 1 << 63, !0 << 32] {
            let case = || format!("{high:#x}: {claim:02x?}");
            assert!(!claim.holds_with(|claim| claim.n += high), "{}", case());
            assert!(!claim.holds_with(|claim| claim.i += high), "{}", case());
            let both = claim.holds_with(|claim| {
                claim.n += high;
                claim.i += high;
            });
            assert!(!both, "{}", case());
        }
    }
}

#[test]
fn a_root_that_has_not_32_bytes_is_refused_whatever_it_begins_with() {
    let mut random = Random::new(16);
    for claim in claims([1, 2, 7, 8], &mut random) {
        let memory = [&claim.root[..], &claim.root, &[0; 300]].concat();
        for len in [0, 1, 8, 31, 33, 63, 64, 65, 288, 364] {
            let other = claim.holds_with(|claim| claim.root = memory[..len].to_vec());
            assert!(!other, "{len} bytes: {claim:02x?}");
            // The bytes behind a root that is cut short are those that it would have.
            let Claim { n, i, .. } = claim;
            let (item, proof) = (&claim.item, &claim.proof);
            let short = ringlog::check_proof(n, i, item, proof, &memory[..len]);
            assert!(!short, "{len} bytes: {claim:02x?}");
        }
    }
}

/// Each part of a claim right or wrong, all with all: yes only where all is right.
#[test]
fn a_claim_is_accepted_exactly_when_all_of_it_is_right() {
    let mut random = Random::new(17);
    for claim in claims([1, 2, 5, 8], &mut random) {
        for wrong in 0..32 {
            let answer = claim.holds_with(|claim| {
                if wrong & 1 != 0 {
                    claim.i = claim.n + 1;
                }
                if wrong & 2 != 0 {
                    claim.n += 4_096;
                }
                if wrong & 4 != 0 {
                    claim.item.push(0);
                }
                if wrong & 8 != 0 {
                    claim.proof.push(0);
                }
                if wrong & 16 != 0 {
                    claim.root.push(0);
                }
            });
            assert_eq!(answer, wrong == 0, "{wrong:#b}: {claim:02x?}");
        }
    }
}

#[test]
fn random_claims_that_are_bent_or_not_get_what_the_model_gives() {
    let mut random = Random::new(18);
    let mut met = [0; 2];
    for round in 0..20_000 {
        let n = 1 + random.up_to(if round % 2 == 0 { 20 } else { 4_095 });
        let i = 1 + random.up_to(n - 1);
        let item = logs::value(&mut random);
        let mut claim = Claim::folded(n, i, item, &mut random);
        let at = random.up_to(31);
        match random.up_to(11) {
            0 => claim.n = 1 + random.up_to(4_099),
            1 => claim.i = random.up_to(n + 1),
            2 => claim.n += 1,
            3 => claim.item = logs::value(&mut random),
            4 => claim.root[at] ^= MASKS[random.up_to(8)],
            5 => {
                let len = random.up_to(400);
                claim.proof.resize(len, 0);
            }
            6 => {
                if let Some(byte) = claim.proof.get_mut(at) {
                    *byte ^= 0x01;
                }
            }
            _ => (),
        }
        met[usize::from(claim.holds())] += 1;
    }
    assert!(met[0] > 2_000 && met[1] > 2_000, "{met:?}");
}

#[test]
fn a_check_changes_no_byte() {
    let mut random = Random::new(19);
    for claim in claims([1, 7, 8], &mut random) {
        let before = claim.clone();
        assert!(claim.holds(), "{claim:02x?}");
        let unchanged =
            claim.item == before.item && claim.proof == before.proof && claim.root == before.root;
        assert!(unchanged, "{before:02x?}");
    }
}
