//! The path check of the RFC 6962 edition: as document 01 checks a proof, with the RFC's fold. Yes
//! for the paths of the RFC's trees, no for everything else, and on any numbers and bytes what the
//! model answers.

use ringlog_tests::claims::{Claim, Edition};
use ringlog_tests::far::far_longer;
use ringlog_tests::logs::{self, numbered_values, MASKS};
use ringlog_tests::model::inclusion::hops;
use ringlog_tests::model::rfc6962::leaf_hash;
use ringlog_tests::model::{item, Log};
use ringlog_tests::random::Random;
use ringlog_tests::{long, refused, ringlog};

/// The claims of every value of logs of some lengths, with values of mixed kinds.
fn claims(counts: impl IntoIterator<Item = usize>, random: &mut Random) -> Vec<Claim> {
    let mut claims = Vec::new();
    for n in counts {
        let log = logs::log(n, random);
        claims.extend((1..=n).map(|i| Claim::rfc6962(log.values(), i)));
    }
    claims
}

fn folded(n: usize, i: usize, item: Vec<u8>, random: &mut Random) -> Claim {
    Claim::folded_in(Edition::Rfc6962, (n, i), item, random)
}

/// Claims that hold of values of long logs, by paths of up to 12 digests.
fn long_claims(random: &mut Random) -> Vec<Claim> {
    let of = |(n, i)| {
        let item = logs::value(random);
        folded(n, i, item, random)
    };
    [(1_000, 1), (4_095, 1_366), (4_096, 4_096)]
        .map(of)
        .to_vec()
}

#[test]
fn the_path_of_every_value_of_1_to_40_is_accepted() {
    for claim in claims(1..=40, &mut Random::new(1)) {
        assert!(claim.holds(), "{claim:02x?}");
    }
}

#[test]
fn paths_of_4095_and_4096_values_are_accepted_and_of_4097_are_not() {
    let values = long::whole().values();
    for n in [4_095, 4_096, 4_097] {
        for i in [1, 2, 2_048, 2_049, 4_094, 4_095, 4_096, 4_097] {
            if i <= n {
                let claim = Claim::rfc6962(&values[..n], i);
                assert_eq!(claim.holds(), n <= 4_096, "{i} of {n}");
            }
        }
    }
}

#[test]
fn whatever_folds_to_the_root_is_accepted_for_every_n_up_to_4096() {
    let mut random = Random::new(2);
    for n in 1..=4_096 {
        for i in [1, n, 1 + random.up_to(n - 1), 1 + random.up_to(n - 1)] {
            let item = logs::value(&mut random);
            let claim = folded(n, i, item, &mut random);
            assert!(claim.holds(), "{claim:02x?}");
            let bent = claim.holds_with(|claim| claim.root[n % 32] ^= 0x10);
            assert!(!bent, "{claim:02x?}");
        }
    }
}

#[test]
fn every_bent_byte_of_path_item_or_root_is_refused() {
    let mut random = Random::new(3);
    let mut claims = claims([1, 2, 3, 7, 8], &mut random);
    claims.extend(long_claims(&mut random));
    for claim in claims {
        for mask in MASKS {
            for at in 0..claim.proof.len() {
                let bent = claim.holds_with(|claim| claim.proof[at] ^= mask);
                assert!(!bent, "byte {at} of the path: {claim:02x?}");
            }
            for at in 0..claim.item.len() {
                let bent = claim.holds_with(|claim| claim.item[at] ^= mask);
                assert!(!bent, "byte {at} of the item: {claim:02x?}");
            }
            for at in 0..32 {
                let bent = claim.holds_with(|claim| claim.root[at] ^= mask);
                assert!(!bent, "byte {at} of the root: {claim:02x?}");
            }
        }
    }
}

/// Also where the bytes behind a path that is cut short are those that it would have.
#[test]
fn a_path_with_a_digest_or_a_byte_more_or_less_is_refused() {
    let mut random = Random::new(4);
    let mut claims = claims([1, 2, 3, 7, 8, 22], &mut random);
    claims.extend(long_claims(&mut random));
    for claim in claims {
        let Claim {
            n,
            i,
            item,
            proof,
            root,
            ..
        } = &claim;
        for len in 0..proof.len() {
            let torn = ringlog::rfc6962_check_path(*n, *i, item, &proof[..len], root);
            assert!(!torn, "{len} bytes of {claim:02x?}");
        }
        for more in [1, 31, 32, 33, 64, 256, 384] {
            let behind = claim.holds_with(|claim| claim.proof.extend(vec![0; more]));
            assert!(!behind, "{more} bytes behind {claim:02x?}");
            let before = claim.holds_with(|claim| {
                claim.proof.splice(..0, vec![0; more]);
            });
            assert!(!before, "{more} bytes before {claim:02x?}");
        }
        for lost in 0..proof.len() / 32 {
            let fewer = claim.holds_with(|claim| {
                claim.proof.drain(32 * lost..32 * lost + 32);
            });
            assert!(!fewer, "without digest {lost}: {claim:02x?}");
        }
    }
}

/// The path has one digest more, and the root is the one above it.
#[test]
fn a_longer_path_is_refused_though_all_of_it_folds_to_the_root() {
    let mut random = Random::new(5);
    let mut claims = claims(1..=33, &mut random);
    claims.extend(long_claims(&mut random));
    for mut claim in claims {
        let sibling = random.digest();
        claim.proof.extend(sibling);
        for above in claim.roots_above(&sibling) {
            let more = claim.holds_with(|claim| claim.root = above.to_vec());
            assert!(!more, "{} of {}", claim.i, claim.n);
        }
    }
}

#[test]
fn digests_in_another_order_are_refused() {
    for claim in claims([3, 4, 7, 8, 22, 40], &mut Random::new(6)) {
        let digests: Vec<_> = claim.proof.chunks(32).map(<[u8]>::to_vec).collect();
        for one in 0..digests.len() {
            for other in one + 1..digests.len() {
                let mut swapped = digests.clone();
                swapped.swap(one, other);
                let swapped = claim.holds_with(|claim| claim.proof = swapped.concat());
                assert!(!swapped, "{one} and {other} of {claim:02x?}");
            }
        }
        let turned: Vec<_> = digests.iter().rev().cloned().collect();
        let turned = claim.holds_with(|claim| claim.proof = turned.concat());
        assert!(!turned || digests.len() < 2, "{claim:02x?}");
    }
}

#[test]
fn another_index_is_refused() {
    for claim in claims([1, 2, 3, 7, 8, 22, 33], &mut Random::new(7)) {
        for other in (0..=claim.n + 2).filter(|&other| other != claim.i) {
            let moved = claim.holds_with(|claim| claim.i = other);
            assert!(!moved, "{other} for {claim:02x?}");
        }
    }
}

/// Two trees can have one path to a leaf: value 1 of 3 and of 4 has digests on the same sides.
/// Since all nodes have one tag, also value 3 of 3 has the path of value 2 of 2, but it is another
/// value.
#[test]
fn another_count_is_refused_unless_its_path_has_the_same_sides() {
    let mut random = Random::new(8);
    let (mut same, mut refused) = (0, 0);
    for claim in claims([1, 2, 3, 4, 7, 8, 22], &mut random) {
        for other in (0..=70).filter(|&other| other != claim.n) {
            match claim.holds_with(|claim| claim.n = other) {
                true => same += 1,
                false => refused += 1,
            }
        }
    }
    assert!(same > 10 && refused > 1_000, "{same}, {refused}");
    let log = logs::log(4, &mut random);
    let claim = |i| Claim::rfc6962(log.values(), i);
    assert!(claim(1).holds_with(|claim| claim.n = 3));
    assert!(!claim(3).holds_with(|claim| claim.n = 3));
    assert!(!claim(1).holds_with(|claim| claim.n = 5));
    let last_of_three = Claim::rfc6962(&log.values()[..3], 3);
    let second_of_two = |claim: &mut Claim| (claim.n, claim.i) = (2, 2);
    assert!(last_of_three.holds_with(second_of_two));
}

#[test]
fn the_root_or_the_path_of_fewer_values_is_refused() {
    let log = logs::log(20, &mut Random::new(9));
    for n in 2..=20 {
        for i in 1..=n {
            let new = Claim::rfc6962(&log.values()[..n], i);
            for earlier in i..n {
                let old = Claim::rfc6962(&log.values()[..earlier], i);
                let old_root = new.holds_with(|claim| claim.root = old.root.clone());
                assert!(!old_root, "{i} of {n}, root of {earlier}");
                let old_path = new.holds_with(|claim| claim.proof = old.proof.clone());
                assert!(!old_path, "{i} of {n}, path of {earlier}");
            }
        }
    }
}

#[test]
fn another_value_of_the_same_log_is_refused() {
    let mut random = Random::new(10);
    for n in 2..=16 {
        let log = logs::taps(n, &mut random);
        for i in 1..=n {
            let claim = Claim::rfc6962(log.values(), i);
            for other in (1..=n).filter(|&other| other != i) {
                let taken = claim.holds_with(|claim| claim.item = log.value(other).to_vec());
                assert!(!taken, "{other} for {i} of {n}");
            }
        }
    }
}

/// The root is the one that the item folds to, so nothing else is wrong.
#[test]
fn what_is_no_value_item_is_refused_though_it_folds_to_the_root() {
    let mut random = Random::new(11);
    for item in refused::no_values() {
        for (n, i) in [(1, 1), (2, 1), (7, 5), (4_096, 4_096)] {
            let claim = folded(n, i, item.clone(), &mut random);
            assert!(!claim.holds(), "{claim:02x?}");
        }
    }
    for kind in item::VALUES {
        let item = logs::value_of(kind, &mut random);
        let claim = folded(1, 1, item, &mut random);
        assert_eq!(claim.root, leaf_hash(&claim.item));
        assert!(claim.holds(), "{claim:02x?}");
    }
}

/// The paths of trees of more than 4,096 values, whose roots they fold to.
#[test]
fn more_than_4096_values_are_refused_though_the_path_folds_to_the_root() {
    let mut random = Random::new(12);
    for n in [4_095, 4_096, 4_097, 4_098, 5_000, 8_191, 8_192, 1 << 20] {
        for i in [1, 2, 4_096, 4_097, n].into_iter().filter(|&i| i <= n) {
            let item = logs::value(&mut random);
            let claim = folded(n, i, item, &mut random);
            assert_eq!(claim.holds(), n <= 4_096, "{claim:02x?}");
        }
    }
}

#[test]
fn index_0_and_indexes_above_n_are_refused_whatever_the_length_of_the_path() {
    let mut random = Random::new(13);
    for n in [0, 1, 2, 3, 7, 8, 4_095, 4_096, 4_097] {
        for i in [0, n + 1, n + 2, 2 * n + 1, 4_097, usize::MAX] {
            for digests in 0..=14 {
                let item = logs::value(&mut random);
                let claim = Claim {
                    edition: Edition::Rfc6962,
                    n,
                    i,
                    root: leaf_hash(&item).to_vec(),
                    proof: random.bytes(32 * digests),
                    item,
                };
                assert!(!claim.holds(), "{claim:02x?}");
            }
        }
    }
}

#[test]
fn no_lower_32_bits_of_count_or_index_are_taken_for_it() {
    for claim in claims([1, 2, 7], &mut Random::new(14)) {
        for high in [1 << 32, 1 << 33, 1 << 48, 1 << 63, !0 << 32] {
            let case = || format!("{high:#x}: {claim:02x?}");
            assert!(!claim.holds_with(|claim| claim.n += high), "{}", case());
            assert!(!claim.holds_with(|claim| claim.i += high), "{}", case());
            let both = claim.holds_with(|claim| {
                claim.n += high;
                claim.i += high;
            });
            assert!(!both, "{}", case());
        }
    }
}

/// The bytes behind a root that is cut short are those that it would have.
#[test]
fn a_root_that_has_not_32_bytes_is_refused_whatever_it_begins_with() {
    for claim in claims([1, 2, 7, 8], &mut Random::new(15)) {
        let memory = [&claim.root[..], &claim.root, &[0; 300]].concat();
        for len in [0, 1, 8, 31, 33, 63, 64, 65, 288, 364] {
            let other = claim.holds_with(|claim| claim.root = memory[..len].to_vec());
            assert!(!other, "{len} bytes: {claim:02x?}");
            let Claim { n, i, .. } = claim;
            let (item, path) = (&claim.item, &claim.proof);
            let short = ringlog::rfc6962_check_path(n, i, item, path, &memory[..len]);
            assert!(!short, "{len} bytes: {claim:02x?}");
        }
    }
}

/// The bytes begin with those that would be right, and their number has the lower 32 bits that it
/// would have.
#[test]
fn no_lower_32_bits_of_a_length_are_taken_for_it() {
    let claim = Claim::rfc6962(&numbered_values(5), 2);
    let Claim {
        n,
        i,
        item,
        proof,
        root,
        ..
    } = &claim;
    let check = |item: &[u8], path: &[u8], root: &[u8]| {
        ringlog::rfc6962_check_path(*n, *i, item, path, root)
    };
    assert!(check(item, proof, root));
    assert!(!check(far_longer(item), proof, root));
    assert!(!check(item, far_longer(proof), root));
    assert!(!check(item, proof, far_longer(root)));
}

/// One and two values have the same root in both editions, and up to four the same paths.
#[test]
fn the_first_editions_root_and_proof_are_refused_where_they_are_other_ones() {
    let log = logs::log(40, &mut Random::new(16));
    for n in 1..=40 {
        let mut log = Log::of(&log.values()[..n]);
        for i in 1..=n {
            let first = Claim::of(&mut log, i);
            let claim = Claim::rfc6962(log.values(), i);
            let with_root = claim.holds_with(|claim| claim.root = first.root.clone());
            assert_eq!(with_root, n <= 2, "{i} of {n}");
            let with_proof = claim.holds_with(|claim| claim.proof = first.proof.clone());
            assert_eq!(with_proof, first.proof == claim.proof, "{i} of {n}");
            let all_of_it = Claim {
                edition: Edition::Rfc6962,
                ..first.clone()
            };
            assert_eq!(all_of_it.holds(), n <= 2, "{i} of {n}");
            // Nor does the first edition take what holds in this one.
            let in_first = Claim {
                edition: Edition::First,
                ..claim.clone()
            };
            assert_eq!(in_first.holds(), n <= 2, "{i} of {n}");
        }
    }
}

/// Each part of a claim right or wrong, all with all: yes only where all is right.
#[test]
fn a_claim_is_accepted_exactly_when_all_of_it_is_right() {
    for claim in claims([1, 2, 5, 8], &mut Random::new(17)) {
        for wrong in 0..32 {
            let answer = claim.holds_with(|claim| {
                if wrong & 1 != 0 {
                    claim.i = claim.n + 1;
                }
                if wrong & 2 != 0 {
                    claim.n += 4_096;
                }
                if wrong & 4 != 0 {
                    claim.item.push(0);
                }
                if wrong & 8 != 0 {
                    claim.proof.push(0);
                }
                if wrong & 16 != 0 {
                    claim.root.push(0);
                }
            });
            assert_eq!(answer, wrong == 0, "{wrong:#b}: {claim:02x?}");
        }
    }
}

/// The path is as long as it must be for another number of values, whose hops are more or fewer.
#[test]
fn random_claims_of_another_count_or_index_get_what_the_model_gives() {
    let mut random = Random::new(18);
    let mut met = [0; 2];
    for _ in 0..10_000 {
        let n = 1 + random.up_to(39);
        let i = 1 + random.up_to(n - 1);
        let item = logs::value(&mut random);
        let mut claim = folded(n, i, item, &mut random);
        claim.n = 1 + random.up_to(39);
        claim.i = 1 + random.up_to(claim.n - 1);
        if random.up_to(1) == 0 {
            claim.proof.resize(32 * hops(claim.n, claim.i), 0);
        }
        met[usize::from(claim.holds())] += 1;
    }
    assert!(met[0] > 5_000 && met[1] > 100, "{met:?}");
}
