//! The consistency check of the RFC 6962 edition: yes exactly when 1 ≤ m ≤ n ≤ 4,096, the roots have
//! 32 bytes, both come out of the proof by the RFC's subproof rule and no byte is left over. Each
//! answer is held to the model's. Here are what is accepted, and the two counts.

use ringlog_tests::consistency::Consistency;
use ringlog_tests::logs::{numbered_values, MASKS};
use ringlog_tests::long;
use ringlog_tests::model::rfc6962::mth;
use ringlog_tests::model::rfc6962_checks::proof_len;
use ringlog_tests::model::sha256;
use ringlog_tests::random::Random;

/// A power of two from 1 to n, n at most 4,096.
fn power_up_to(n: usize, random: &mut Random) -> usize {
    let powers: Vec<_> = (0..=12).map(|p| 1 << p).filter(|&k| k <= n).collect();
    *random.one_of(&powers)
}

#[test]
fn the_proof_of_every_m_up_to_every_n_up_to_40_is_accepted() {
    for claim in Consistency::up_to(40, &mut Random::new(1)) {
        assert!(claim.holds(), "{claim:02x?}");
    }
}

#[test]
fn proofs_to_4095_and_4096_values_are_accepted_and_to_4097_are_not() {
    let values = long::whole().values();
    for n in [4_095, 4_096, 4_097] {
        for m in [1, 2, 3, 2_047, 2_048, 2_049, 4_094, 4_095, 4_096, 4_097] {
            if m <= n {
                let claim = Consistency::of(&values[..n], m);
                assert_eq!(claim.holds(), n <= 4_096, "{m} to {n}");
            }
        }
    }
}

#[test]
fn whatever_gives_both_roots_is_accepted_for_every_n_up_to_4096() {
    let mut random = Random::new(2);
    for n in 1..=4_096 {
        let power = power_up_to(n, &mut random);
        for m in [1, n, power, n - n / 2, 1 + random.up_to(n - 1)] {
            let claim = Consistency::folded(m, n, &mut random);
            assert!(claim.holds(), "{claim:02x?}");
            let old = claim.holds_with(|claim| claim.old_root[n % 32] ^= 0x10);
            assert!(!old, "another old root: {claim:02x?}");
            let new = claim.holds_with(|claim| claim.new_root[n % 32] ^= 0x10);
            assert!(!new, "another new root: {claim:02x?}");
        }
    }
}

#[test]
fn another_old_count_is_refused() {
    for claim in Consistency::up_to(40, &mut Random::new(3)) {
        for other in (0..=claim.n + 2).filter(|&other| other != claim.m) {
            let moved = claim.holds_with(|claim| claim.m = other);
            assert!(!moved, "{other} for {claim:02x?}");
        }
    }
}

/// Two trees can have one proof: from 2 values to 3 and to 4 there is one digest, on the right.
/// Then the roots cannot tell the counts apart, and nothing else is asked.
#[test]
fn another_new_count_is_refused_unless_its_proof_has_the_same_sides() {
    let mut random = Random::new(4);
    let (mut same, mut refused) = (0, 0);
    for claim in Consistency::up_to(24, &mut random) {
        for other in (0..=45).filter(|&other| other != claim.n) {
            match claim.holds_with(|claim| claim.n = other) {
                true => same += 1,
                false => refused += 1,
            }
        }
    }
    assert!(same > 100 && refused > 5_000, "{same}, {refused}");
    let claim = Consistency::of(&numbered_values(4), 2);
    assert!(claim.holds_with(|claim| claim.n = 3));
    assert!(!claim.holds_with(|claim| claim.n = 2));
    assert!(!claim.holds_with(|claim| claim.n = 5));
}

#[test]
fn any_two_other_counts_get_what_the_model_gives() {
    let mut random = Random::new(5);
    for claim in Consistency::up_to(12, &mut random) {
        for n in 0..=14 {
            for m in 0..=15 {
                claim.holds_with(|claim| (claim.m, claim.n) = (m, n));
            }
        }
    }
}

/// The proofs of trees of more than 4,096 values, from which both roots come out.
#[test]
fn more_than_4096_values_are_refused_though_both_roots_come_out() {
    let mut random = Random::new(6);
    for n in [4_095, 4_096, 4_097, 4_098, 5_000, 8_192, 1 << 20] {
        for m in [1, 2, 3, 4_095, 4_096, 4_097, n] {
            if m <= n {
                let claim = Consistency::folded(m, n, &mut random);
                assert_eq!(claim.holds(), n <= 4_096, "{claim:02x?}");
            }
        }
    }
}

/// Also with the root of no values, from which every list goes on.
#[test]
fn an_old_count_of_0_or_above_the_new_one_is_refused_whatever_the_proof_is() {
    let mut random = Random::new(7);
    for n in [0, 1, 2, 3, 7, 8, 4_095, 4_096, 4_097] {
        for m in [0, n + 1, n + 2, 2 * n + 1, 4_097, usize::MAX] {
            let root = random.digest();
            for old_root in [root, [0; 32], sha256(&[])] {
                for digests in 0..=14 {
                    let claim = Consistency {
                        m,
                        n,
                        proof: random.bytes(32 * digests),
                        old_root: old_root.to_vec(),
                        new_root: root.to_vec(),
                    };
                    assert!(!claim.holds(), "{claim:02x?}");
                }
            }
        }
    }
    let values = numbered_values(8);
    for n in 0..=8 {
        let root = mth(&values[..n]).to_vec();
        let claim = Consistency {
            m: 0,
            n,
            proof: Vec::new(),
            old_root: sha256(&[]).to_vec(),
            new_root: root.clone(),
        };
        assert!(!claim.holds(), "0 to {n}");
        let with_root = claim.holds_with(|claim| claim.proof = root.clone());
        assert!(!with_root, "0 to {n}");
    }
    // The other way round nothing holds either.
    for claim in Consistency::up_to(16, &mut random) {
        if claim.m < claim.n {
            let turned = claim.holds_with(|claim| {
                std::mem::swap(&mut claim.m, &mut claim.n);
                std::mem::swap(&mut claim.old_root, &mut claim.new_root);
            });
            assert!(!turned, "{claim:02x?}");
        }
    }
}

#[test]
fn no_lower_32_bits_of_a_count_are_taken_for_it() {
    for claim in Consistency::up_to(8, &mut Random::new(8)) {
        for high in [1 << 32, 1 << 33, 1 << 48, 1 << 63, !0 << 32] {
            let case = || format!("{high:#x}: {claim:02x?}");
            assert!(!claim.holds_with(|claim| claim.m += high), "{}", case());
            assert!(!claim.holds_with(|claim| claim.n += high), "{}", case());
            let both = claim.holds_with(|claim| {
                claim.m += high;
                claim.n += high;
            });
            assert!(!both, "{}", case());
        }
    }
}

#[test]
fn random_claims_that_are_bent_or_not_get_what_the_model_gives() {
    let mut random = Random::new(9);
    let mut met = [0; 2];
    for round in 0..20_000 {
        let n = 1 + random.up_to(if round % 2 == 0 { 20 } else { 4_095 });
        let m = match round % 3 {
            0 => power_up_to(n, &mut random),
            _ => 1 + random.up_to(n - 1),
        };
        let mut claim = Consistency::folded(m, n, &mut random);
        let at = random.up_to(31);
        match random.up_to(11) {
            0 => claim.n = m + random.up_to(4_099 - m),
            1 => claim.m = random.up_to(n + 1),
            2 => claim.n += 1,
            3 => claim.old_root[at] ^= MASKS[random.up_to(8)],
            4 => claim.new_root[at] ^= MASKS[random.up_to(8)],
            5 => {
                let len = random.up_to(450);
                claim.proof.resize(len, 0);
            }
            6 => {
                if let Some(byte) = claim.proof.get_mut(at) {
                    *byte ^= 0x01;
                }
            }
            7 => {
                claim.m = 1 + random.up_to(n - 1);
                claim.proof.resize(32 * proof_len(claim.m, n), 0);
            }
            _ => (),
        }
        met[usize::from(claim.holds())] += 1;
    }
    assert!(met[0] > 2_000 && met[1] > 2_000, "{met:?}");
}
