//! The consistency proof of the RFC 6962 edition: PROOF(m, D[n]) over the log's value items, in the
//! RFC's order, and every other byte of the output as it was.

use ringlog_tests::answers::{done, refusal};
use ringlog_tests::logs;
use ringlog_tests::makers::{Maker, LONGEST};
use ringlog_tests::model::rfc6962::{leaf_hash, mth, proof};
use ringlog_tests::model::rfc6962_checks::proof_len;
use ringlog_tests::model::Log;
use ringlog_tests::random::Random;
use ringlog_tests::refused::FAR_ABOVE;
use ringlog_tests::{long, ringlog};

/// Holds the proof from m to n values of a log to the RFC's, and to the checker.
fn assert_consistent(log: &Log, m: usize, n: usize) {
    let values = &log.values()[..n];
    let mut output = [0x5a; LONGEST + 1];
    let answer = ringlog::rfc6962_consistency(log.beginning(n), m, &mut output);
    assert_eq!(answer, done(32 * proof_len(m, n)), "{m} to {n}");
    let (written, rest) = output.split_at(answer.value as usize);
    assert_eq!(written, proof(m, values).concat(), "{m} to {n}");
    assert!(rest.iter().all(|&byte| byte == 0x5a), "{m} to {n}");
    let (old_root, new_root) = (mth(&values[..m]), mth(values));
    let accepted = ringlog::rfc6962_check_consistency(m, n, written, &old_root, &new_root);
    assert!(accepted, "{m} to {n}");
}

#[test]
fn the_proof_of_every_m_up_to_every_n_up_to_40_is_the_rfcs_and_is_accepted() {
    let log = logs::log(40, &mut Random::new(1));
    for n in 1..=40 {
        for m in 1..=n {
            assert_consistent(&log, m, n);
            let case = || format!("{n} values");
            Maker::Consistency.make(log.beginning(n), m, LONGEST, case);
        }
    }
}

#[test]
fn proofs_of_long_logs_are_the_rfcs_and_are_accepted() {
    let log = long::whole();
    for n in [255, 256, 257, 1_000, 2_048, 2_049] {
        for m in [1, 3, 128, n / 2, n / 2 + 1, n - 1, n] {
            assert_consistent(log, m, n);
        }
    }
    for n in [4_095, 4_096] {
        for m in [1, 3, 1_366, 2_047, 2_048, 2_049, 3_000, 4_094, 4_095, n] {
            assert_consistent(log, m, n);
        }
    }
}

/// What the library writes for m of n values of a log.
fn made(log: &Log, m: usize, n: usize) -> Vec<u8> {
    let case = || format!("{n} values");
    Maker::Consistency
        .make(log.beginning(n), m, LONGEST, case)
        .1
}

/// The example of the RFC's section 2.1.3, with its names for the nodes.
#[test]
fn the_proofs_to_seven_values_have_the_digests_of_section_2_1_3_in_that_order() {
    let log = logs::log(7, &mut Random::new(2));
    let d = log.values();
    let [c, d3, j] = [3, 4, 7].map(|i| leaf_hash(log.value(i)));
    let (g, i, k, l) = (mth(&d[0..2]), mth(&d[4..6]), mth(&d[0..4]), mth(&d[4..7]));
    assert_eq!(made(&log, 3, 7), [c, d3, g, l].concat());
    assert_eq!(made(&log, 4, 7), l);
    assert_eq!(made(&log, 6, 7), [i, j, k].concat());
}

/// Six values end with a subtree of eight that is not theirs alone: its digest is not omitted.
#[test]
fn the_proof_from_six_to_eight_values_has_three_digests_the_innermost_first() {
    let log = logs::log(8, &mut Random::new(3));
    let d = log.values();
    let expected = [mth(&d[4..6]), mth(&d[6..8]), mth(&d[0..4])].concat();
    assert_eq!(made(&log, 6, 8), expected);
}

#[test]
fn the_proof_from_all_values_has_no_bytes_and_an_empty_output_is_enough() {
    let log = logs::log(33, &mut Random::new(4));
    for n in 1..=33 {
        for len in [0, 1, 32, 100] {
            let case = || format!("{n} values");
            let made = Maker::Consistency.make(log.beginning(n), n, len, case);
            assert_eq!(made, (done(0), Vec::new()), "{n} into {len} bytes");
        }
    }
}

#[test]
fn the_proof_from_a_power_of_two_omits_the_old_root() {
    let log = logs::log(40, &mut Random::new(5));
    for n in 1..=40 {
        for m in 1..n {
            let old_root = mth(&log.values()[..m]);
            let proof = made(&log, m, n);
            let mut digests = proof.chunks(32);
            assert!(digests.all(|digest| digest != old_root), "{m} to {n}");
        }
        let omitted = |p: u32| (1 << p) < n;
        for m in (0..6).filter(|&p| omitted(p)).map(|p| 1 << p) {
            // What is beside the old tree stands first.
            let next = &log.values()[m..n.min(2 * m)];
            assert_eq!(made(&log, m, n)[..32], mth(next), "{m} to {n}");
        }
    }
}

#[test]
fn an_m_of_0_or_above_n_gives_2_also_on_an_empty_log_and_without_room() {
    let log = logs::log(12, &mut Random::new(6));
    for n in 0..=12 {
        for outside in [0, n + 1, n + 2].into_iter().chain(FAR_ABOVE) {
            for len in [0, 31, LONGEST] {
                let case = || format!("{n} values");
                let (answer, _) = Maker::Consistency.make(log.beginning(n), outside, len, case);
                assert_eq!(answer, refusal(2), "{outside} to {n}");
            }
        }
    }
}

#[test]
fn room_exactly_is_enough_and_a_byte_less_gives_8_and_the_rest_of_the_output_stays() {
    let log = logs::log(22, &mut Random::new(7));
    for n in [1, 2, 3, 7, 8, 22] {
        for m in 1..=n {
            let need = 32 * proof_len(m, n);
            for len in (0..=need + 2).chain([need + 32, need + 100]) {
                let case = || format!("{n} values");
                let (answer, _) = Maker::Consistency.make(log.beginning(n), m, len, case);
                let expected = if len < need { refusal(8) } else { done(need) };
                assert_eq!(answer, expected, "{m} to {n} into {len} bytes");
            }
        }
    }
}

/// 13 digests of 4,096 values, and of 4,095, from three.
#[test]
fn the_longest_proof_has_416_bytes_and_415_are_not_enough() {
    for n in [4_095, 4_096] {
        let log = long::whole().beginning(n);
        let mut output = [0x5a; LONGEST];
        let short = &mut output[..LONGEST - 1];
        assert_eq!(ringlog::rfc6962_consistency(log, 3, short), refusal(8));
        assert_eq!(output, [0x5a; LONGEST], "{n} values");
        let answer = ringlog::rfc6962_consistency(log, 3, &mut output);
        assert_eq!(answer, done(LONGEST), "{n} values");
    }
}
