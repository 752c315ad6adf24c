//! The inclusion path of the RFC 6962 edition: PATH(i - 1, D[n]) over the log's value items, the
//! digest next to the leaf first, and every other byte of the output as it was.

use ringlog_tests::answers::{done, refusal};
use ringlog_tests::logs::{self, SHEET_HOPS};
use ringlog_tests::long;
use ringlog_tests::makers::Maker;
use ringlog_tests::model::inclusion::hops;
use ringlog_tests::model::rfc6962::{leaf_hash, mth, path};
use ringlog_tests::model::Log;
use ringlog_tests::random::Random;
use ringlog_tests::refused::FAR_ABOVE;
use ringlog_tests::ringlog::{self, Part};

/// The length of the longest path: 12 digests.
const LONGEST_PATH: usize = 384;

/// Holds the path of value i of the first n values of a log to the RFC's, and to the checker.
fn assert_path(log: &Log, n: usize, i: usize) {
    let values = &log.values()[..n];
    let mut output = [0x5a; LONGEST_PATH + 1];
    let answer = ringlog::rfc6962_path(log.beginning(n), i, &mut output);
    assert_eq!(answer, done(32 * hops(n, i)), "{i} of {n}");
    let (written, rest) = output.split_at(answer.value as usize);
    assert_eq!(written, path(i - 1, values).concat(), "{i} of {n}");
    assert!(rest.iter().all(|&byte| byte == 0x5a), "{i} of {n}");
    let root = mth(values);
    let accepted = ringlog::rfc6962_check_path(n, i, log.value(i), written, &root);
    assert!(accepted, "{i} of {n}");
}

#[test]
fn every_path_of_every_log_of_1_to_40_values_is_the_rfcs_and_is_accepted() {
    let mut random = Random::new(1);
    let log = logs::log(40, &mut random);
    for n in 1..=40 {
        for i in 1..=n {
            assert_path(&log, n, i);
            let case = || format!("{n} values");
            Maker::Path.make(log.beginning(n), i, LONGEST_PATH, case);
        }
    }
}

#[test]
fn paths_of_long_logs_are_the_rfcs_and_are_accepted() {
    let log = long::whole();
    for n in [255, 256, 257, 1_000, 2_048, 2_049] {
        for i in [1, 2, n / 2, n / 2 + 1, n - 1, n] {
            assert_path(log, n, i);
        }
    }
    for n in [4_095, 4_096] {
        for i in [1, 1_366, 2_047, 2_048, 2_049, 3_000, n - 1, n] {
            assert_path(log, n, i);
        }
    }
}

/// Indexes are counted from 1: the path of the first value is that of d(0).
#[test]
fn index_1_is_the_first_value_and_index_n_the_last() {
    let log = logs::log(3, &mut Random::new(2));
    let [one, two, three] = [1, 2, 3].map(|i| leaf_hash(log.value(i)));
    let made = |i| {
        let case = || "3 values".to_string();
        Maker::Path.make(log.bytes(), i, LONGEST_PATH, case).1
    };
    assert_eq!(made(1), [two, three].concat());
    assert_eq!(made(2), [one, three].concat());
    assert_eq!(made(3), mth(&log.values()[..2]));
}

#[test]
fn paths_have_the_hops_of_the_bench_sheet() {
    let log = long::whole();
    for (n, i, hops) in SHEET_HOPS {
        let mut output = [0; LONGEST_PATH];
        let answer = ringlog::rfc6962_path(log.beginning(n), i, &mut output);
        assert_eq!(answer, done(32 * hops), "{i} of {n}");
    }
}

#[test]
fn the_path_of_one_value_has_no_bytes_and_an_empty_output_is_enough() {
    let log = logs::log(1, &mut Random::new(3));
    for len in [0, 1, 32, 100] {
        let case = || "one value".to_string();
        let made = Maker::Path.make(log.bytes(), 1, len, case);
        assert_eq!(made, (done(0), Vec::new()), "{len} bytes");
    }
}

#[test]
fn an_index_of_0_or_above_n_gives_2_also_on_an_empty_log_and_without_room() {
    let log = logs::log(12, &mut Random::new(4));
    for n in 0..=12 {
        for outside in [0, n + 1, n + 2].into_iter().chain(FAR_ABOVE) {
            for len in [0, 31, LONGEST_PATH] {
                let case = || format!("{n} values");
                let (answer, _) = Maker::Path.make(log.beginning(n), outside, len, case);
                assert_eq!(answer, refusal(2), "{outside} of {n}");
            }
        }
    }
}

#[test]
fn room_exactly_is_enough_and_a_byte_less_gives_8_and_the_rest_of_the_output_stays() {
    let log = logs::log(22, &mut Random::new(5));
    for n in [1, 2, 3, 7, 8, 22] {
        for i in 1..=n {
            let need = 32 * hops(n, i);
            for len in (0..=need + 2).chain([need + 32, need + 100]) {
                let case = || format!("{n} values");
                let (answer, _) = Maker::Path.make(log.beginning(n), i, len, case);
                let expected = if len < need { refusal(8) } else { done(need) };
                assert_eq!(answer, expected, "{i} of {n} into {len} bytes");
            }
        }
    }
}

/// Siblings that are leaves, or nodes of two leaves, have one digest in both editions. No others have.
#[test]
fn the_path_is_the_first_editions_proof_exactly_where_no_sibling_is_higher_than_1() {
    let log = logs::log(40, &mut Random::new(6));
    let mut same = Vec::new();
    for n in 1..=40 {
        for i in 1..=n {
            let (mut first, mut second) = ([0; LONGEST_PATH], [0; LONGEST_PATH]);
            let counts = [
                ringlog::proof(log.beginning(n), i, &mut first),
                ringlog::rfc6962_path(log.beginning(n), i, &mut second),
            ];
            assert_eq!(counts, [done(32 * hops(n, i)); 2], "{i} of {n}");
            if first == second {
                same.push((n, i));
            }
        }
    }
    let up_to_four = (1..=4).flat_map(|n| (1..=n).map(move |i| (n, i)));
    let of_five_and_six = (1..=4).flat_map(|i| [(5, i), (6, i)]);
    let mut expected: Vec<_> = up_to_four.chain(of_five_and_six).collect();
    expected.sort_unstable();
    assert_eq!(same, expected);
}

/// Each value is read by the first edition, and proved by both: to be value i, and no other.
#[test]
fn the_two_editions_prove_the_same_values_at_the_same_indexes() {
    let log = logs::log(20, &mut Random::new(7));
    for n in 1..=20 {
        let log = log.beginning(n);
        let roots = [ringlog::root(log), ringlog::rfc6962_root(log)].map(|root| root.digest);
        for i in 1..=n {
            let (mut proof, mut path) = ([0; LONGEST_PATH], [0; LONGEST_PATH]);
            ringlog::proof(log, i, &mut proof);
            let len = ringlog::rfc6962_path(log, i, &mut path).value as usize;
            for j in 1..=n {
                let Part { offset, length, .. } = ringlog::value(log, &roots[0], j);
                let item = &log[offset as usize..][..length as usize];
                let proved = [
                    ringlog::check_proof(n, i, item, &proof[..len], &roots[0]),
                    ringlog::rfc6962_check_path(n, i, item, &path[..len], &roots[1]),
                ];
                assert_eq!(proved, [i == j; 2], "value {j} as {i} of {n}");
            }
        }
    }
}
