//! The root of the RFC 6962 edition: the Merkle Tree Hash of the log's value items, and on any
//! bytes what the model answers.

use ringlog_tests::far::{Far, LIMIT};
use ringlog_tests::hex::hex;
use ringlog_tests::logs::{self, numbered_values, LONG};
use ringlog_tests::memory::lend_beginnings;
use ringlog_tests::model::rfc6962::{leaf_hash, mth};
use ringlog_tests::model::Log;
use ringlog_tests::random::Random;
use ringlog_tests::ringlog::{self, Digest};
use ringlog_tests::{forged, model};

const REFUSED: Digest = Digest {
    number: 6,
    digest: [0; 32],
};

fn answered(digest: [u8; 32]) -> Digest {
    Ok(digest).into()
}

/// The root of any bytes, held to the model's.
fn root(bytes: &[u8], case: impl Fn() -> String) -> Digest {
    let expected = model::rfc6962_root(bytes).into();
    assert_eq!(ringlog::rfc6962_root(bytes), expected, "{}", case());
    expected
}

#[test]
fn the_root_of_an_empty_log_is_the_digest_of_no_bytes_and_no_refusal() {
    let Digest { number, digest } = ringlog::rfc6962_root(&[]);
    let of_no_bytes = "e3b0c44298fc1c149afbf4c8996fb92427ae41e4649b934ca495991b7852b855";
    assert_eq!((number, &hex(&digest)[..]), (0, of_no_bytes));
}

#[test]
fn the_root_of_one_value_is_the_digest_of_0x00_and_the_value_item() {
    let mut random = Random::new(1);
    for _ in 0..100 {
        let value = logs::value(&mut random);
        let digest = model::sha256(&[&[0x00], &value[..]].concat());
        let log = Log::of(&[&value]);
        assert_eq!(ringlog::rfc6962_root(log.bytes()), answered(digest));
    }
}

#[test]
fn every_node_is_the_digest_of_0x01_and_the_two_below_it() {
    let values = numbered_values(3);
    let node = |left: [u8; 32], right: [u8; 32]| {
        let input = [&[0x01][..], &left, &right].concat();
        model::sha256(&input)
    };
    let [one, two, three] = [0, 1, 2].map(|at: usize| leaf_hash(&values[at]));
    let of_two = node(one, two);
    let log = Log::of(&values);
    assert_eq!(ringlog::rfc6962_root(log.beginning(2)), answered(of_two));
    let of_three = node(of_two, three);
    assert_eq!(ringlog::rfc6962_root(log.bytes()), answered(of_three));
}

#[test]
fn the_root_of_every_log_of_1_to_300_values_is_their_merkle_tree_hash() {
    let mut random = Random::new(2);
    let log = logs::log(300, &mut random);
    let mut roots = Vec::new();
    for n in 1..=300 {
        let answer = ringlog::rfc6962_root(log.beginning(n));
        assert_eq!(answer, answered(mth(&log.values()[..n])), "{n} values");
        roots.push(answer.digest);
    }
    roots.sort_unstable();
    roots.dedup();
    assert_eq!(roots.len(), 300);
}

#[test]
fn the_roots_of_long_logs_are_their_merkle_tree_hashes_up_to_4096_values_and_4097_are_no_log() {
    let mut random = Random::new(3);
    let log = logs::log(4_097, &mut random);
    for n in LONG.into_iter().chain([4_094, 4_096]) {
        let answer = ringlog::rfc6962_root(log.beginning(n));
        assert_eq!(answer, answered(mth(&log.values()[..n])), "{n} values");
    }
    assert_eq!(ringlog::rfc6962_root(log.bytes()), REFUSED);
}

#[test]
fn the_root_of_4096_taps_and_of_as_many_tickets_is_their_merkle_tree_hash() {
    let mut random = Random::new(4);
    for log in [
        logs::taps(4_096, &mut random),
        logs::tickets(4_096, &mut random),
    ] {
        let answer = ringlog::rfc6962_root(log.bytes());
        assert_eq!(answer, answered(mth(log.values())));
    }
}

/// Of no values both have SHA-256 of no bytes. A leaf has one tag in both editions, and the tag of a
/// node is 0x01 in the first one too where its height is 1. From three values on a higher node is the
/// root.
#[test]
fn the_two_editions_have_one_root_for_up_to_two_values_and_for_more_two_roots() {
    let mut random = Random::new(5);
    let log = logs::log(100, &mut random);
    for n in 0..=100 {
        let log = log.beginning(n);
        let (first, second) = (ringlog::root(log), ringlog::rfc6962_root(log));
        assert_eq!((first.number, second.number), (0, 0), "{n} values");
        assert_eq!(first == second, n <= 2, "{n} values");
    }
}

#[test]
fn the_root_follows_every_value_and_their_order() {
    let mut random = Random::new(6);
    for n in 1..=33 {
        let log = logs::log(n, &mut random);
        let root = ringlog::rfc6962_root(log.bytes());
        for i in 0..n {
            let mut values = log.values().to_vec();
            let last = values[i].len() - 1;
            values[i][1 + random.up_to(last - 1)] ^= 1 << random.up_to(7);
            let other = ringlog::rfc6962_root(Log::of(&values).bytes());
            assert_ne!(other, root, "value {} of {n}", i + 1);
            let mut values = log.values().to_vec();
            values.swap(i, (i + 1) % n);
            let other = ringlog::rfc6962_root(Log::of(&values).bytes());
            assert_eq!(other == root, n == 1, "value {} of {n} moved", i + 1);
        }
    }
}

#[test]
fn whole_torn_bent_and_forged_logs_give_what_the_model_gives() {
    let mut random = Random::new(7);
    let mut met = [0; 7];
    for round in 0..5_000 {
        let most = if round % 8 == 0 { 70 } else { 12 };
        let log = match round % 3 {
            0 => logs::log(random.up_to(most), &mut random).bytes().to_vec(),
            _ => forged::any(most, &mut random),
        };
        let answer = root(&log, || format!("round {round}: {log:02x?}"));
        met[answer.number as usize] += 1;
    }
    assert!(met[0] > 1_000 && met[6] > 1_000, "{met:?}");
}

/// The lower 32 bits of the length are those of a log, and the bytes begin with that log.
#[test]
fn a_length_above_2_to_the_32_is_not_taken_for_its_lower_32_bits() {
    let log = logs::log(2, &mut Random::new(8));
    let far = Far::of(&log);
    let first = log.end(1);
    assert_eq!(ringlog::rfc6962_root(&far.buffer[..first]).number, 0);
    assert_eq!(ringlog::rfc6962_root(&far.buffer[..LIMIT]), REFUSED);
    assert_eq!(ringlog::rfc6962_root(&far.buffer[..LIMIT + first]), REFUSED);
}

#[test]
fn the_root_changes_no_byte_and_looks_at_none_around() {
    let log = logs::log(9, &mut Random::new(9));
    lend_beginnings(log.bytes(), &[0x00, 0x01, 0x30, 0xff], |log, case| {
        root(log, case);
    });
}
