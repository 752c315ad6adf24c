//! The library's root: of a log, what the model works out from its values; of any bytes, the digest
//! that the model finds stored, or its refusal.

use ringlog_tests::bent::each_bent;
use ringlog_tests::far::{Far, LIMIT};
use ringlog_tests::hex::hex;
use ringlog_tests::logs;
use ringlog_tests::memory::lend_beginnings;
use ringlog_tests::model::Log;
use ringlog_tests::random::Random;
use ringlog_tests::ringlog::Digest;
use ringlog_tests::{model, refused, ringlog};

const REFUSED: Digest = Digest {
    number: 6,
    digest: [0; 32],
};

fn answered(digest: [u8; 32]) -> Digest {
    Ok(digest).into()
}

/// The root of any bytes, held to the model's.
fn root(bytes: &[u8], case: impl Fn() -> String) -> Digest {
    let expected = model::root(bytes).into();
    assert_eq!(ringlog::root(bytes), expected, "{}", case());
    expected
}

#[test]
fn the_root_of_an_empty_log_is_the_digest_of_no_bytes_and_no_refusal() {
    let Digest { number, digest } = ringlog::root(&[]);
    let of_no_bytes = "e3b0c44298fc1c149afbf4c8996fb92427ae41e4649b934ca495991b7852b855";
    assert_eq!((number, &hex(&digest)[..]), (0, of_no_bytes));
}

#[test]
fn the_root_of_one_value_is_the_digest_of_0x00_and_the_value() {
    let mut random = Random::new(1);
    for _ in 0..100 {
        let value = logs::value(&mut random);
        let digest = model::sha256(&[&[0x00], &value[..]].concat());
        let log = Log::of(&[&value]);
        assert_eq!(ringlog::root(log.bytes()), answered(digest), "{value:02x?}");
    }
}

#[test]
fn the_root_of_every_log_of_1_to_1000_values_follows_from_the_values() {
    let mut random = Random::new(2);
    let mut log = Log::default();
    let mut roots = Vec::new();
    for n in 1..=1_000 {
        log.push(&logs::value(&mut random));
        let answer = ringlog::root(log.bytes());
        assert_eq!(answer, answered(log.root()), "{n} values");
        roots.push(answer.digest);
    }
    roots.sort_unstable();
    roots.dedup();
    assert_eq!(roots.len(), 1_000);
}

#[test]
fn the_root_of_4095_and_of_4096_tickets_follows_from_the_values_and_4097_do_not_open() {
    let mut random = Random::new(3);
    let mut log = logs::tickets(4_095, &mut random);
    assert_eq!(ringlog::root(log.bytes()), answered(log.root()));
    log.push(&logs::value(&mut random));
    assert_eq!(ringlog::root(log.bytes()), answered(log.root()));
    log.push(&logs::value(&mut random));
    assert_eq!(ringlog::root(log.bytes()), REFUSED);
}

#[test]
fn a_beginning_of_a_log_opens_exactly_where_an_entry_ends() {
    let mut random = Random::new(4);
    let log = logs::log(40, &mut random);
    for len in 1..=log.bytes().len() {
        let answer = root(&log.bytes()[..len], || format!("{len} bytes"));
        let ends = log.starts().contains(&len) || len == log.bytes().len();
        assert_eq!(answer.number, if ends { 0 } else { 6 }, "{len} bytes");
    }
}

#[test]
fn every_single_bent_byte_gives_what_the_model_gives() {
    let mut random = Random::new(5);
    let (mut opened, mut refused) = (0, 0);
    for n in 1..=20 {
        let log = logs::log(n, &mut random);
        each_bent(log.bytes(), |bytes, bent| {
            match root(bytes, || format!("{n} values, {bent}")).number {
                0 => opened += 1,
                _ => refused += 1,
            }
        });
    }
    assert!(opened > 1_000 && refused > 1_000, "{opened}, {refused}");
}

/// Opening looks at the last entry alone, and the root is the digest that stands there.
#[test]
fn the_root_is_the_stored_digest_whatever_stands_before_the_last_entry() {
    let mut random = Random::new(6);
    for n in 2..=100 {
        let log = logs::log(n, &mut random);
        let expected = ringlog::root(log.bytes());
        let mut bytes = log.bytes().to_vec();
        random.fill(&mut bytes[..log.end(n - 1)]);
        assert_eq!(ringlog::root(&bytes), expected, "{n} values");
        let own_digest = bytes.len() - 5 - 32..bytes.len() - 5;
        bytes[own_digest.clone()].fill(0xee);
        assert_eq!(ringlog::root(&bytes), answered([0xee; 32]), "{n} values");
    }
}

#[test]
fn a_forged_entry_of_every_index_from_1_to_4096_opens_and_no_other() {
    let mut random = Random::new(7);
    for index in 1..=5_000 {
        let offset = if index == 1 { 0 } else { 1 + random.up_to(200) };
        let bytes = logs::forged(index, offset, &mut random);
        let case = || format!("index {index} at {offset}");
        let number = if index <= 4_096 { 0 } else { 6 };
        assert_eq!(root(&bytes, case).number, number, "{}", case());
    }
    for (index, offset) in [(1, 1), (1, 52), (2, 0), (4_096, 0)] {
        let bytes = logs::forged(index, offset, &mut random);
        assert_eq!(ringlog::root(&bytes), REFUSED, "index {index} at {offset}");
    }
}

#[test]
fn what_does_not_open_is_refused_with_6_and_zero_bytes() {
    let mut random = Random::new(8);
    for (name, bytes) in refused::not_opening(&mut random) {
        assert_eq!(ringlog::root(&bytes), REFUSED, "{name}: {bytes:02x?}");
    }
}

/// Random bytes, most with an end that looks like a length item of some length inside them.
#[test]
fn random_bytes_give_what_the_model_gives() {
    let mut random = Random::new(9);
    for round in 0..50_000 {
        let len = random.up_to(300);
        let mut bytes = random.bytes(len);
        if round % 8 != 0 && len >= 5 {
            let length = random.up_to(len) as u32;
            bytes[len - 5] = 0x30;
            bytes[len - 4..].copy_from_slice(&length.to_be_bytes());
        }
        root(&bytes, || format!("{bytes:02x?}"));
    }
}

#[test]
fn a_last_entry_opens_below_2_to_the_32_and_not_from_there_on() {
    let mut far = Far::forged(&mut Random::new(10));
    for (offset, number) in [(LIMIT - 1, 0), (LIMIT, 6), (LIMIT + 1, 6)] {
        let end = far.put(offset);
        let answer = root(&far.buffer[..end], || format!("a last entry at {offset}"));
        assert_eq!(answer.number, number, "a last entry at {offset}");
    }
}

#[test]
fn the_root_changes_no_byte_and_looks_at_none_around() {
    let mut random = Random::new(11);
    let log = logs::log(9, &mut random);
    lend_beginnings(log.bytes(), &[0x00, 0x30, 0xff], |log, case| {
        root(log, case);
    });
}
