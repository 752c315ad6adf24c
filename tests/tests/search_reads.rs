//! What the library's search reads: as many entries as document 01's formula says, and no byte
//! outside them matters.

use ringlog_tests::links::MET_OF_EIGHT;
use ringlog_tests::model::search::Side;
use ringlog_tests::model::{self, Log};
use ringlog_tests::pairs::{self, parted_at, values, with_others};
use ringlog_tests::random::Random;
use ringlog_tests::splits::{differ_at, refusal, search};
use ringlog_tests::ways::only_met;
use ringlog_tests::{forged, ringlog};
use std::ops::Range;

/// Of eight values that differ at i, the entries on the way to i. Of 22 values and 18 that differ
/// at 17, the entries 22, 20, 18 and 17, and of the other log 18 and 17.
#[test]
fn opening_is_one_read_and_each_left_step_is_one() {
    let mut random = Random::new(1);
    let list = values(22, &mut random);
    let log = Log::of(&list);
    let other = |i: usize, random: &mut Random| Log::of(&with_others(&list, &[i], random));
    let reads = |first: &[u8], second: &[u8]| {
        let split = ringlog::search(first, second);
        [split.first_reads, split.second_reads].map(|reads| reads as usize)
    };
    for i in 1..=8 {
        let other = other(i, &mut random);
        let met = MET_OF_EIGHT[i - 1].len();
        let counted = reads(log.beginning(8), other.beginning(8));
        assert_eq!(counted, [met, met], "differ at {i}");
        let counted = reads(log.beginning(8), log.beginning(i));
        assert_eq!(counted, [met, 1], "brought to {i}");
    }
    let other = other(17, &mut random);
    assert_eq!(reads(log.bytes(), other.beginning(18)), [4, 2]);
    assert_eq!(reads(other.beginning(18), log.bytes()), [2, 4]);
    assert_eq!(reads(log.bytes(), other.bytes()), [4, 4]);
    assert_eq!(reads(log.bytes(), log.bytes()), [1, 1]);
    assert_eq!(reads(log.bytes(), &[]), [1, 0]);
    assert_eq!(reads(&[], log.bytes()), [0, 1]);
    assert_eq!(reads(&[], &[]), [0, 0]);
}

/// What is damaged and answers has the reads of the formula too.
#[test]
fn the_reads_of_damaged_logs_that_answer_are_those_of_the_formula() {
    let mut random = Random::new(2);
    let mut answered = 0;
    for round in 0..20_000 {
        let first = forged::any(30, &mut random);
        let second = match round % 2 {
            0 => forged::any(30, &mut random),
            _ => first[..random.up_to(first.len())].to_vec(),
        };
        let case = || format!("round {round}: {first:02x?} and {second:02x?}");
        let split = search(&first, &second, case);
        let is_damaged = model::audit(&first).1 < first.len();
        answered += usize::from(split.number == 0 && is_damaged);
    }
    assert!(answered > 500, "{answered}");
}

/// Of each log only the entries on the way to the difference are left.
#[test]
fn only_the_entries_read_matter_and_each_of_them_does() {
    let mut random = Random::new(3);
    let list = values(8, &mut random);
    let log = Log::of(&list);
    for i in 1..=8 {
        let other = Log::of(&with_others(&list, &[i], &mut random));
        let first = only_met(&log, 8, i, &mut random);
        let second = only_met(&other, 8, i, &mut random);
        let case = || format!("{i} of 8");
        assert_eq!(search(&first, &second, case), differ_at(8, 8, i), "{i}");
        for &read in MET_OF_EIGHT[i - 1] {
            let without = |log: &Log, bytes: &[u8]| {
                let mut bytes = bytes.to_vec();
                bytes[log.end(read - 1)] = 0x00;
                bytes
            };
            let split = search(&without(&log, &first), &second, case);
            assert_eq!(split, refusal(Side::First, 6), "{i} without {read}");
            let split = search(&first, &without(&other, &second), case);
            assert_eq!(split, refusal(Side::Second, 6), "{i} without {read}");
        }
    }
}

/// The places of the bytes of a log that are in no entry read.
fn unread(log: &[u8], read: &[Range<usize>]) -> Vec<usize> {
    let is_read = |at: &usize| read.iter().any(|entry| entry.contains(at));
    (0..log.len()).filter(|at| !is_read(at)).collect()
}

/// Holds the answer to what it was with other bytes at all places that were not read, at once and,
/// where it is asked for, singly. Answers how many places there are.
fn assert_unread_does_not_matter(
    (first, second): (&[u8], &[u8]),
    singly: bool,
    random: &mut Random,
) -> usize {
    let split = ringlog::search(first, second);
    let found = model::search(first, second).expect("a search that answers");
    let places = [
        unread(first, &found.read[0]),
        unread(second, &found.read[1]),
    ];
    let mut logs = [first.to_vec(), second.to_vec()];
    if singly {
        for side in 0..2 {
            for &at in &places[side] {
                let byte = logs[side][at];
                logs[side][at] ^= 1 + random.up_to(254) as u8;
                let again = ringlog::search(&logs[0], &logs[1]);
                assert_eq!(again, split, "byte {at} of log {side}: {first:02x?}");
                logs[side][at] = byte;
            }
        }
    }
    for round in 0..3 {
        for side in 0..2 {
            let bytes = random.bytes(places[side].len());
            for (&at, byte) in places[side].iter().zip(bytes) {
                logs[side][at] = [byte, 0x00, 0xff][round];
            }
        }
        let again = ringlog::search(&logs[0], &logs[1]);
        assert_eq!(again, split, "all at once: {first:02x?}, {second:02x?}");
    }
    places[0].len() + places[1].len()
}

#[test]
fn what_was_not_read_does_not_matter_byte_by_byte() {
    let mut random = Random::new(4);
    let list = values(16, &mut random);
    let log = Log::of(&list);
    let mut changed = 0;
    for (m1, m2) in [(16, 16), (16, 11), (7, 13), (8, 8), (3, 2), (1, 12), (0, 5)] {
        for i in 1..=m1.min(m2) + 1 {
            let other = Log::of(&parted_at(&list, i, &mut random));
            let pair = (log.beginning(m1), other.beginning(m2));
            changed += assert_unread_does_not_matter(pair, true, &mut random);
        }
    }
    assert!(changed > 100_000, "{changed}");
}

#[test]
fn what_was_not_read_does_not_matter_in_forged_and_long_logs() {
    let mut random = Random::new(5);
    let mut changed = 0;
    let mut answered = 0;
    for round in 0..6_000 {
        let (first, second) = match round % 2 {
            0 => pairs::any(20, &mut random),
            _ => pairs::mislinked(20, &mut random),
        };
        if model::search(&first, &second).is_ok() {
            answered += 1;
            let singly = round % 100 == 0;
            let pair = (&first[..], &second[..]);
            changed += assert_unread_does_not_matter(pair, singly, &mut random);
        }
    }
    assert!(
        answered > 2_000 && changed > 1_000_000,
        "{answered}, {changed}"
    );
    let list = values(2_000, &mut random);
    let log = Log::of(&list);
    for i in [1, 1_000, 1_500, 2_000] {
        let other = Log::of(&with_others(&list, &[i], &mut random));
        for (m1, m2) in [(2_000, 2_000), (1_999, 1_024), (1_025, 2_000)] {
            let pair = (log.beginning(m1), other.beginning(m2));
            assert_unread_does_not_matter(pair, false, &mut random);
        }
    }
}
