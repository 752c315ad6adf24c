//! Root, path and consistency proof of the RFC 6962 edition audit first: 6 if the log is not well
//! formed, then 2 for an index or m out of range, then 8. A refused call writes nothing.

use ringlog_tests::answers::{done, refusal};
use ringlog_tests::bent::each_bent;
use ringlog_tests::far::{Far, LIMIT};
use ringlog_tests::forged::{self, Forged};
use ringlog_tests::logs::{self, numbered_taps};
use ringlog_tests::makers::{Maker, LONGEST};
use ringlog_tests::memory::{lend_beginnings, Memory};
use ringlog_tests::model::Log;
use ringlog_tests::random::Random;
use ringlog_tests::ringlog::{self, Digest};
use ringlog_tests::ways::{faults, links};
use ringlog_tests::{long, model, pages, refused};

const REFUSED: Digest = Digest {
    number: 6,
    digest: [0; 32],
};

/// The three calls refuse these bytes with 6, whatever the number and the room are, and write nothing.
fn assert_refused(bytes: &[u8], numbers: &[usize], case: impl Fn() -> String) {
    assert_eq!(ringlog::rfc6962_root(bytes), REFUSED, "{}", case());
    for maker in Maker::BOTH {
        for &number in numbers {
            for len in [0, LONGEST] {
                let mut output = Memory::counting(len);
                let before = output.clone();
                let answer = maker.call(bytes, number, output.lent_mut());
                assert_eq!(answer, refusal(6), "{maker:?} {number}: {}", case());
                assert!(output == before, "{maker:?} {number}: {}", case());
            }
        }
    }
}

/// The three calls answer for the last of so many values.
fn assert_answered(bytes: &[u8], n: usize, case: impl Fn() -> String) {
    assert_eq!(ringlog::rfc6962_root(bytes).number, 0, "{}", case());
    for maker in Maker::BOTH {
        let answer = maker.call(bytes, n, &mut [0; LONGEST]);
        assert_eq!(answer.number, 0, "{maker:?}: {}", case());
    }
}

#[test]
fn a_torn_log_is_6_at_every_byte_and_a_log_that_ends_with_an_entry_is_answered() {
    let log = logs::log(5, &mut Random::new(1));
    for len in 1..=log.bytes().len() {
        let bytes = &log.bytes()[..len];
        let case = || format!("{len} bytes");
        match (1..=5).find(|&n| log.end(n) == len) {
            Some(n) => assert_answered(bytes, n, case),
            None => assert_refused(bytes, &[0, 1, 5, 6], case),
        }
    }
}

#[test]
fn a_bent_log_is_6_at_every_byte() {
    let log = logs::log(5, &mut Random::new(2));
    assert_answered(log.bytes(), 5, || "whole".to_string());
    each_bent(log.bytes(), |bytes, bent| {
        assert_refused(bytes, &[1, 5], || bent.to_string());
    });
}

#[test]
fn a_log_with_a_byte_over_is_6() {
    let log = logs::log(10, &mut Random::new(3));
    for n in 0..10 {
        for over in 0..=255 {
            let bytes = [log.beginning(n), &[over]].concat();
            assert_refused(&bytes, &[0, 1, n], || format!("{n} values, {over:#04x}"));
        }
        for len in [2, 4, 5, 6, 43] {
            let zeros = [log.beginning(n), &vec![0; len]].concat();
            let next = &log.bytes()[..log.end(n) + len];
            for bytes in [&zeros[..], next] {
                assert_refused(bytes, &[1], || format!("{n} values, {len} bytes over"));
            }
        }
    }
}

/// Entry 1's leaf digest is at 15, and no entry on the way to value 4 stores it: the first edition
/// answers.
#[test]
fn four_taps_with_entry_1s_leaf_digest_zeroed_are_6_though_the_first_edition_proves_value_4() {
    let mut log = Log::of(&numbered_taps(4));
    let mut bytes = log.bytes().to_vec();
    bytes[15..47].fill(0);
    assert_refused(&bytes, &[0, 1, 4, 5], || "four taps".to_string());
    let mut proof = [0; 64];
    assert_eq!(ringlog::proof(&bytes, 4, &mut proof), done(64));
    assert_eq!(proof[..], log.path(4).concat());
    assert_eq!(ringlog::root(&bytes), Ok(log.root()).into());
    let mut of_whole = [0; 64];
    let answer = ringlog::rfc6962_path(log.bytes(), 4, &mut of_whole);
    assert_eq!(answer, done(64));
}

/// They open, and their links hold: roots, values, proofs and cuts answer of them.
#[test]
fn a_log_with_gaps_or_invented_digests_is_6_though_the_first_edition_answers() {
    let mut random = Random::new(4);
    for n in 2..=20 {
        let log = logs::log(n, &mut random);
        let mut gap = Forged::of(&log);
        gap.put_before(n, vec![0x00]);
        let mut other_value = Forged::of(&log);
        other_value.entry(1).value = logs::value_of(log.value(1)[0], &mut random);
        let mut other_root = Forged::of(&log);
        let top = other_root.entry(n).nodes.last_mut().expect("a node");
        top.own[31] ^= 0x01;
        let invented = forged::invented(n, 3, &mut random);
        for forged in [gap, other_value, other_root, invented] {
            let bytes = forged.bytes();
            assert_eq!(ringlog::root(&bytes).number, 0, "{n} values");
            let proved = ringlog::proof(&bytes, n, &mut [0; LONGEST]);
            assert_eq!(proved.number, 0, "{n} values");
            assert_refused(&bytes, &[1, n], || format!("{n} values: {bytes:02x?}"));
        }
    }
}

#[test]
fn what_does_not_open_is_6() {
    let mut random = Random::new(5);
    for (name, bytes) in refused::not_opening(&mut random) {
        assert_refused(&bytes, &[0, 1, 4_096], || name.clone());
    }
}

/// Each refusal alone, every two of them together, and all three: logs that are well formed, that
/// open and that do not, numbers in range and out of it, and room that is enough, a byte short, and
/// none.
#[test]
fn the_first_refusal_in_the_order_6_2_8_counts_and_writes_nothing() {
    let mut random = Random::new(6);
    let log = logs::log(7, &mut random);
    let mut opens = log.bytes().to_vec();
    opens[log.end(1) - 6] ^= 0x01;
    assert_eq!(ringlog::root(&opens).number, 0);
    let torn = &log.bytes()[..log.bytes().len() - 1];
    for (bytes, six) in [(log.bytes(), false), (&opens, true), (torn, true)] {
        for maker in Maker::BOTH {
            for number in [0, 1, 3, 8, (1 << 32) + 1, usize::MAX] {
                let inside = (1..=7).contains(&number);
                let need = match inside {
                    true => maker.digests(log.values(), number).len(),
                    false => 32,
                };
                for len in [0, 1, need - 1, need, need + 1, LONGEST] {
                    let case = || format!("{number} into {len} bytes");
                    let (answer, _) = maker.make(bytes, number, len, case);
                    let expected = match (six, inside, len < need) {
                        (true, _, _) => refusal(6),
                        (_, false, _) => refusal(2),
                        (_, _, true) => refusal(8),
                        _ => done(need),
                    };
                    assert_eq!(answer, expected, "{maker:?} {}", case());
                }
            }
        }
    }
}

#[test]
fn numbers_far_above_n_are_2_on_a_log_of_one_value_and_on_an_empty_one() {
    let log = logs::log(1, &mut Random::new(7));
    for n in [0, 1] {
        for number in [0, 2].into_iter().chain(refused::FAR_ABOVE) {
            for maker in Maker::BOTH {
                let case = || format!("{n} values");
                let (answer, _) = maker.make(log.beginning(n), number, LONGEST, case);
                assert_eq!(answer, refusal(2), "{maker:?} of {number}, {n} values");
            }
        }
    }
}

#[test]
fn a_log_of_4097_values_is_6_and_of_4096_is_answered() {
    let log = long::whole();
    assert_answered(log.beginning(4_096), 4_096, || "4,096 values".to_string());
    assert_refused(log.bytes(), &[1], || "4,097 values".to_string());
}

/// The fault is in an entry far behind the first ones, or in the one that has the link there.
#[test]
fn one_fault_deep_in_a_long_log_is_6() {
    let log = long::whole();
    for (n, i) in [(700, 301), (4_096, 4_095)] {
        let mut bytes = log.beginning(n).to_vec();
        let link = *links(n, i).last().expect("a link");
        for mut fault in faults(log, link) {
            fault.swap(&mut bytes);
            let case = || format!("{i} of {n}: {}", fault.what);
            assert_eq!(ringlog::rfc6962_root(&bytes), REFUSED, "{}", case());
            for maker in Maker::BOTH {
                let answer = maker.call(&bytes, n, &mut []);
                assert_eq!(answer, refusal(6), "{maker:?} {}", case());
            }
            fault.swap(&mut bytes);
        }
    }
}

/// The lower 32 bits of the length are those of a log, and the bytes begin with that log.
#[test]
fn a_length_above_2_to_the_32_is_not_taken_for_its_lower_32_bits() {
    let log = logs::log(2, &mut Random::new(8));
    let far = Far::of(&log);
    let first = log.end(1);
    assert_answered(&far.buffer[..first], 1, || "one value".to_string());
    for len in [LIMIT, LIMIT + first] {
        let bytes = &far.buffer[..len];
        assert_refused(bytes, &[0, 1], || format!("{len} bytes"));
    }
}

/// The lower 32 bits of the output's length are too few for one digest.
#[test]
fn an_output_of_more_than_2_to_the_32_bytes_has_room() {
    let log = logs::log(7, &mut Random::new(9));
    let output = pages::zeros_to_write(LIMIT + 31);
    for maker in Maker::BOTH {
        let expected = maker.digests(log.values(), 3);
        let answer = maker.call(log.bytes(), 3, output);
        assert_eq!(answer, done(expected.len()), "{maker:?}");
        assert_eq!(output[..expected.len()], expected, "{maker:?}");
    }
}

#[test]
fn whole_torn_bent_and_forged_logs_give_what_the_model_gives() {
    let mut random = Random::new(10);
    let mut met = [0; 9];
    for round in 0..4_000 {
        let most = if round % 8 == 0 { 70 } else { 12 };
        let log = match round % 3 {
            0 => forged::any(most, &mut random),
            _ => logs::log(random.up_to(most), &mut random).bytes().to_vec(),
        };
        let number = forged::index(&log, &mut random);
        let len = match round % 2 {
            0 => random.up_to(200),
            _ => LONGEST,
        };
        for maker in Maker::BOTH {
            let case = || format!("round {round}: {log:02x?}");
            let (answer, _) = maker.make(&log, number, len, case);
            met[answer.number as usize] += 1;
        }
    }
    let all = [0, 2, 6, 8];
    assert!(all.iter().all(|&no| met[no] > 200), "{met:?}");
}

#[test]
fn the_makers_change_no_byte_of_the_log_and_look_at_none_around() {
    let log = logs::log(9, &mut Random::new(11));
    lend_beginnings(log.bytes(), &[0x01, 0x30, 0xff], |log, case| {
        let expected = model::rfc6962_root(log).into();
        assert_eq!(ringlog::rfc6962_root(log), expected, "{}", case());
        for maker in Maker::BOTH {
            for number in [0, 1, 9] {
                maker.make(log, number, 128, case);
            }
        }
    });
}
