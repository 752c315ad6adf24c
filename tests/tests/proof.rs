//! The library's proof: of a log, the path of the tree that its values have; of any bytes, what the
//! model answers. Every byte of the output afterwards is held to the model's.

use ringlog_tests::answers::{done, refusal};
use ringlog_tests::bent::each_bent;
use ringlog_tests::far::{Far, LIMIT};
use ringlog_tests::forged::{self, Forged};
use ringlog_tests::links::{self, RUNNING_OUT};
use ringlog_tests::logs::{self, LONG, SHEET_HOPS};
use ringlog_tests::memory::{lend_beginnings, Memory};
use ringlog_tests::model::inclusion::hops;
use ringlog_tests::model::{item, Log};
use ringlog_tests::random::Random;
use ringlog_tests::refused::{self, FAR_ABOVE};
use ringlog_tests::ringlog::Count;
use ringlog_tests::ways::only_met;
use ringlog_tests::{model, ringlog};

/// The length of the longest proof: 12 siblings.
const LONGEST_PROOF: usize = 384;

/// Proves value i into an output of so many bytes, which has other bytes around it. The answer and
/// all these bytes are held to the model's; what was written is given back.
fn proof(log: &[u8], i: usize, len: usize, case: impl Fn() -> String) -> (Count, Vec<u8>) {
    let mut memory = Memory::counting(len);
    let mut expected = memory.clone();
    let answer = ringlog::proof(log, i, memory.lent_mut());
    let expected_answer = model::proof(log, i, expected.lent_mut());
    let shown = || format!("proof of {i} into {len} bytes: {}", case());
    assert_eq!(answer, expected_answer.into(), "{}", shown());
    if let Some(place) = memory.other_byte(&expected) {
        panic!("byte {place} is not the model's; {}", shown());
    }
    (answer, memory.lent()[..answer.value as usize].to_vec())
}

/// Holds the proof of value i of the log to the path of the tree, and to the checker.
fn assert_proves(log: &mut Log, i: usize) {
    let n = log.count();
    let path = log.path(i).concat();
    let mut output = [0x5a; LONGEST_PROOF + 1];
    let answer = ringlog::proof(log.bytes(), i, &mut output);
    assert_eq!(answer, done(32 * hops(n, i)), "{i} of {n}");
    let (written, rest) = output.split_at(answer.value as usize);
    assert_eq!(written, path, "{i} of {n}");
    assert!(rest.iter().all(|&byte| byte == 0x5a), "{i} of {n}");
    let root = log.root();
    let accepted = ringlog::check_proof(n, i, log.value(i), written, &root);
    assert!(accepted, "{i} of {n}");
}

#[test]
fn every_proof_of_every_log_of_1_to_70_values_is_the_path_of_its_tree_and_is_accepted() {
    let mut random = Random::new(1);
    let mut log = Log::default();
    for n in 1..=70 {
        log.push(&logs::value(&mut random));
        for i in 1..=n {
            assert_proves(&mut log, i);
            proof(log.bytes(), i, LONGEST_PROOF, || format!("{n} values"));
        }
        for outside in [0, n + 1, n + 2].into_iter().chain(FAR_ABOVE) {
            let (answer, _) = proof(log.bytes(), outside, LONGEST_PROOF, || format!("{n}"));
            assert_eq!(answer, refusal(2), "{outside} of {n}");
        }
    }
}

#[test]
fn proofs_of_long_logs_are_the_paths_of_their_trees_and_are_accepted() {
    let mut random = Random::new(2);
    let mut log = Log::default();
    for n in LONG {
        logs::grow(&mut log, n, &mut random);
        for i in logs::indexes(n, &mut random) {
            assert_proves(&mut log, i);
        }
        let mut output = [0; LONGEST_PROOF];
        assert_eq!(ringlog::proof(log.bytes(), n + 1, &mut output), refusal(2));
    }
}

#[test]
fn every_proof_of_a_full_log_is_the_path_of_its_tree_and_is_accepted() {
    let mut log = logs::log(4_096, &mut Random::new(3));
    for i in 1..=4_096 {
        assert_proves(&mut log, i);
    }
    let mut output = [0; LONGEST_PROOF];
    let answer = ringlog::proof(log.bytes(), 4_097, &mut output);
    assert_eq!(answer, refusal(2));
}

#[test]
fn proofs_have_the_hops_of_the_bench_sheet() {
    let mut random = Random::new(4);
    for (n, i, hops) in SHEET_HOPS {
        let log = logs::taps(n, &mut random);
        let case = || format!("{n} taps");
        let (answer, _) = proof(log.bytes(), i, LONGEST_PROOF, case);
        assert_eq!(answer, done(32 * hops), "hops({n}, {i})");
    }
}

#[test]
fn a_proof_of_96_bytes_into_95_gives_8() {
    let log = logs::log(7, &mut Random::new(5));
    for i in [1, 2, 3, 4, 5, 6] {
        let case = || "7 values".to_string();
        assert_eq!(proof(log.bytes(), i, 96, case).0, done(96), "{i}");
        assert_eq!(proof(log.bytes(), i, 95, case).0, refusal(8), "{i}");
    }
}

#[test]
fn index_0_gives_2_also_on_an_empty_log_and_without_room() {
    let mut random = Random::new(6);
    for n in 0..=40 {
        let log = logs::log(n, &mut random);
        for len in [0, 31, LONGEST_PROOF] {
            let case = || format!("{n} values");
            assert_eq!(proof(log.bytes(), 0, len, case).0, refusal(2), "{n}");
            assert_eq!(proof(log.bytes(), n + 1, len, case).0, refusal(2), "{n}");
        }
    }
}

#[test]
fn no_lower_32_bits_of_the_index_are_taken_for_it() {
    let mut random = Random::new(7);
    let log = logs::taps(2, &mut random);
    for high in [1 << 32, 1 << 33, 1 << 48, 1 << 63, !0 << 32] {
        for low in [0, 1, 2] {
            let case = || format!("{high:#x} + {low}");
            let (answer, _) = proof(log.bytes(), high + low, 64, case);
            assert_eq!(answer, refusal(2), "{high:#x} + {low}");
        }
    }
}

#[test]
fn the_proof_of_one_value_has_no_bytes_and_an_empty_output_is_enough() {
    let mut random = Random::new(8);
    for len in [0, 1, 32, 100] {
        let log = logs::log(1, &mut random);
        let (answer, written) = proof(log.bytes(), 1, len, || "one value".to_string());
        assert_eq!((answer, written), (done(0), Vec::new()), "{len} bytes");
    }
}

#[test]
fn room_exactly_is_enough_and_a_byte_less_gives_8_and_the_rest_of_the_output_stays() {
    let mut random = Random::new(9);
    for n in [1, 2, 3, 7, 8, 22, 64, 100] {
        let log = logs::log(n, &mut random);
        for i in 1..=n {
            let need = 32 * hops(n, i);
            for len in (0..=need + 2).chain([need + 32, need + 100]) {
                let case = || format!("{n} values");
                let (answer, _) = proof(log.bytes(), i, len, case);
                let expected = if len < need { refusal(8) } else { done(need) };
                assert_eq!(answer, expected, "{i} of {n} into {len} bytes");
            }
        }
    }
}

/// Each refusal alone, every two of them together, and more: logs of eight values whose steps to
/// entry 1 hold or not and bytes that do not open, indexes, and lengths of the output.
#[test]
fn the_first_refusal_in_the_order_6_2_8_and_then_steps_counts_and_writes_nothing() {
    let mut random = Random::new(10);
    let log = logs::log(8, &mut random);
    let logs = refused::at_opening_or_steps(&log, &mut random);
    for ((name, bytes), opening, steps) in logs {
        for i in [0, 1, 9, (1 << 32) + 1, usize::MAX] {
            for len in [0, 1, 32, 95, 96, 97, 128, LONGEST_PROOF] {
                let outside = (i != 1).then_some(2);
                let too_short = (len < 96).then_some(8);
                let refusals = [opening, outside, too_short, steps];
                let number = refusals.into_iter().flatten().next();
                let (answer, _) = proof(&bytes, i, len, || name.clone());
                let expected = number.map_or(done(96), refusal);
                assert_eq!(answer, expected, "{name}, {i} into {len} bytes");
            }
        }
    }
}

/// Two taps, with entry 1's leaf digest broken.
#[test]
fn whether_the_proof_fits_is_tested_before_the_steps() {
    let mut bytes = logs::taps(2, &mut Random::new(11)).bytes().to_vec();
    bytes[15] ^= 0x01;
    let case = || "a broken leaf digest".to_string();
    assert_eq!(proof(&bytes, 1, 31, case).0, refusal(8));
    assert_eq!(proof(&bytes, 1, 32, case).0, refusal(7));
    assert_eq!(proof(&bytes, 2, 32, case).0, done(32));
}

/// Four taps, with entry 1's head broken and the stored left digest of (4, 2) zeroed.
#[test]
fn a_7_high_up_comes_before_a_6_below_it() {
    let log = logs::taps(4, &mut Random::new(12));
    let mut forged = Forged::of(&log);
    forged.node(4, 2).left = [0; 32];
    let mut bytes = forged.bytes();
    bytes[0] = 0x00;
    let case = || "four taps".to_string();
    assert_eq!(proof(&bytes, 1, 64, case).0, refusal(7));
    let mut bytes = log.bytes().to_vec();
    bytes[0] = 0x00;
    assert_eq!(proof(&bytes, 1, 64, case).0, refusal(6));
    assert_eq!(proof(&bytes, 2, 64, case).0, done(64));
}

#[test]
fn steps_are_refused_from_the_top_down_and_in_one_step_with_6_before_7() {
    let mut random = Random::new(13);
    let log = logs::log(8, &mut random);
    for mislinked in links::mislinked(&log) {
        let bytes = mislinked.forged.bytes();
        for i in 1..=8 {
            let case = || format!("{:?}", mislinked.faults);
            let (answer, _) = proof(&bytes, i, 96, case);
            let expected = mislinked.refusal(i).map_or(done(96), refusal);
            assert_eq!(answer, expected, "{:?}, {i}", mislinked.faults);
        }
    }
}

/// The last link on the way is broken, with 1 to 12 siblings known before it.
#[test]
fn a_refusal_at_the_last_step_leaves_the_output_as_it_was() {
    let mut random = Random::new(14);
    for p in 1..=12 {
        let log = logs::taps(1 << p, &mut random);
        for (at, number) in [(0, 6), (4, 6), (15, 7), (46, 7), (51, 6)] {
            let mut bytes = log.bytes().to_vec();
            bytes[at] ^= 0x01;
            let case = || format!("{} taps, byte {at} bent", 1 << p);
            let (answer, _) = proof(&bytes, 1, 32 * p, case);
            assert_eq!(answer, refusal(number), "{}", case());
        }
    }
}

#[test]
fn what_does_not_open_is_refused_with_6() {
    let mut random = Random::new(15);
    for (name, bytes) in refused::not_opening(&mut random) {
        for i in [0, 1, 8, 4_096] {
            for len in [0, LONGEST_PROOF] {
                let (answer, _) = proof(&bytes, i, len, || name.clone());
                assert_eq!(answer, refusal(6), "{name}, {i}");
            }
        }
    }
}

#[test]
fn every_beginning_of_a_log_gives_what_the_model_gives() {
    let mut random = Random::new(16);
    let log = logs::log(17, &mut random);
    for len in 0..=log.bytes().len() {
        for i in 0..=18 {
            let case = || format!("{len} bytes");
            proof(&log.bytes()[..len], i, LONGEST_PROOF, case);
        }
    }
}

#[test]
fn every_single_bent_byte_gives_what_the_model_gives_for_every_index() {
    let mut random = Random::new(17);
    let mut met = [0; 9];
    for n in 1..=9 {
        let log = logs::log(n, &mut random);
        each_bent(log.bytes(), |bytes, bent| {
            for i in 0..=n + 1 {
                let (answer, _) = proof(bytes, i, 100, || format!("{n} values, {bent}"));
                met[answer.number as usize] += 1;
            }
        });
    }
    let all = [0, 2, 6, 7, 8];
    assert!(all.iter().all(|&no| met[no] > 1_000), "{met:?}");
}

/// A proof has no fold: it is the stored digests, whatever the value and the root are.
#[test]
fn a_proof_is_what_the_log_stores_wherever_the_links_hold() {
    let mut random = Random::new(18);
    for n in 1..=33 {
        let mut log = logs::log(n, &mut random);
        for i in 1..=n {
            let mut forged = Forged::of(&log);
            forged.entry(i).value = logs::value_of(log.value(i)[0], &mut random);
            let bytes = forged.bytes();
            let case = || format!("value {i} of {n} changed");
            let (_, written) = proof(&bytes, i, LONGEST_PROOF, case);
            assert_eq!(written, log.path(i).concat(), "{i} of {n}");
        }
    }
    for round in 0..200 {
        let n = 1 + random.up_to(39);
        let pool = 1 + random.up_to(3);
        let forged = forged::invented(n, pool, &mut random).spread(5, &mut random);
        let bytes = forged.bytes();
        for i in 1..=n {
            let case = || format!("round {round}, {n} values");
            let (answer, _) = proof(&bytes, i, LONGEST_PROOF, case);
            assert_eq!(answer, done(32 * hops(n, i)), "{i} of {n}");
        }
    }
}

/// Only the entries on the way are met: what else stands in the log does not matter.
#[test]
fn only_the_entries_met_matter() {
    let mut random = Random::new(25);
    let mut log = logs::log(8, &mut random);
    for i in 1..=8 {
        let bytes = only_met(&log, 8, i, &mut random);
        let (_, written) = proof(&bytes, i, 96, || format!("{i} of 8"));
        assert_eq!(written, log.path(i).concat(), "{i}");
    }
}

#[test]
fn junk_between_entries_does_not_change_a_proof() {
    let mut random = Random::new(19);
    for n in 1..=40 {
        let mut log = logs::log(n, &mut random);
        let bytes = Forged::of(&log).spread(30, &mut random).bytes();
        for i in 1..=n {
            let case = || format!("{n} values with gaps");
            let (_, written) = proof(&bytes, i, LONGEST_PROOF, case);
            assert_eq!(written, log.path(i).concat(), "{i} of {n}");
        }
    }
}

#[test]
fn an_entry_met_may_overlap_the_one_it_is_met_from_and_not_run_out_of_the_log() {
    let mut random = Random::new(20);
    for _ in 0..50 {
        let bytes = links::overlapping(&mut random);
        let case = || format!("{bytes:02x?}");
        assert_eq!(proof(&bytes, 2, 64, case).0, done(64));
        assert_eq!(proof(&bytes, 1, 64, case).0, refusal(6));
        let memory = links::running_out(&mut random);
        let case = || format!("{memory:02x?}");
        let log = &memory[..RUNNING_OUT];
        assert_eq!(proof(log, 2, 64, case).0, refusal(6));
        assert_eq!(proof(log, 3, 64, case).0, done(32));
    }
}

/// Two taps: entry 2 begins at 52, and its left offset is at 101.
#[test]
fn a_left_offset_of_51_is_a_6_of_the_step_and_of_52_one_of_opening() {
    let mut random = Random::new(21);
    let mut bytes = logs::taps(2, &mut random).bytes().to_vec();
    let case = || "two taps".to_string();
    for (left_offset, first, second) in [(0, 0, 0), (51, 6, 0), (52, 6, 6)] {
        bytes[101..105].copy_from_slice(&item::four_bytes(left_offset));
        let numbers = [1, 2].map(|i| proof(&bytes, i, 32, case).0.number);
        assert_eq!(numbers, [first, second], "left offset {left_offset}");
    }
}

#[test]
fn a_last_entry_just_below_2_to_the_32_proves_and_not_from_there_on() {
    let mut far = Far::forged(&mut Random::new(22));
    for (offset, expected) in [(LIMIT - 1, done(32)), (LIMIT, refusal(6))] {
        let end = far.put(offset);
        let case = || format!("a last entry at {offset}");
        let (answer, _) = proof(&far.buffer[..end], 2, 32, case);
        assert_eq!(answer, expected, "a last entry at {offset}");
    }
}

#[test]
fn whole_torn_bent_and_forged_logs_give_what_the_model_gives() {
    let mut random = Random::new(23);
    let mut met = [0; 9];
    for round in 0..20_000 {
        let log = forged::any(if round % 8 == 0 { 70 } else { 12 }, &mut random);
        let i = forged::index(&log, &mut random);
        let len = match round % 3 {
            0 => random.up_to(200),
            _ => LONGEST_PROOF,
        };
        let case = || format!("round {round}: {log:02x?}");
        let (answer, _) = proof(&log, i, len, case);
        met[answer.number as usize] += 1;
    }
    let all = [0, 2, 6, 7, 8];
    assert!(all.iter().all(|&no| met[no] > 500), "{met:?}");
}

#[test]
fn a_proof_changes_no_byte_of_the_log_and_looks_at_none_around() {
    let mut random = Random::new(24);
    let log = logs::log(9, &mut random);
    lend_beginnings(log.bytes(), &[0x00, 0x30, 0xff], |log, case| {
        for i in 0..=10 {
            proof(log, i, 128, case);
        }
    });
}
