//! The library's cut: of a log, the end of entry d as document 01 writes it, and 0xFF from there to the
//! end of the buffer; of any bytes, what the model answers and leaves. A refused cut writes nothing.

use ringlog_tests::answers::{done, refusal};
use ringlog_tests::bent::each_bent;
use ringlog_tests::far::{Far, LIMIT};
use ringlog_tests::forged::{self, Forged};
use ringlog_tests::links::{self, MET_OF_EIGHT, RUNNING_OUT};
use ringlog_tests::logs::{self, LONG};
use ringlog_tests::memory::Memory;
use ringlog_tests::model::{item, Log};
use ringlog_tests::random::Random;
use ringlog_tests::refused::{self, FAR_ABOVE};
use ringlog_tests::ringlog::Count;
use ringlog_tests::ways::only_met;
use ringlog_tests::{model, ringlog};
use std::collections::BTreeSet;

/// Cuts in a buffer of these bytes, which has other bytes around it. Gives the answer, and the buffer
/// afterwards. Both are held to the model's, and the bytes around to what they were, as all bytes are
/// where the cut is refused.
fn cut_in(buffer: &[u8], used: usize, d: usize, case: impl Fn() -> String) -> (Count, Vec<u8>) {
    let mut memory = Memory::among(0x5a, buffer);
    let mut expected = memory.clone();
    let answer = ringlog::cut(memory.lent_mut(), used, d);
    let by_model = model::cut(expected.lent_mut(), used, d).into();
    assert_eq!(answer, by_model, "cut to {d} at {used}: {}", case());
    let same = memory == expected && (answer.number == 0 || memory.lent() == buffer);
    assert!(same, "bytes of a cut to {d} at {used}: {}", case());
    (answer, memory.lent().to_vec())
}

/// The answer of a cut in a buffer of these bytes, held to the model's, as the bytes afterwards are.
fn cut(buffer: &[u8], used: usize, d: usize, case: impl Fn() -> String) -> Count {
    cut_in(buffer, used, d, case).0
}

/// Cuts a log that fills its buffer.
fn cut_log(log: &[u8], d: usize, case: impl Fn() -> String) -> Count {
    cut(log, log.len(), d, case)
}

#[test]
fn every_log_of_0_to_70_values_cut_to_every_d_answers_the_end_of_entry_d() {
    let mut random = Random::new(1);
    let mut log = Log::default();
    for n in 0..=70 {
        let case = || format!("{n} values");
        let junk = random.bytes(40);
        let buffer = [log.bytes(), &junk].concat();
        let used = log.bytes().len();
        for d in 0..=n {
            assert_eq!(cut(&buffer, used, d, case), done(log.end(d)), "{n}, {d}");
        }
        for above in [n + 1, n + 2, 2 * n + 1].into_iter().chain(FAR_ABOVE) {
            assert_eq!(cut(&buffer, used, above, case), refusal(2), "{n}, {above}");
        }
        log.push(&logs::value(&mut random));
    }
}

#[test]
fn long_logs_cut_at_their_edges_and_elsewhere_answer_the_end_of_entry_d() {
    let mut random = Random::new(2);
    let log = logs::log(4_095, &mut random);
    for n in LONG {
        let case = || format!("{n} values");
        for d in logs::indexes(n, &mut random) {
            let answer = cut_log(log.beginning(n), d, case);
            assert_eq!(answer, done(log.end(d)), "{n} values, cut to {d}");
        }
        assert_eq!(cut_log(log.beginning(n), 0, case), done(0));
        assert_eq!(cut_log(log.beginning(n), n + 1, case), refusal(2));
    }
}

#[test]
fn a_full_log_cut_to_every_d_answers_the_end_of_entry_d_and_4097_gives_2() {
    let log = logs::log(4_096, &mut Random::new(3));
    let mut buffer = log.bytes().to_vec();
    let used = buffer.len();
    let blank = vec![0xff; used];
    for d in 0..=4_096 {
        buffer.copy_from_slice(log.bytes());
        let end = log.end(d);
        assert_eq!(ringlog::cut(&mut buffer, used, d), done(end), "{d}");
        assert!(buffer[..end] == *log.beginning(d), "{d}");
        assert!(buffer[end..] == blank[end..], "{d}");
    }
    buffer.copy_from_slice(log.bytes());
    assert_eq!(ringlog::cut(&mut buffer, used, 4_097), refusal(2));
    assert!(buffer == log.bytes());
}

#[test]
fn what_is_left_by_a_cut_is_the_log_of_the_first_d_values() {
    let mut random = Random::new(4);
    let log = logs::log(40, &mut random);
    let values: Vec<_> = (1..=40).map(|i| log.value(i)).collect();
    let used = log.bytes().len();
    for d in 0..=40 {
        let mut buffer = log.bytes().to_vec();
        let end = ringlog::cut(&mut buffer, used, d).value as usize;
        let mut first = Log::of(&values[..d]);
        assert_eq!(&buffer[..end], first.bytes(), "cut to {d}");
        assert_eq!(ringlog::audit(&buffer[..end]), (d, end).into(), "{d}");
        assert_eq!(ringlog::audit(&buffer), (d, end).into(), "{d}");
        assert_eq!(ringlog::root(&buffer[..end]).digest, first.root(), "{d}");
    }
}

/// Logs of some lengths, the empty one too, in buffers with nothing behind used, or with some bytes.
#[test]
fn the_part_before_the_new_end_is_the_log_of_the_first_d_values_and_the_rest_is_0xff() {
    let mut random = Random::new(24);
    for n in [0, 1, 2, 3, 7, 8, 22, 40] {
        let log = logs::log(n, &mut random);
        let used = log.bytes().len();
        for behind in [0, 1, 8, 1_000] {
            let buffer = [log.bytes(), &random.bytes(behind)].concat();
            for d in 0..=n {
                let case = || format!("{n} values, {behind} bytes behind them");
                let (answer, left) = cut_in(&buffer, used, d, case);
                let first = log.beginning(d);
                assert_eq!(answer, done(first.len()), "{}, {d}", case());
                let blank = vec![0xff; buffer.len() - first.len()];
                assert!(left == [first, &blank].concat(), "{}, {d}", case());
            }
        }
    }
}

/// Two taps, and eight bytes behind them or an entry that once followed.
#[test]
fn the_bytes_behind_used_become_0xff_too_also_for_d_equal_to_n() {
    let mut random = Random::new(25);
    let log = logs::taps(3, &mut random);
    let (taps, third) = log.bytes().split_at(log.end(2));
    let behind_used: [&[u8]; 4] = [&[0x00; 8], &[0x30; 8], &random.bytes(8), third];
    for behind in behind_used {
        let buffer = [taps, behind].concat();
        for (d, new_end) in [(0, 0), (1, 52), (2, 174)] {
            let (answer, left) = cut_in(&buffer, 174, d, || format!("{behind:02x?}"));
            assert_eq!(answer, done(new_end), "cut to {d}");
            assert_eq!(left[..new_end], taps[..new_end], "cut to {d}");
            let blank = vec![0xff; buffer.len() - new_end];
            assert_eq!(left[new_end..], blank, "cut to {d}");
        }
        let (answer, left) = cut_in(behind, 0, 0, || "an empty log".to_string());
        assert_eq!(answer, done(0));
        assert_eq!(left, vec![0xff; behind.len()]);
    }
}

/// Bytes that do not open, and logs of eight values whose steps to entry 1 hold or not, with some bytes
/// behind them.
#[test]
fn a_refused_cut_writes_nothing_whatever_it_is_refused_for() {
    let mut random = Random::new(26);
    let log = logs::log(8, &mut random);
    let mut met = BTreeSet::new();
    for ((name, bytes), opening, _) in refused::at_opening_or_steps(&log, &mut random) {
        let buffer = [&bytes[..], &random.bytes(9)].concat();
        for (used, d) in [(buffer.len() + 1, 1), (bytes.len(), 9), (bytes.len(), 1)] {
            let mut memory = Memory::among(0x5a, &buffer);
            let before = memory.clone();
            let answer = ringlog::cut(memory.lent_mut(), used, d);
            if answer.number != 0 {
                assert!(memory == before, "{name}, used {used}, {d}");
                met.insert(match answer.number {
                    6 if opening.is_some() => (6, "opening"),
                    6 | 7 => (answer.number, "step"),
                    number => (number, ""),
                });
            }
        }
    }
    let all = [(1, ""), (2, ""), (6, "opening"), (6, "step"), (7, "step")];
    assert!(met.iter().eq(&all), "{met:?}");
}

#[test]
fn a_cut_to_n_returns_used_and_to_n_plus_1_gives_2() {
    let mut random = Random::new(5);
    for n in 1..=130 {
        let log = logs::log(n, &mut random);
        let used = log.bytes().len();
        let case = || format!("{n} values");
        assert_eq!(cut_log(log.bytes(), n, case), done(used), "{n}");
        assert_eq!(cut_log(log.bytes(), n + 1, case), refusal(2), "{n}");
    }
    // It takes no step: what stands before the last entry may be anything.
    for index in 2..=4_096 {
        let bytes = logs::forged(index, 1 + random.up_to(99), &mut random);
        let case = || format!("index {index}");
        assert_eq!(cut_log(&bytes, index, case), done(bytes.len()), "{index}");
        assert_eq!(cut_log(&bytes, index + 1, case), refusal(2), "{index}");
    }
}

#[test]
fn a_cut_to_0_answers_0_without_steps_wherever_the_log_opens() {
    let mut random = Random::new(6);
    let case = || "cut to 0".to_string();
    assert_eq!(cut(&[], 0, 0, case), done(0));
    assert_eq!(cut(&random.bytes(99), 0, 0, case), done(0));
    assert_eq!(cut_log(&[0x77; 60], 0, case), refusal(6));
    assert_eq!(cut(&[0x77; 60], 61, 0, case), refusal(1));
    let mut broken = logs::taps(2, &mut random).bytes().to_vec();
    broken[0] = 0x77;
    assert_eq!(cut_log(&broken, 0, case), done(0));
    assert_eq!(cut_log(&broken, 1, case), refusal(6));
    assert_eq!(cut_log(&broken, 2, case), done(174));
    for index in 2..=300 {
        let bytes = logs::forged(index, 200, &mut random);
        assert_eq!(cut_log(&bytes, 0, case), done(0), "index {index}");
    }
}

#[test]
fn what_does_not_open_is_refused_with_6_for_every_d() {
    let mut random = Random::new(7);
    for (name, bytes) in refused::not_opening(&mut random) {
        for d in [0, 1, 2, 8, 4_096, 4_097, usize::MAX] {
            let case = || name.clone();
            assert_eq!(cut_log(&bytes, d, case), refusal(6), "{name}, {d}");
        }
    }
}

/// Each refusal alone, every two of them together, and more: logs of eight values whose steps to
/// entry 1 hold or not and bytes that do not open, numbers for used, and numbers to cut to.
#[test]
fn the_first_refusal_in_the_order_1_6_2_and_then_steps_counts() {
    let mut random = Random::new(8);
    let log = logs::log(8, &mut random);
    let logs = refused::at_opening_or_steps(&log, &mut random);
    for ((name, bytes), opening, steps) in logs {
        let buffer = [&bytes[..], &random.bytes(7)].concat();
        let (used, above) = (bytes.len(), buffer.len() + 1);
        for used in [used, above, (1 << 32) + used, usize::MAX] {
            for d in [0, 1, 8, 9, (1 << 32) + 1, usize::MAX] {
                let too_long = (used > buffer.len()).then_some(1);
                let outside = (d > 8).then_some(2);
                let steps = steps.filter(|_| d == 1);
                let number = too_long.or(opening).or(outside).or(steps).unwrap_or(0);
                let answer = cut(&buffer, used, d, || name.clone());
                assert_eq!(answer.number, number, "{name}, used {used}, {d}");
                if number != 0 {
                    assert_eq!(answer.value, 0, "{name}, used {used}, {d}");
                }
            }
        }
    }
}

#[test]
fn no_lower_32_bits_of_used_or_count_are_taken_for_it() {
    let mut random = Random::new(9);
    let log = logs::taps(2, &mut random);
    for high in [1 << 32, 1 << 33, 1 << 48, 1 << 63, !0 << 32] {
        let case = || format!("with {high:#x}");
        for low in [0, 52, 174] {
            assert_eq!(cut(log.bytes(), high + low, 1, case), refusal(1));
        }
        for low in [0, 1, 2] {
            assert_eq!(cut_log(log.bytes(), high + low, case), refusal(2));
        }
    }
}

#[test]
fn every_beginning_of_a_log_gives_what_the_model_gives() {
    let mut random = Random::new(10);
    let log = logs::log(17, &mut random);
    for used in 0..=log.bytes().len() {
        // The rest of the log is behind used.
        for d in 0..=18 {
            cut(log.bytes(), used, d, || "a log of 17".to_string());
        }
    }
}

#[test]
fn every_single_bent_byte_gives_what_the_model_gives_for_every_d() {
    let mut random = Random::new(11);
    let mut met = [0; 8];
    for n in 1..=9 {
        let log = logs::log(n, &mut random);
        each_bent(log.bytes(), |bytes, bent| {
            for d in 0..=n + 1 {
                let answer = cut_log(bytes, d, || format!("{n} values, {bent}"));
                met[answer.number as usize] += 1;
            }
        });
    }
    assert!([0, 2, 6, 7].iter().all(|&no| met[no] > 1_000), "{met:?}");
}

/// Only the entries on the way are met: what else stands in the log does not matter.
#[test]
fn only_the_entries_met_matter() {
    let mut random = Random::new(12);
    let log = logs::log(8, &mut random);
    for d in 1..=8 {
        let bytes = only_met(&log, 8, d, &mut random);
        let case = || format!("{d} of 8");
        assert_eq!(cut_log(&bytes, d, case), done(log.end(d)), "{d}");
        for &i in &MET_OF_EIGHT[d - 1][1..] {
            let mut without = bytes.clone();
            without[log.end(i - 1)] = 0x00;
            assert_eq!(cut_log(&without, d, case), refusal(6), "{d} without {i}");
        }
    }
}

/// In a log with junk between its entries the end of entry d is not where entry d + 1 begins.
#[test]
fn the_end_of_entry_d_is_the_one_that_was_reached() {
    let mut random = Random::new(13);
    for n in 1..=40 {
        let log = logs::log(n, &mut random);
        let mut forged = Forged::of(&log);
        for i in 2..=n {
            let len = 1 + random.up_to(30);
            forged.put_before(i, random.bytes(len));
        }
        let bytes = forged.bytes();
        for d in 0..=n {
            let answer = cut_log(&bytes, d, || format!("{n} values with gaps"));
            assert_eq!(answer, done(forged.end(d)), "{d} of {n}");
            let apart = d == 0 || d == n || forged.end(d) < forged.start(d + 1);
            assert!(apart, "{d} of {n}");
        }
    }
}

#[test]
fn of_two_entries_with_one_index_the_one_at_the_left_offset_is_met() {
    let mut random = Random::new(14);
    for _ in 0..50 {
        let (bytes, start) = links::second_of_two(&mut random);
        let answer = cut_log(&bytes, 2, || format!("{bytes:02x?}"));
        let entry = model::entry::shaped(&bytes, start, 2).expect("entry 2");
        assert_eq!(answer, done(start + entry.length()));
    }
}

#[test]
fn entry_1_is_met_at_offset_0_and_nowhere_else() {
    let mut random = Random::new(23);
    for _ in 0..50 {
        let bytes = links::entry_1_elsewhere(&mut random);
        let case = || format!("{bytes:02x?}");
        assert_eq!(cut_log(&bytes, 1, case), refusal(6));
        assert_eq!(cut_log(&bytes, 2, case), done(bytes.len()));
    }
}

#[test]
fn an_entry_met_may_overlap_the_one_it_is_met_from() {
    let mut random = Random::new(15);
    for _ in 0..50 {
        let bytes = links::overlapping(&mut random);
        let case = || format!("{bytes:02x?}");
        assert_eq!(cut_log(&bytes, 2, case), done(124));
        assert_eq!(cut_log(&bytes, 1, case), refusal(6));
    }
}

/// The buffer goes on behind used, with the end of the entry.
#[test]
fn an_entry_met_that_would_end_behind_the_log_is_refused_with_6() {
    let mut random = Random::new(16);
    for _ in 0..50 {
        let buffer = links::running_out(&mut random);
        let case = || format!("{buffer:02x?}");
        assert_eq!(cut(&buffer, RUNNING_OUT, 2, case), refusal(6));
        assert_eq!(cut(&buffer, RUNNING_OUT, 3, case), done(RUNNING_OUT));
    }
}

#[test]
fn steps_are_refused_from_the_top_down_and_in_one_step_with_6_before_7() {
    let mut random = Random::new(17);
    let log = logs::log(8, &mut random);
    for mislinked in links::mislinked(&log) {
        let bytes = mislinked.forged.bytes();
        for d in 1..=8 {
            let answer = cut_log(&bytes, d, || format!("{:?}", mislinked.faults));
            let expected = mislinked.refusal(d).map_or(done(log.end(d)), refusal);
            assert_eq!(answer, expected, "{:?}, {d}", mislinked.faults);
        }
    }
}

/// Two taps: entry 2 begins at 52, and its left offset is at 101.
#[test]
fn a_left_offset_of_51_is_a_6_of_the_step_and_of_52_one_of_opening() {
    let mut random = Random::new(18);
    let mut bytes = logs::taps(2, &mut random).bytes().to_vec();
    let case = || "two taps".to_string();
    for (left_offset, to_0, to_1, to_2) in [(0, 0, 0, 0), (51, 0, 6, 0), (52, 6, 6, 6)] {
        bytes[101..105].copy_from_slice(&item::four_bytes(left_offset));
        let numbers = [0, 1, 2].map(|d| cut_log(&bytes, d, case).number);
        assert_eq!(numbers, [to_0, to_1, to_2], "left offset {left_offset}");
    }
}

/// Left offsets that lead to an entry of another index, or to entry 1 as if it were another.
#[test]
fn an_entry_met_must_have_the_index_wanted() {
    let mut random = Random::new(19);
    let log = logs::log(8, &mut random);
    for other in [1, 2, 3, 5, 6, 7] {
        let mut forged = Forged::of(&log);
        forged.node(8, 3).left_offset = log.end(other - 1);
        let bytes = forged.bytes();
        for d in 1..=4 {
            let case = || format!("entry {other} for 4");
            assert_eq!(cut_log(&bytes, d, case), refusal(6), "{other}, {d}");
        }
    }
}

/// No digest is worked out: links are compared as they are stored.
#[test]
fn a_log_of_invented_digests_is_cut_wherever_its_links_hold() {
    let mut random = Random::new(20);
    for round in 0..200 {
        let n = 1 + random.up_to(40);
        let pool = 1 + random.up_to(3);
        let forged = forged::invented(n, pool, &mut random).spread(5, &mut random);
        let bytes = forged.bytes();
        for d in 0..=n {
            let answer = cut_log(&bytes, d, || format!("round {round}, {n} values"));
            assert_eq!(answer, done(forged.end(d)), "round {round}, {d} of {n}");
        }
    }
}

#[test]
fn the_end_of_an_entry_may_lie_above_2_to_the_32() {
    let mut far = Far::forged(&mut Random::new(21));
    for (offset, number) in [(LIMIT - 1, 0), (LIMIT, 6), (LIMIT + 1, 6)] {
        let used = far.put(offset);
        let by_model = model::end_of_entry(&far.buffer[..used], 2).into();
        // The last bytes below 2^32 and all behind them.
        let near = LIMIT - 4_096;
        let mut expected = far.buffer[near..].to_vec();
        if number == 0 {
            expected[used - near..].fill(0xff);
        }
        let answer = ringlog::cut(far.buffer, used, 2);
        assert_eq!(answer, by_model, "{offset}");
        assert_eq!(answer.number, number, "{offset}");
        assert!(number != 0 || answer == done(used), "{offset}");
        assert!(far.buffer[near..] == expected, "{offset}");
    }
}

#[test]
fn whole_torn_bent_and_forged_logs_give_what_the_model_gives() {
    let mut random = Random::new(22);
    let mut met = [0; 8];
    for round in 0..20_000 {
        let log = forged::any(if round % 8 == 0 { 70 } else { 12 }, &mut random);
        let d = forged::index(&log, &mut random);
        let answer = cut_log(&log, d, || format!("round {round}: {log:02x?}"));
        met[answer.number as usize] += 1;
    }
    assert!([0, 2, 6, 7].iter().all(|&no| met[no] > 500), "{met:?}");
}
