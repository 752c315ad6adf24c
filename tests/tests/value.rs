//! The library's checked value: of a log and its root, value i where it stands in the log; of any
//! bytes and any root, what the model answers.

use ringlog_tests::bent::each_bent;
use ringlog_tests::far::{Far, LIMIT};
use ringlog_tests::forged::{self, folded_root, Forged};
use ringlog_tests::links::{self, RUNNING_OUT};
use ringlog_tests::logs::{self, LONG};
use ringlog_tests::memory::lend_beginnings;
use ringlog_tests::model::tree::leaf_digest;
use ringlog_tests::model::{item, Log};
use ringlog_tests::random::Random;
use ringlog_tests::refused::{self, FAR_ABOVE};
use ringlog_tests::ringlog::Part;
use ringlog_tests::ways::only_met;
use ringlog_tests::{model, ringlog};

/// Lengths of what is no root.
const NOT_32: [usize; 7] = [0, 1, 31, 33, 63, 64, 288];

fn refusal(number: u32) -> Part {
    Err(number).into()
}

/// Value i of a log where document 01 writes it, behind the index item of entry i.
fn in_place(log: &Log, i: usize) -> Part {
    let start = log.end(i - 1) + 5;
    Ok(start..start + log.value(i).len()).into()
}

/// The bytes that an answered part names.
fn item(log: &[u8], part: Part) -> &[u8] {
    assert_eq!(part.number, 0);
    &log[part.offset as usize..][..part.length as usize]
}

/// The checked value, held to the model's.
fn value(log: &[u8], root: &[u8], i: usize, case: impl Fn() -> String) -> Part {
    let answer = ringlog::value(log, root, i);
    let expected = model::value(log, root, i).into();
    assert_eq!(answer, expected, "value {i}, root {root:02x?}: {}", case());
    answer
}

#[test]
fn every_log_of_1_to_70_values_answers_every_value_in_its_place() {
    let mut random = Random::new(1);
    let mut log = Log::default();
    for n in 1..=70 {
        log.push(&logs::value(&mut random));
        let root = log.root();
        let case = || format!("{n} values");
        for i in 1..=n {
            let part = value(log.bytes(), &root, i, case);
            assert_eq!(part, in_place(&log, i), "{i} of {n}");
            assert_eq!(item(log.bytes(), part), log.value(i), "{i} of {n}");
        }
        for outside in [0, n + 1, n + 2].into_iter().chain(FAR_ABOVE) {
            let part = value(log.bytes(), &root, outside, case);
            assert_eq!(part, refusal(2), "{outside} of {n}");
        }
    }
}

#[test]
fn long_logs_answer_values_at_their_edges_and_elsewhere() {
    let mut random = Random::new(2);
    let mut log = Log::default();
    for n in LONG {
        logs::grow(&mut log, n, &mut random);
        let root = log.root();
        for i in logs::indexes(n, &mut random) {
            let part = ringlog::value(log.bytes(), &root, i);
            assert_eq!(part, in_place(&log, i), "{i} of {n}");
        }
        assert_eq!(ringlog::value(log.bytes(), &root, n + 1), refusal(2));
    }
}

#[test]
fn a_full_log_answers_every_value_in_its_place() {
    let mut log = logs::log(4_096, &mut Random::new(3));
    let root = log.root();
    for i in 1..=4_096 {
        let part = ringlog::value(log.bytes(), &root, i);
        assert_eq!(part, in_place(&log, i), "{i}");
    }
    assert_eq!(ringlog::value(log.bytes(), &root, 4_097), refusal(2));
}

#[test]
fn index_0_gives_2_also_on_an_empty_log() {
    let mut random = Random::new(4);
    for i in [0, 1, 2].into_iter().chain(FAR_ABOVE) {
        for root in [ringlog::root(&[]).digest, [0; 32], random.digest()] {
            assert_eq!(ringlog::value(&[], &root, i), refusal(2), "{i}, {root:02x?}");
        }
    }
    for n in 1..=40 {
        let mut log = logs::log(n, &mut random);
        let root = log.root();
        assert_eq!(ringlog::value(log.bytes(), &root, 0), refusal(2), "{n}");
    }
}

#[test]
fn no_lower_32_bits_of_the_index_are_taken_for_it() {
    let mut random = Random::new(5);
    let mut log = logs::taps(2, &mut random);
    let root = log.root();
    for high in [1 << 32, 1 << 33, 1 << 48, 1 << 63, !0 << 32] {
        for low in [0, 1, 2] {
            let part = ringlog::value(log.bytes(), &root, high + low);
            assert_eq!(part, refusal(2), "{high:#x} + {low}");
        }
    }
}

#[test]
fn a_root_that_has_not_32_bytes_gives_1_whatever_it_begins_with() {
    let mut random = Random::new(6);
    for n in 0..=9 {
        let mut log = logs::log(n, &mut random);
        let mut root = log.root().to_vec();
        root.extend(log.root());
        root.resize(300, 0);
        for len in NOT_32 {
            for i in [0, 1, n, n + 1] {
                let part = ringlog::value(log.bytes(), &root[..len], i);
                assert_eq!(part, refusal(1), "{i} of {n}, root of {len} bytes");
            }
        }
    }
}

/// Each refusal alone, every two of them together, and more: logs of eight values whose steps to
/// entry 1 hold or not and bytes that do not open, roots of right and wrong lengths, indexes, and
/// roots that the value folds to or not.
#[test]
fn the_first_refusal_in_the_order_1_6_2_and_then_steps_and_the_fold_counts() {
    let mut random = Random::new(7);
    let mut log = logs::log(8, &mut random);
    let root = log.root();
    let logs = refused::at_opening_or_steps(&log, &mut random);
    let folding = [
        root.to_vec(),
        root[..31].to_vec(),
        [&root[..], &[0]].concat(),
    ];
    let other = random.digest();
    let not_folding = [other.to_vec(), Vec::new(), [other, other].concat()];
    let folding = folding.into_iter().map(|root| (root, None));
    let not_folding = not_folding.into_iter().map(|root| (root, Some(7)));
    let roots: Vec<_> = folding.chain(not_folding).collect();
    for ((name, bytes), opening, steps) in logs {
        for (root, fold) in &roots {
            for i in [0, 1, 9, (1 << 32) + 1, usize::MAX] {
                let no_root = (root.len() != 32).then_some(1);
                let outside = (i != 1).then_some(2);
                let refusals = [no_root, opening, outside, steps, *fold];
                let number = refusals.into_iter().flatten().next();
                let part = value(&bytes, root, i, || name.clone());
                let expected = number.map_or(in_place(&log, 1), refusal);
                assert_eq!(part, expected, "{name}, {i}, {root:02x?}");
            }
        }
    }
}

#[test]
fn a_root_of_fewer_or_more_values_gives_7_also_for_a_value_that_both_have() {
    let mut random = Random::new(8);
    let log = logs::log(24, &mut random);
    let root = |n: usize| model::root(&log.bytes()[..log.end(n)]).expect("a log");
    for n in 1..=24 {
        for other in (0..=24).filter(|&other| other != n) {
            for i in 1..=n {
                let bytes = &log.bytes()[..log.end(n)];
                let case = || format!("{n} values, root of {other}");
                let part = value(bytes, &root(other), i, case);
                assert_eq!(part, refusal(7), "{i} of {n}, root of {other}");
            }
        }
    }
}

#[test]
fn every_bent_byte_of_the_root_gives_7() {
    let mut random = Random::new(9);
    for n in 1..=9 {
        let mut log = logs::log(n, &mut random);
        each_bent(&log.root(), |root, bent| {
            for i in 1..=n {
                let part = ringlog::value(log.bytes(), root, i);
                assert_eq!(part, refusal(7), "{i} of {n}, {bent}");
            }
        });
    }
}

/// Three taps. Entry 3 is reached by a right step, so nothing is compared with what it stores; its
/// leaf digest is a sibling of values 1 and 2, and its top digest is compared with nothing at all.
#[test]
fn the_value_is_hashed_anew_and_the_digests_that_its_entry_stores_are_not_asked() {
    let mut random = Random::new(10);
    let mut log = logs::taps(3, &mut random);
    let root = log.root();
    let case = || "three taps".to_string();
    let mut forged = Forged::of(&log);
    forged.entry(3).leaf = [0; 32];
    let bytes = forged.bytes();
    assert_eq!(value(&bytes, &root, 3, case), in_place(&log, 3));
    assert_eq!(value(&bytes, &root, 1, case), refusal(7));
    assert_eq!(value(&bytes, &root, 2, case), refusal(7));
    let mut forged = Forged::of(&log);
    forged.node(3, 2).own = [0; 32];
    let bytes = forged.bytes();
    for i in 1..=3 {
        assert_eq!(value(&bytes, &root, i, case), in_place(&log, i), "{i}");
        assert_eq!(value(&bytes, &[0; 32], i, case), refusal(7), "{i}");
    }
}

#[test]
fn a_value_that_is_not_the_one_under_its_stored_leaf_digest_gives_7() {
    let mut random = Random::new(11);
    for n in 1..=33 {
        let mut log = logs::log(n, &mut random);
        let root = log.root();
        for i in 1..=n {
            let mut forged = Forged::of(&log);
            let kind = log.value(i)[0];
            forged.entry(i).value = logs::value_of(kind, &mut random);
            let bytes = forged.bytes();
            let case = || format!("value {i} of {n} changed");
            assert_eq!(value(&bytes, &root, i, case), refusal(7), "{i} of {n}");
            // The links hold, and the other values do not change.
            for other in (1..=n).filter(|&other| other != i) {
                let part = value(&bytes, &root, other, case);
                assert_eq!(part, in_place(&log, other), "{other}, not {i}, of {n}");
            }
            // The changed value has a root of its own, which the log does not store.
            let root = folded_root(&bytes, i).expect("links that hold");
            assert_eq!(value(&bytes, &root, i, case), in_place(&log, i));
        }
    }
}

#[test]
fn every_beginning_of_a_log_gives_what_the_model_gives() {
    let mut random = Random::new(12);
    let log = logs::log(17, &mut random);
    let root = |n: usize| model::root(&log.bytes()[..log.end(n)]).expect("a log");
    let roots: Vec<_> = (0..=17).map(root).collect();
    for len in 0..=log.bytes().len() {
        let whole = (1..=17).take_while(|&i| log.end(i) <= len).count();
        for i in 0..=18 {
            let case = || format!("{len} bytes");
            value(&log.bytes()[..len], &roots[whole], i, case);
        }
    }
}

#[test]
fn whatever_byte_is_bent_a_value_that_is_answered_is_the_one_under_the_root() {
    let mut random = Random::new(13);
    let mut met = [0; 8];
    for n in 1..=9 {
        let mut log = logs::log(n, &mut random);
        let root = log.root();
        each_bent(log.bytes(), |bytes, bent| {
            for i in 0..=n + 1 {
                let case = || format!("{n} values, {bent}");
                let part = value(bytes, &root, i, case);
                met[part.number as usize] += 1;
                if part.number == 0 {
                    assert_eq!(item(bytes, part), log.value(i), "{}", case());
                }
            }
        });
    }
    assert!([0, 2, 6, 7].iter().all(|&no| met[no] > 1_000), "{met:?}");
}

/// Only the entries on the way are met: what else stands in the log does not matter.
#[test]
fn only_the_entries_met_matter() {
    let mut random = Random::new(14);
    let mut log = logs::log(8, &mut random);
    let root = log.root();
    for i in 1..=8 {
        let bytes = only_met(&log, 8, i, &mut random);
        let part = value(&bytes, &root, i, || format!("{i} of 8"));
        assert_eq!(part, in_place(&log, i), "{i}");
    }
}

#[test]
fn a_value_is_answered_where_the_links_lead_also_with_junk_between_entries() {
    let mut random = Random::new(15);
    for n in 1..=40 {
        let mut log = logs::log(n, &mut random);
        let root = log.root();
        let forged = Forged::of(&log).spread(30, &mut random);
        let bytes = forged.bytes();
        for i in 1..=n {
            let part = value(&bytes, &root, i, || format!("{n} values with gaps"));
            assert_eq!(part.offset as usize, forged.start(i) + 5, "{i} of {n}");
            assert_eq!(item(&bytes, part), log.value(i), "{i} of {n}");
        }
    }
    for _ in 0..50 {
        let (bytes, start) = links::second_of_two(&mut random);
        let root = model::root(&bytes).expect("a log that opens");
        let part = value(&bytes, &root, 2, || format!("{bytes:02x?}"));
        assert_eq!((part.number, part.offset as usize), (0, start + 5));
    }
}

#[test]
fn an_entry_met_may_overlap_the_one_it_is_met_from_and_not_run_out_of_the_log() {
    let mut random = Random::new(16);
    for _ in 0..50 {
        let bytes = links::overlapping(&mut random);
        let case = || format!("{bytes:02x?}");
        let root = folded_root(&bytes, 2).expect("a link that holds");
        assert_eq!(value(&bytes, &root, 2, case), Ok(7..16).into());
        assert_eq!(value(&bytes, &root, 1, case), refusal(6));
        let memory = links::running_out(&mut random);
        let case = || format!("{memory:02x?}");
        let part = value(&memory[..RUNNING_OUT], &root, 2, case);
        assert_eq!(part, refusal(6));
    }
}

#[test]
fn steps_are_refused_from_the_top_down_with_6_before_7_and_the_fold_comes_last() {
    let mut random = Random::new(17);
    let mut log = logs::log(8, &mut random);
    let root = log.root();
    for mislinked in links::mislinked(&log) {
        let bytes = mislinked.forged.bytes();
        for i in 1..=8 {
            let part = value(&bytes, &root, i, || format!("{:?}", mislinked.faults));
            let fold = mislinked.changes_sibling(i).then_some(7);
            let number = mislinked.refusal(i).or(fold);
            let expected = number.map_or(in_place(&log, i), refusal);
            assert_eq!(part, expected, "{:?}, {i}", mislinked.faults);
        }
    }
}

#[test]
fn a_log_of_invented_digests_gives_7_at_the_fold_though_its_links_hold() {
    let mut random = Random::new(18);
    for round in 0..200 {
        let n = 2 + random.up_to(38);
        let pool = 1 + random.up_to(3);
        let forged = forged::invented(n, pool, &mut random).spread(5, &mut random);
        let bytes = forged.bytes();
        let stored = model::root(&bytes).expect("a log that opens");
        for i in 1..=n {
            let case = || format!("round {round}, {n} values");
            assert_eq!(value(&bytes, &stored, i, case), refusal(7), "{i}");
            let root = folded_root(&bytes, i).expect("links that hold");
            let part = value(&bytes, &root, i, case);
            assert_eq!(part.offset as usize, forged.start(i) + 5, "{i}");
        }
    }
}

/// Two taps: entry 2 begins at 52, and its left offset is at 101.
#[test]
fn a_left_offset_of_51_is_a_6_of_the_step_and_of_52_one_of_opening() {
    let mut random = Random::new(19);
    let mut log = logs::taps(2, &mut random);
    let root = log.root();
    let mut bytes = log.bytes().to_vec();
    let case = || "two taps".to_string();
    for (left_offset, first, second) in [(0, 0, 0), (51, 6, 0), (52, 6, 6)] {
        bytes[101..105].copy_from_slice(&item::four_bytes(left_offset));
        let numbers = [1, 2].map(|i| value(&bytes, &root, i, case).number);
        assert_eq!(numbers, [first, second], "left offset {left_offset}");
    }
}

#[test]
fn one_value_answers_against_its_leaf_digest() {
    let mut random = Random::new(20);
    for _ in 0..100 {
        let item = logs::value(&mut random);
        let log = Log::of(&[&item]);
        let part = ringlog::value(log.bytes(), &leaf_digest(&item), 1);
        assert_eq!(part, Ok(5..5 + item.len()).into(), "{item:02x?}");
    }
}

#[test]
fn the_root_may_be_lent_from_the_log_itself() {
    let mut random = Random::new(24);
    for n in 2..=20 {
        let log = logs::log(n, &mut random);
        let stored = log.bytes().len() - 5 - 32..log.bytes().len() - 5;
        for i in 1..=n {
            let part = ringlog::value(log.bytes(), &log.bytes()[stored.clone()], i);
            assert_eq!(part, in_place(&log, i), "{i} of {n}");
        }
    }
}

#[test]
fn a_part_may_begin_above_2_to_the_32() {
    let mut far = Far::forged(&mut Random::new(21));
    for (offset, number) in [(LIMIT - 1, 0), (LIMIT, 6), (LIMIT + 1, 6)] {
        let end = far.put(offset);
        let log = &far.buffer[..end];
        let root = folded_root(log, 2).unwrap_or([0; 32]);
        let part = value(log, &root, 2, || format!("a last entry at {offset}"));
        assert_eq!(part.number, number, "a last entry at {offset}");
        let start = if number == 0 { offset + 5 } else { 0 };
        assert_eq!(part.offset as usize, start, "a last entry at {offset}");
    }
}

#[test]
fn whole_torn_bent_and_forged_logs_give_what_the_model_gives() {
    let mut random = Random::new(22);
    let mut met = [0; 8];
    for round in 0..20_000 {
        let log = forged::any(if round % 8 == 0 { 70 } else { 12 }, &mut random);
        let i = forged::index(&log, &mut random);
        let stored = model::root(&log).unwrap_or([0; 32]);
        let mut root = match round % 4 {
            0 => stored,
            _ => folded_root(&log, i).unwrap_or(stored),
        };
        if random.up_to(9) == 0 {
            root[random.up_to(31)] ^= 0x01;
        }
        let part = value(&log, &root, i, || format!("round {round}: {log:02x?}"));
        met[part.number as usize] += 1;
    }
    assert!([0, 2, 6, 7].iter().all(|&no| met[no] > 500), "{met:?}");
}

#[test]
fn a_checked_value_changes_no_byte_and_looks_at_none_around() {
    let mut random = Random::new(23);
    let mut log = logs::log(9, &mut random);
    let root = log.root();
    lend_beginnings(log.bytes(), &[0x00, 0x30, 0xff], |log, case| {
        for i in 0..=10 {
            value(log, &root, i, case);
        }
    });
}
