//! Opening and steps in the library's search: where links lead, what is refused for which log, and
//! what is refused first.

use ringlog_tests::forged::Forged;
use ringlog_tests::links::{self, RUNNING_OUT};
use ringlog_tests::model::entry::shaped;
use ringlog_tests::model::search::Side;
use ringlog_tests::model::{item, Log};
use ringlog_tests::pairs::{self, values, with_others};
use ringlog_tests::random::Random;
use ringlog_tests::ringlog::Split;
use ringlog_tests::splits::{agree, differ_at, refusal, search};
use ringlog_tests::{logs, refused};

#[test]
fn what_does_not_open_is_refused_with_6_for_the_first_log_before_the_second() {
    let mut random = Random::new(1);
    let list = refused::not_opening(&mut random);
    let whole = logs::log(8, &mut random);
    let other = logs::log(5, &mut random);
    // It opens, and no step on its way to entry 1 holds.
    let mislinked = links::mislinked(&whole).pop().expect("all faults");
    let bad = mislinked.forged.bytes();
    for (at, (name, bytes)) in list.iter().enumerate() {
        for partner in [&[], whole.bytes(), other.bytes(), &bad] {
            let case = || format!("{name}, {} bytes", partner.len());
            let split = search(bytes, partner, case);
            assert_eq!(split, refusal(Side::First, 6), "{}", case());
            let split = search(partner, bytes, case);
            assert_eq!(split, refusal(Side::Second, 6), "{}", case());
        }
        let (other_name, other) = &list[(at * 7 + 1) % list.len()];
        let case = || format!("{name} and {other_name}");
        let split = search(bytes, other, case);
        assert_eq!(split, refusal(Side::First, 6), "{}", case());
        let split = search(bytes, bytes, case);
        assert_eq!(split, refusal(Side::First, 6), "{}", case());
    }
}

/// A log of eight values with every fault, and a shorter one to which it is brought.
#[test]
fn the_longer_log_is_brought_to_entry_n_by_steps_with_6_before_7() {
    let mut random = Random::new(2);
    let list = values(8, &mut random);
    let log = Log::of(&list);
    for mislinked in links::mislinked(&log) {
        let bytes = mislinked.forged.bytes();
        for n in 1..=8 {
            let case = || format!("{:?} brought to {n}", mislinked.faults);
            let shorter = log.beginning(n);
            let number = mislinked.refusal(n);
            let expected = number.map_or(agree(8, n), |number| refusal(Side::First, number));
            assert_eq!(search(&bytes, shorter, case), expected, "{}", case());
            let expected = number.map_or(agree(n, 8), |number| refusal(Side::Second, number));
            assert_eq!(search(shorter, &bytes, case), expected, "{}", case());
        }
    }
}

/// Every fault of the links (8, 3), (4, 2) and (2, 1) in both logs, which differ at 1: each step is
/// taken in the first log and then in the second, before the step below it.
#[test]
fn steps_are_refused_from_the_top_down_and_in_the_first_log_before_the_second() {
    let mut random = Random::new(3);
    let list = values(8, &mut random);
    let firsts = links::mislinked(&Log::of(&list));
    let seconds = links::mislinked(&Log::of(&with_others(&list, &[1], &mut random)));
    for first in &firsts {
        for second in &seconds {
            let steps = first.faults.iter().zip(&second.faults);
            let expected = steps
                .flat_map(|(one, other)| {
                    let in_first = one.refusal().map(|number| (Side::First, number));
                    let in_second = other.refusal().map(|number| (Side::Second, number));
                    [in_first, in_second]
                })
                .flatten()
                .next();
            let case = || format!("{:?} and {:?}", first.faults, second.faults);
            let split = search(&first.forged.bytes(), &second.forged.bytes(), case);
            let expected = expected.map_or(differ_at(8, 8, 1), Split::from);
            assert_eq!(split, expected, "{}", case());
        }
    }
}

/// Logs of 16 and 8 values that differ at 1, both with broken links: the longer one is brought to
/// entry 8 by the link (16, 4), and only then steps are taken.
#[test]
fn both_logs_are_at_entry_n_before_a_step_down_is_taken() {
    let mut random = Random::new(4);
    let list = values(16, &mut random);
    let long = Log::of(&list);
    let short = Log::of(&with_others(&list[..8], &[1], &mut random));
    for (place, digest, number) in [(1, 0, 6), (0, 1, 7), (1, 1, 6)] {
        let mut forged = Forged::of(&long);
        forged.node(16, 4).left_offset += place;
        forged.node(16, 4).left[0] ^= digest;
        let bytes = forged.bytes();
        for mislinked in links::mislinked(&short) {
            let short = mislinked.forged.bytes();
            let case = || format!("{number}, {:?}", mislinked.faults);
            let split = search(&bytes, &short, case);
            assert_eq!(split, refusal(Side::First, number), "{}", case());
            let split = search(&short, &bytes, case);
            assert_eq!(split, refusal(Side::Second, number), "{}", case());
        }
    }
    for mislinked in links::mislinked(&short) {
        let short = mislinked.forged.bytes();
        let case = || format!("{:?}", mislinked.faults);
        let number = mislinked.refusal(1);
        let in_second = number.map_or(differ_at(16, 8, 1), |number| refusal(Side::Second, number));
        assert_eq!(search(long.bytes(), &short, case), in_second, "{}", case());
        let in_first = number.map_or(differ_at(8, 16, 1), |number| refusal(Side::First, number));
        assert_eq!(search(&short, long.bytes(), case), in_first, "{}", case());
    }
}

/// One log stores other digests for one node or leaf and for all nodes above it. At a node the
/// search then finds left and right equal; at a leaf i the logs differ at i.
#[test]
fn left_and_right_both_equal_under_unequal_nodes_are_refused_with_7_for_both() {
    let mut random = Random::new(5);
    for n in 1..=40 {
        let log = logs::log(n, &mut random);
        for (i, h) in pairs::addresses(n) {
            let retold = pairs::retold(&log, (i, h), &mut random).bytes();
            let case = || format!("({i}, {h}) told anew in {n} values");
            let expected = match h {
                0 => differ_at(n, n, i),
                _ => refusal(Side::Both, 7),
            };
            let split = search(log.bytes(), &retold, case);
            assert_eq!(split, expected, "{}", case());
            let split = search(&retold, log.bytes(), case);
            assert_eq!(split, expected, "{}", case());
        }
    }
}

/// Two taps: entry 2 begins at 52, and its left offset is at 101.
#[test]
fn a_left_offset_of_51_is_a_6_of_the_step_and_of_52_one_of_opening() {
    let mut random = Random::new(6);
    let tap = logs::tap(&mut random);
    let log = Log::of(&[logs::tap(&mut random), tap.clone()]);
    let other = Log::of(&[logs::tap(&mut random), tap]);
    let mut bytes = log.bytes().to_vec();
    let case = || "two taps".to_string();
    for (left_offset, opening, step) in [(0, 0, 0), (51, 0, 6), (52, 6, 6)] {
        bytes[101..105].copy_from_slice(&item::four_bytes(left_offset));
        let numbers = [
            search(&bytes, log.bytes(), case).number,
            search(log.bytes(), &bytes, case).number,
            search(&bytes, other.bytes(), case).number,
            search(other.bytes(), &bytes, case).number,
            search(&bytes, log.beginning(1), case).number,
        ];
        let expected = [opening, opening, step, step, step];
        assert_eq!(numbers, expected, "left offset {left_offset}");
    }
}

#[test]
fn an_entry_met_must_have_the_index_wanted() {
    let mut random = Random::new(7);
    let list = values(8, &mut random);
    let log = Log::of(&list);
    let differing = Log::of(&with_others(&list, &[1], &mut random));
    for other in [1, 2, 3, 5, 6, 7] {
        let mut forged = Forged::of(&log);
        forged.node(8, 3).left_offset = log.end(other - 1);
        let bytes = forged.bytes();
        let case = || format!("entry {other} for 4");
        let split = search(&bytes, differing.bytes(), case);
        assert_eq!(split, refusal(Side::First, 6), "{other}");
        let split = search(log.beginning(2), &bytes, case);
        assert_eq!(split, refusal(Side::Second, 6), "{other}");
    }
}

/// Of two entries with one index the one at the left offset is met; entry 1 is met at 0 only; an
/// entry may overlap the one that it is met from, and may not run out of the log.
#[test]
fn an_entry_is_met_where_the_links_lead_to() {
    let mut random = Random::new(8);
    for _ in 0..50 {
        let (bytes, start) = links::second_of_two(&mut random);
        let case = || format!("{bytes:02x?}");
        let reached = shaped(&bytes, start, 2).expect("entry 2");
        let first_value = shaped(&bytes, 0, 1).expect("entry 1").value;
        let short = Log::of(&[&first_value, &reached.value]);
        assert_eq!(search(&bytes, short.bytes(), case), agree(3, 2));
        let other = [first_value, pairs::other_value(&reached.value, &mut random)];
        let split = search(Log::of(&other).bytes(), &bytes, case);
        assert_eq!(split, differ_at(2, 3, 2));

        let bytes = links::entry_1_elsewhere(&mut random);
        let case = || format!("{bytes:02x?}");
        let short = logs::log(1, &mut random);
        let split = search(&bytes, short.bytes(), case);
        assert_eq!(split, refusal(Side::First, 6));
        let split = search(short.bytes(), &bytes, case);
        assert_eq!(split, refusal(Side::Second, 6));

        let bytes = links::overlapping(&mut random);
        let case = || format!("{bytes:02x?}");
        let mut short = Forged::of(&logs::log(2, &mut random));
        let split = search(&bytes, &short.bytes(), case);
        assert_eq!(split, refusal(Side::First, 6));
        short.tell((2, 1), shaped(&bytes, 2, 2).expect("entry 2").top());
        assert_eq!(search(&bytes, &short.bytes(), case), agree(3, 2));

        let memory = links::running_out(&mut random);
        let case = || format!("{memory:02x?}");
        short.tell((2, 1), shaped(&memory, 1, 2).expect("entry 2").top());
        let split = search(&short.bytes(), &memory[..RUNNING_OUT], case);
        assert_eq!(split, refusal(Side::Second, 6));
    }
}

#[test]
fn junk_between_entries_changes_neither_the_answer_nor_the_reads() {
    let mut random = Random::new(9);
    for n in 1..=30 {
        let list = values(n, &mut random);
        let log = Log::of(&list);
        let spread = Forged::of(&log).spread(30, &mut random).bytes();
        for i in 1..=n {
            let other = Log::of(&with_others(&list, &[i], &mut random));
            let other_spread = Forged::of(&other).spread(30, &mut random).bytes();
            let case = || format!("{i} of {n} with gaps");
            let split = search(&spread, &other_spread, case);
            assert_eq!(split, differ_at(n, n, i), "{i} of {n}");
            let split = search(log.beginning(i), &spread, case);
            assert_eq!(split, agree(i, n), "{i} of {n}");
        }
    }
}
