//! The library's search: of two logs, what the comparison value by value answers. It goes by the
//! digests that are stored, from entry n of both on.

use ringlog_tests::far::{Far, LIMIT};
use ringlog_tests::forged::Forged;
use ringlog_tests::logs::{self, LONG};
use ringlog_tests::memory::lend_beginnings_beside;
use ringlog_tests::model::search::Side;
use ringlog_tests::model::tree::top;
use ringlog_tests::model::{self, item, Log};
use ringlog_tests::pairs::{self, parted_at, values, with_others};
use ringlog_tests::random::Random;
use ringlog_tests::ringlog::{self, Split};
use ringlog_tests::splits::{agree, answer, differ_at, refusal, search};

#[test]
fn every_two_logs_of_0_to_70_values_get_the_answer_of_the_comparison_value_by_value() {
    let mut random = Random::new(1);
    let list = values(70, &mut random);
    let log = Log::of(&list);
    let mut met = [0; 4];
    for common in 0..=70 {
        let other_list = parted_at(&list, common + 1, &mut random);
        let other = Log::of(&other_list);
        for m1 in common..=70 {
            for m2 in common..=70 {
                let case = || format!("{m1} and {m2} values, {common} in common");
                let (k, verdict) = model::compare(&list[..m1], &other_list[..m2]);
                let split = search(log.beginning(m1), other.beginning(m2), case);
                assert_eq!(split, answer(m1, m2, k, verdict), "{}", case());
                assert_eq!(k, common, "{}", case());
                met[split.verdict as usize] += 1;
            }
        }
    }
    assert_eq!(met, [71, 2_485, 2_485, 116_795]);
}

#[test]
fn of_several_differences_the_leftmost_is_found() {
    let mut random = Random::new(2);
    for n in 2..=33 {
        let list = values(n, &mut random);
        let log = Log::of(&list);
        for i in 1..=n {
            for j in i + 1..=n {
                let other = Log::of(&with_others(&list, &[i, j], &mut random));
                let case = || format!("{n} values, others at {i} and {j}");
                let split = search(log.bytes(), other.bytes(), case);
                assert_eq!(split, differ_at(n, n, i), "{}", case());
            }
        }
    }
}

/// Every bit of every value item with each kind, among other values.
#[test]
fn values_that_differ_in_one_bit_or_in_their_kind_differ() {
    let mut random = Random::new(3);
    for kind in item::VALUES {
        let mut list = values(6, &mut random);
        list[3] = logs::value_of(kind, &mut random);
        let log = Log::of(&list);
        let value = list[3].clone();
        for at in 1..value.len() {
            for bit in 0..8 {
                list[3][at] ^= 1 << bit;
                let other = Log::of(&list);
                let split = ringlog::search(log.bytes(), other.bytes());
                assert_eq!(split, differ_at(6, 6, 4), "kind {kind:#04x}, byte {at}");
                list[3][at] ^= 1 << bit;
            }
        }
        for other_kind in item::VALUES.into_iter().filter(|&other| other != kind) {
            let body_len = item::body_len(other_kind).expect("a kind");
            list[3] = [&[other_kind], &value[1..]].concat();
            list[3].resize(1 + body_len, 0x00);
            let split = ringlog::search(log.bytes(), Log::of(&list).bytes());
            assert_eq!(split, differ_at(6, 6, 4), "{kind:#04x}, {other_kind:#04x}");
        }
        list[3] = value;
        let split = ringlog::search(log.bytes(), Log::of(&list).bytes());
        assert_eq!(split, agree(6, 6), "kind {kind:#04x}");
    }
}

#[test]
fn long_logs_get_the_answer_of_the_comparison_at_their_edges_and_elsewhere() {
    let mut random = Random::new(4);
    let list = values(4_095, &mut random);
    let log = Log::of(&list);
    for i in [1, 2, 128, 129, 1_000, 2_048, 2_049, 3_001, 4_095] {
        let other_list = with_others(&list, &[i], &mut random);
        let other = Log::of(&other_list);
        for m1 in LONG {
            for m2 in LONG {
                let (k, verdict) = model::compare(&list[..m1], &other_list[..m2]);
                let split = ringlog::search(log.beginning(m1), other.beginning(m2));
                assert_eq!(split, answer(m1, m2, k, verdict), "{m1}, {m2}, {i}");
            }
        }
    }
}

#[test]
fn full_logs_that_differ_at_the_first_the_middle_or_the_last_value_differ_there() {
    let mut random = Random::new(5);
    let list = values(4_096, &mut random);
    let log = Log::of(&list);
    let case = || "4,096 values".to_string();
    for i in [1, 2_048, 2_049, 4_095, 4_096] {
        let other = Log::of(&with_others(&list, &[i], &mut random));
        let shorter = other.beginning(4_095);
        let expected = match i {
            4_096 => [agree(4_096, 4_095), agree(4_095, 4_096)],
            _ => [differ_at(4_096, 4_095, i), differ_at(4_095, 4_096, i)],
        };
        let split = search(log.bytes(), other.bytes(), case);
        assert_eq!(split, differ_at(4_096, 4_096, i), "{i}");
        assert_eq!(search(log.bytes(), shorter, case), expected[0], "{i}");
        assert_eq!(search(shorter, log.bytes(), case), expected[1], "{i}");
    }
    assert_eq!(search(log.bytes(), log.bytes(), case), agree(4_096, 4_096));
    let split = search(log.bytes(), log.beginning(1), case);
    assert_eq!((split.first_reads, split.second_reads), (13, 1));
}

#[test]
fn if_n_is_0_both_logs_were_opened_and_0_values_are_in_common() {
    let mut random = Random::new(6);
    let case = || "an empty log".to_string();
    assert_eq!(search(&[], &[], case), Split::default());
    for m in 1..=70 {
        let log = logs::log(m, &mut random);
        let mut expected = Split {
            verdict: 2,
            first_reads: 1,
            ..Split::default()
        };
        assert_eq!(search(log.bytes(), &[], case), expected, "{m} values");
        expected.verdict = 1;
        (expected.first_reads, expected.second_reads) = (0, 1);
        assert_eq!(search(&[], log.bytes(), case), expected, "{m} values");
    }
    for junk in [&[0x77; 1][..], &[0x77; 60], &[0x30, 0, 0, 0, 0]] {
        let refused_first = refusal(Side::First, 6);
        let refused_second = refusal(Side::Second, 6);
        assert_eq!(search(junk, &[], case), refused_first, "{junk:02x?}");
        assert_eq!(search(&[], junk, case), refused_second, "{junk:02x?}");
    }
    // No step is taken: what stands before the last entry may be anything.
    for index in 2..=4_096 {
        let bytes = logs::forged(index, 100, &mut random);
        assert_eq!(search(&bytes, &[], case).number, 0, "index {index}");
    }
}

/// The longer log's own root is not asked: it may be that of the shorter one or any other.
#[test]
fn equal_top_digests_are_those_of_entry_n_in_both_logs() {
    let mut random = Random::new(7);
    let case = || "an invented root".to_string();
    for m in 2..=20 {
        for n in 1..m {
            let list = values(m, &mut random);
            let mut short = Log::of(&list[..n]);
            let other = with_others(&list, &[1], &mut random);
            for root in [short.root(), random.digest()] {
                let mut same = Forged::of(&Log::of(&list));
                same.tell((m, top(m)), root);
                let bytes = same.bytes();
                assert_eq!(search(&bytes, short.bytes(), case), agree(m, n));
                assert_eq!(search(short.bytes(), &bytes, case), agree(n, m));
                let mut differing = Forged::of(&Log::of(&other));
                differing.tell((m, top(m)), root);
                let bytes = differing.bytes();
                assert_eq!(search(&bytes, short.bytes(), case), differ_at(m, n, 1));
                assert_eq!(search(short.bytes(), &bytes, case), differ_at(n, m, 1));
            }
        }
    }
}

#[test]
fn the_search_compares_digests_and_never_values() {
    let mut random = Random::new(8);
    let case = || "digests and values".to_string();
    // One tap, and the same with its stored leaf digest zeroed.
    let tap = logs::taps(1, &mut random);
    let mut zeroed = Forged::of(&tap);
    zeroed.tell((1, 0), [0; 32]);
    let split = search(tap.bytes(), &zeroed.bytes(), case);
    assert_eq!(split, differ_at(1, 1, 1));
    for n in 1..=20 {
        let log = logs::log(n, &mut random);
        for i in 1..=n {
            // Another value under the same digests, and the same value under another digest.
            let mut forged = Forged::of(&log);
            forged.entry(i).value = pairs::other_value(log.value(i), &mut random);
            let forged = forged.spread(0, &mut random);
            let split = search(log.bytes(), &forged.bytes(), case);
            assert_eq!(split, agree(n, n), "{i} of {n}");
            let retold = pairs::retold(&log, (i, 0), &mut random);
            let split = search(&retold.bytes(), log.bytes(), case);
            assert_eq!(split, differ_at(n, n, i), "{i} of {n}");
        }
    }
}

/// Every bit of the digests that decide: of tops, of left digests and of right ones.
#[test]
fn digests_that_differ_in_one_bit_differ() {
    let mut random = Random::new(9);
    let log = logs::log(4, &mut random);
    for bit in 0..256 {
        let bent = |mut digest: [u8; 32]| {
            digest[bit / 8] ^= 1 << (bit % 8);
            digest
        };
        let case = || format!("bit {bit}");
        // Of a node alone, or of a node or leaf and all nodes above it.
        for (addresses, expected) in [
            (&[(4, 2)][..], refusal(Side::Both, 7)),
            (&[(4, 2), (4, 1), (4, 0)], differ_at(4, 4, 4)),
            (&[(4, 2), (4, 1), (3, 0)], differ_at(4, 4, 3)),
            (&[(4, 2), (2, 1), (1, 0)], differ_at(4, 4, 1)),
            (&[(4, 2), (2, 1)], refusal(Side::Both, 7)),
        ] {
            let mut forged = Forged::of(&log);
            for &(i, h) in addresses {
                let digest = bent(forged.entry(i).digest(h));
                forged.tell((i, h), digest);
            }
            forged.link_digests();
            let split = search(log.bytes(), &forged.bytes(), case);
            assert_eq!(split, expected, "bit {bit} of {addresses:?}");
        }
        // Of a link alone, under nodes that differ.
        let mut forged = Forged::of(&log);
        forged.node(4, 2).left = bent(forged.node(4, 2).left);
        forged.tell((4, 2), random.digest());
        let split = search(&forged.bytes(), log.bytes(), case);
        assert_eq!(split, refusal(Side::First, 7), "bit {bit} of a link");
    }
}

#[test]
fn the_two_logs_may_be_the_same_bytes_or_overlap() {
    let mut random = Random::new(10);
    let case = || "one memory".to_string();
    for n in 0..=40 {
        let log = logs::log(n, &mut random);
        let memory = log.bytes();
        assert_eq!(search(memory, memory, case), agree(n, n), "{n} values");
        for m in 0..=n {
            let split = search(memory, &memory[..log.end(m)], case);
            assert_eq!(split, agree(n, m), "{n} and {m} values");
            let split = search(&memory[..log.end(m)], memory, case);
            assert_eq!(split, agree(m, n), "{m} and {n} values");
            // This one begins inside the first log, and seldom opens.
            search(memory, &memory[log.end(m)..], case);
        }
    }
    let junk = random.bytes(99);
    assert_eq!(search(&junk, &junk, case), refusal(Side::First, 6));
}

#[test]
fn a_last_entry_just_below_2_to_the_32_is_searched_and_not_from_there_on() {
    let mut random = Random::new(11);
    let list = values(2, &mut random);
    let log = Log::of(&list);
    let other = Log::of(&with_others(&list, &[1], &mut random));
    let mut far = Far::of(&log);
    for (offset, opens) in [(LIMIT - 1, true), (LIMIT, false), (LIMIT + 1, false)] {
        let end = far.put(offset);
        let case = || format!("a last entry at {offset}");
        for (near, expected) in [
            (log.bytes(), agree(2, 2)),
            (log.beginning(1), agree(2, 1)),
            (other.bytes(), differ_at(2, 2, 1)),
        ] {
            let split = search(&far.buffer[..end], near, case);
            let refused = refusal(Side::First, 6);
            assert_eq!(split, if opens { expected } else { refused }, "{offset}");
        }
    }
}

#[test]
fn a_search_changes_no_byte_and_looks_at_none_around() {
    let mut random = Random::new(12);
    let list = values(9, &mut random);
    let log = Log::of(&list);
    let other = Log::of(&with_others(&list, &[2], &mut random));
    let around = [0x00, 0x30, 0xff];
    lend_beginnings_beside(
        log.bytes(),
        other.bytes(),
        &around,
        |first, second, case| {
            search(first, second, case);
        },
    );
}
