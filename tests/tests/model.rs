//! The model against document 01's bench sheet, trees written out by hand, and digests from outside
//! this project.

use ringlog_tests::forged::Forged;
use ringlog_tests::hex::hex;
use ringlog_tests::links::{MET_OF_EIGHT, RUNNING_OUT};
use ringlog_tests::logs::{numbered_taps, numbered_values};
use ringlog_tests::model::comparison::Verdict;
use ringlog_tests::model::entry::last_entry;
use ringlog_tests::model::inclusion::{fold, hops};
use ringlog_tests::model::item::{is_value, VALUES};
use ringlog_tests::model::reads::lefts;
use ringlog_tests::model::search::Side;
use ringlog_tests::model::tree::{
    heights, leaf_digest, left_child, node_digest, right_child, Tree,
};
use ringlog_tests::model::walk::{bring_to, left_step, Met};
use ringlog_tests::model::{self, Log};
use ringlog_tests::random::Random;
use ringlog_tests::{forged, links, logs, refused, ways};

#[test]
fn entries_7_and_22_have_the_nodes_of_the_bench_sheet() {
    assert_eq!(heights(7), [2, 3]);
    assert_eq!([2, 3].map(|h| left_child(7, h)), [(6, 1), (4, 2)]);
    assert_eq!(heights(22), [1, 3, 5]);
    let left = [1, 3, 5].map(|h| left_child(22, h));
    assert_eq!(left, [(21, 0), (20, 2), (16, 4)]);
    let right = [1, 3, 5].map(|h| right_child(22, h));
    assert_eq!(right, [(22, 0), (22, 1), (22, 3)]);
}

#[test]
fn eight_taps_begin_and_end_where_the_bench_sheet_says() {
    let log = Log::of(&numbered_taps(8));
    assert_eq!(log.starts(), [0, 52, 174, 296, 488, 610, 802, 994]);
    assert_eq!(log.bytes().len(), 1_256);
}

#[test]
fn a_log_of_4096_tickets_takes_2097152_bytes() {
    let log = logs::tickets(4_096, &mut Random::new(1));
    assert_eq!(log.bytes().len(), 2_097_152);
}

#[test]
fn the_roots_of_none_to_eight_values_are_those_of_the_trees_written_out() {
    let mut random = Random::new(2);
    let values: Vec<_> = (0..8).map(|_| logs::value(&mut random)).collect();
    let leaf = |i: usize| leaf_digest(&values[i - 1]);
    let node = |h, left, right| node_digest(h, &left, &right);
    let up_to_2 = node(1, leaf(1), leaf(2));
    let up_to_4 = node(2, up_to_2, node(1, leaf(3), leaf(4)));
    let from_5_to_6 = node(1, leaf(5), leaf(6));
    let from_5_to_8 = node(2, from_5_to_6, node(1, leaf(7), leaf(8)));
    let roots = [
        model::sha256(&[]),
        leaf(1),
        up_to_2,
        node(2, up_to_2, leaf(3)),
        up_to_4,
        node(3, up_to_4, leaf(5)),
        node(3, up_to_4, from_5_to_6),
        node(3, up_to_4, node(2, from_5_to_6, leaf(7))),
        node(3, up_to_4, from_5_to_8),
    ];
    for (n, root) in roots.into_iter().enumerate() {
        assert_eq!(Log::of(&values[..n]).root(), root, "{n} values");
    }
}

/// The digests are from a program of its own, with the hash of Python's standard library.
#[test]
fn logs_of_22_values_are_byte_for_byte_those_of_another_program() {
    let mut log = Log::of(&numbered_taps(22));
    assert_eq!(
        hex(&model::sha256(log.bytes())),
        "56f036f084d1293af9ad8fa5c02b21e91ed07f4d066cbb12564f3a33933b5bd8"
    );
    assert_eq!(
        hex(&log.root()),
        "5f962f0ce96df0e56665521c1aa680e258479a21757c9edd9d919769469307d0"
    );
    let mut log = Log::of(&numbered_values(22));
    assert_eq!(
        hex(&model::sha256(log.bytes())),
        "9dc895be34cb7731893eee4c6dff469af00e7d8bc91b3399ba3605bd86ef2a21"
    );
    assert_eq!(
        hex(&log.root()),
        "050c425a5c18a02511d2f38f8de30d86edc3882a2d123250b78d7b76235fdc12"
    );
}

#[test]
fn a_remembered_digest_is_the_one_that_the_values_give_afresh() {
    let mut random = Random::new(3);
    let mut grown = Tree::default();
    for n in 1..=130 {
        grown.push(&logs::value(&mut random));
        for h in [0].into_iter().chain(heights(n)) {
            let mut fresh = Tree::default();
            grown.values().iter().for_each(|value| fresh.push(value));
            assert_eq!(grown.digest((n, h)), fresh.digest((n, h)), "({n}, {h})");
        }
    }
}

/// Of the 256 kinds with bodies of 0 to 80 bytes three are values, each with one length.
#[test]
fn the_value_items_are_three_kinds_with_a_length_each() {
    let mut found = Vec::new();
    for kind in 0..=255 {
        for body in 0..=80 {
            if is_value(&vec![kind; 1 + body]) {
                found.push((kind, body));
            }
        }
    }
    assert_eq!(found, [(0x10, 8), (0x11, 16), (0x12, 48)]);
    assert_eq!(VALUES, [0x10, 0x11, 0x12]);
    assert!(!is_value(&[]));
}

#[test]
fn appends_one_after_another_make_the_log_of_the_values() {
    let mut random = Random::new(4);
    let mut log = Log::default();
    let mut buffer = vec![0; 200 * logs::LONGEST_ENTRY];
    for n in 1..=200 {
        let value = logs::value(&mut random);
        let used = model::append(&mut buffer, log.bytes().len(), &value);
        log.push(&value);
        assert_eq!(used, Ok(log.bytes().len()), "{n} values");
        assert!(buffer.starts_with(log.bytes()), "{n} values");
        assert_eq!(model::root(log.bytes()), Ok(log.root()), "{n} values");
    }
}

#[test]
fn what_is_said_not_to_open_does_not_and_forged_entries_do() {
    let mut random = Random::new(5);
    for (name, bytes) in refused::not_opening(&mut random) {
        assert!(last_entry(&bytes).is_none(), "{name}: {bytes:02x?}");
        assert_eq!(model::root(&bytes), Err(6), "{name}");
    }
    for index in 2..=4_096 {
        let bytes = logs::forged(index, 300, &mut random);
        let last = last_entry(&bytes).map(|entry| entry.index);
        assert_eq!(last, Some(index));
    }
}

#[test]
fn hops_are_those_of_the_bench_sheet_and_of_every_path() {
    for (n, i, expected) in logs::SHEET_HOPS {
        assert_eq!(hops(n, i), expected, "hops({n}, {i})");
    }
    let mut tree = Tree::default();
    for n in 1..=300 {
        tree.push(&[]);
        for i in 1..=n {
            assert_eq!(hops(n, i), tree.path(i).len(), "hops({n}, {i})");
        }
    }
}

#[test]
fn lefts_are_those_of_the_bench_sheet_and_of_every_way() {
    let sheet = [(22, 18, 2), (7, 1, 3), (7, 7, 0), (7, 5, 2)];
    for (n, i, expected) in sheet {
        assert_eq!(lefts(n, i), expected, "lefts({n}, {i})");
    }
    let mut log = Log::default();
    for n in 1..=130 {
        log.push(&numbered_taps(1)[0]);
        for i in 1..=n {
            let way = bring_to(log.bytes(), last_met(log.bytes()), i).expect("a way");
            assert_eq!(way.read.len(), lefts(n, i), "lefts({n}, {i})");
            let ends = ways::links(n, i).into_iter().map(|link| log.end(link.to.0));
            let read = way.read.iter().rev().map(|place| place.end);
            assert!(ends.eq(read), "the links to {i} of {n}");
        }
    }
}

#[test]
fn the_paths_of_seven_values_are_those_of_the_tree_written_out() {
    let paths: [&[(usize, u8)]; 7] = [
        &[(2, 0), (4, 1), (7, 2)],
        &[(1, 0), (4, 1), (7, 2)],
        &[(4, 0), (2, 1), (7, 2)],
        &[(3, 0), (2, 1), (7, 2)],
        &[(6, 0), (7, 0), (4, 2)],
        &[(5, 0), (7, 0), (4, 2)],
        &[(6, 1), (4, 2)],
    ];
    let mut tree = Tree::default();
    let values = numbered_values(7);
    values.iter().for_each(|value| tree.push(value));
    let log = Log::of(&values);
    for (i, path) in (1..).zip(paths) {
        let path: Vec<_> = path.iter().map(|&node| tree.digest(node)).collect();
        assert_eq!(tree.path(i), path, "value {i}");
        assert_eq!(fold(7, i, &values[i - 1], &path), tree.root(), "value {i}");
        // The log's bytes tell the same way, and it ends in entry i.
        let last = last_met(log.bytes());
        let way = bring_to(log.bytes(), last, i).expect("a way");
        assert_eq!(way.siblings, path, "value {i}");
        assert_eq!(way.reached.entry.index, i, "value {i}");
        assert_eq!(way.reached.offset, log.end(i - 1), "value {i}");
        assert_eq!(way.reached.end(), log.end(i), "value {i}");
    }
}

fn last_met(log: &[u8]) -> Met {
    Met::last(log).expect("a last entry")
}

/// From (7, 3) to (4, 2), from there to (2, 1), and from there to the leaf (1, 0).
#[test]
fn the_left_steps_to_value_1_of_7_are_those_written_out() {
    let mut log = Log::of(&numbered_taps(7)).bytes().to_vec();
    let step = |log: &[u8], from: Met, h| left_step(log, &from, h);
    let met = step(&log, last_met(&log), 3).expect("entry 4");
    assert_eq!((met.offset, met.entry.index), (296, 4));
    let met = step(&log, met, 2).expect("entry 2");
    assert_eq!((met.offset, met.entry.index), (52, 2));
    let met = step(&log, met, 1).expect("entry 1");
    assert_eq!((met.offset, met.entry.index), (0, 1));
    // Entry 4 begins at 296; its nodes' own digests are at 381 and 451.
    log[451] ^= 0x01;
    assert_eq!(step(&log, last_met(&log), 3).err(), Some(7));
    log[296] ^= 0x01;
    assert_eq!(step(&log, last_met(&log), 3).err(), Some(6));
    log[451] ^= 0x01;
    assert_eq!(step(&log, last_met(&log), 3).err(), Some(6));
}

#[test]
fn every_path_folds_to_the_root_of_the_tree_and_is_the_proof_that_the_log_gives() {
    let mut random = Random::new(6);
    let mut log = Log::default();
    for n in 1..=130 {
        log.push(&logs::value(&mut random));
        for i in 1..=n {
            let (path, root) = (log.path(i), log.root());
            assert_eq!(fold(n, i, log.value(i), &path), root, "{i} of {n}");
            let mut proof = vec![0; 32 * hops(n, i)];
            let written = model::proof(log.bytes(), i, &mut proof);
            assert_eq!(written, Ok(proof.len()), "{i} of {n}");
            assert_eq!(proof, path.concat(), "{i} of {n}");
            let value = model::value(log.bytes(), &root, i).map(|part| &log.bytes()[part]);
            assert_eq!(value, Ok(log.value(i)), "{i} of {n}");
            assert_eq!(model::end_of_entry(log.bytes(), i), Ok(log.end(i)));
        }
    }
}

/// Two taps, which end at 52 and at 174, and eight bytes behind them.
#[test]
fn cuts_of_two_taps_blank_what_is_behind_the_new_end_or_are_refused_as_written_out() {
    let taps = Log::of(&numbered_taps(2)).bytes().to_vec();
    let buffer = [&taps[..], &[0x77; 8]].concat();
    for (d, new_end) in [(0, 0), (1, 52), (2, 174)] {
        let mut buffer = buffer.clone();
        assert_eq!(model::cut(&mut buffer, 174, d), Ok(new_end));
        let blank = vec![0xff; 182 - new_end];
        assert_eq!(buffer, [&taps[..new_end], &blank].concat(), "cut to {d}");
    }
    // Entry 1's first byte is that of its index item, and byte 15 the first of its leaf digest.
    let refused = [
        (0, 183, 3, 1),
        (0, 182, 3, 6),
        (0, 174, 3, 2),
        (0, 174, 1, 6),
        (15, 174, 1, 7),
    ];
    for (bent, used, d, number) in refused {
        let mut bytes = buffer.clone();
        bytes[bent] ^= 0x01;
        let before = bytes.clone();
        assert_eq!(model::cut(&mut bytes, used, d), Err(number));
        assert_eq!(bytes, before, "refused with {number}");
    }
}

/// The digests are from a program of its own, with the hash of Python's standard library, which
/// splits lists of values and knows no bytes of a log.
#[test]
fn the_proofs_of_22_values_are_byte_for_byte_those_of_another_program() {
    let proofs = |values: &[Vec<u8>]| {
        let mut log = Log::of(values);
        let paths: Vec<_> = (1..=22).flat_map(|i| log.path(i)).collect();
        hex(&model::sha256(&paths.concat()))
    };
    assert_eq!(
        proofs(&numbered_taps(22)),
        "8ac6909bf117040aec4b7138a227c7f554af1a2af0caa1f0c802e175380a7583"
    );
    assert_eq!(
        proofs(&numbered_values(22)),
        "93d911353e9eb61d2191ee423b7a060167e1a1545185500313c3ce7099d5bd16"
    );
}

/// Forged logs open, their links hold where they are said to, and no digest in them is true.
#[test]
fn forged_logs_are_what_they_are_said_to_be() {
    let mut random = Random::new(7);
    for n in 1..=40 {
        let log = logs::log(n, &mut random);
        assert!(Forged::of(&log).bytes() == log.bytes(), "{n} values");
        let invented = forged::invented(n, 2, &mut random).spread(9, &mut random);
        let bytes = invented.bytes();
        assert_eq!(model::audit(&bytes), (0, 0), "{n} values");
        for i in 1..=n {
            let end = model::end_of_entry(&bytes, i);
            assert_eq!(end, Ok(invented.end(i)), "{i} of {n}");
        }
    }
    let bytes = links::overlapping(&mut random);
    assert_eq!(model::end_of_entry(&bytes, 2), Ok(124));
    let bytes = links::running_out(&mut random);
    assert_eq!(model::end_of_entry(&bytes[..RUNNING_OUT], 2), Err(6));
}

#[test]
fn the_comparison_stops_at_the_first_value_that_differs_or_where_a_list_ends() {
    let [a, b, c] = [0x10, 0x11, 0x12].map(|kind| vec![kind; 9]);
    let list = |values: &[&Vec<u8>]| values.iter().map(|&value| value.clone()).collect();
    let compare = |first: &[&Vec<u8>], second: &[&Vec<u8>]| {
        let (first, second): (Vec<_>, Vec<_>) = (list(first), list(second));
        model::compare(&first, &second)
    };
    assert_eq!(compare(&[], &[]), (0, Verdict::Same));
    assert_eq!(compare(&[&a, &b], &[&a, &b]), (2, Verdict::Same));
    assert_eq!(compare(&[], &[&a]), (0, Verdict::FirstShorter));
    assert_eq!(compare(&[&a], &[&a, &b]), (1, Verdict::FirstShorter));
    assert_eq!(compare(&[&a, &b], &[&a]), (1, Verdict::SecondShorter));
    assert_eq!(compare(&[&a], &[&b]), (0, Verdict::DifferAt(1)));
    assert_eq!(
        compare(&[&a, &b, &c], &[&a, &c, &b]),
        (1, Verdict::DifferAt(2))
    );
    assert_eq!(compare(&[&a, &b], &[&a, &c, &b]), (1, Verdict::DifferAt(2)));
}

/// Logs of eight values that differ at i, with all values behind it, and logs of 22 and 18 values
/// that differ at 17: entry 22, then 20 and 18 to bring it to 18, then 17.
#[test]
fn the_entries_that_a_search_reads_are_those_written_out() {
    let list = numbered_values(22);
    let log = Log::of(&list);
    let parted_at = |i: usize| {
        let mut list = list.clone();
        list[i - 1..].rotate_left(1);
        Log::of(&list)
    };
    let places = |log: &Log, entries: &[usize]| {
        let place = |&i: &usize| log.end(i - 1)..log.end(i);
        entries.iter().map(place).collect::<Vec<_>>()
    };
    for (i, met) in (1..=8).zip(MET_OF_EIGHT) {
        let other = parted_at(i);
        let found = model::search(log.beginning(8), other.beginning(8)).expect("an answer");
        assert_eq!(found.read, [places(&log, met), places(&other, met)], "{i}");
        assert_eq!(found.verdict, Verdict::DifferAt(i));
        let reached = [places(&log, &[i]), places(&other, &[i])].concat();
        assert_eq!(found.reached[..], reached, "{i}");
    }
    let other = parted_at(17);
    let found = model::search(log.bytes(), other.beginning(18)).expect("an answer");
    let read = [places(&log, &[22, 20, 18, 17]), places(&other, &[18, 17])];
    assert_eq!((found.common, found.read), (16, read));
    let found = model::search(log.beginning(18), log.bytes()).expect("an answer");
    let read = [places(&log, &[18]), places(&log, &[22, 20, 18])];
    assert_eq!((found.common, found.read), (18, read));
}

/// Two taps: the digests of leaf 1, the link to it and the node stand at 15, 105 and 137.
#[test]
fn searches_of_two_taps_are_refused_as_written_out() {
    let list = numbered_taps(3);
    let log = Log::of(&list[..2]).bytes().to_vec();
    let other = Log::of(&list[1..]).bytes().to_vec();
    let bent = |log: &[u8], places: &[usize]| {
        let mut bytes = log.to_vec();
        places.iter().for_each(|&at| bytes[at] ^= 0x01);
        bytes
    };
    let search = |first: &[u8], second: &[u8]| model::search(first, second).err();
    assert_eq!(search(&log, &other), None);
    assert_eq!(search(&log, &bent(&log, &[15])), None);
    assert_eq!(search(&log, &bent(&log, &[137])), Some((Side::Both, 7)));
    assert_eq!(search(&log, &bent(&other, &[15])), Some((Side::Second, 7)));
    assert_eq!(search(&bent(&log, &[105]), &other), Some((Side::First, 7)));
    assert_eq!(search(&log, &bent(&other, &[0])), Some((Side::Second, 6)));
    let both = (bent(&log, &[15]), bent(&other, &[0]));
    assert_eq!(search(&both.0, &both.1), Some((Side::First, 7)));
    assert_eq!(search(&both.1, &both.0), Some((Side::First, 6)));
    let closed = bent(&log, &[173]);
    assert_eq!(search(&closed, &[]), Some((Side::First, 6)));
    assert_eq!(search(&[], &closed), Some((Side::Second, 6)));
    assert_eq!(search(&closed, &closed), Some((Side::First, 6)));
    assert_eq!(model::repair(&log, &bent(&log, &[137])), None);
    assert_eq!(model::repair(&log, &other), Some((Side::First, 0..174)));
    let one = &log[..52];
    assert_eq!(model::repair(one, &log), Some((Side::Second, 52..174)));
    assert_eq!(model::repair(&log, &log), Some((Side::First, 174..174)));
    assert_eq!(model::repair(&[], one), Some((Side::Second, 0..52)));
}
