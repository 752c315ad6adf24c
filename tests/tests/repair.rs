//! The library's repair piece: of two logs, what the other one lacks to be the donor; of any bytes,
//! what the model answers.

use ringlog_tests::far::{Far, LIMIT};
use ringlog_tests::forged::Forged;
use ringlog_tests::links::{self, RUNNING_OUT};
use ringlog_tests::logs::{self, LONG, MASKS};
use ringlog_tests::memory::lend_beginnings_beside;
use ringlog_tests::model::entry::shaped;
use ringlog_tests::model::search::Side;
use ringlog_tests::model::Log;
use ringlog_tests::pairs::{self, each_parted, values, with_others};
use ringlog_tests::random::Random;
use ringlog_tests::refused;
use ringlog_tests::ringlog::Piece;
use ringlog_tests::ways::only_met;
use ringlog_tests::{model, ringlog};

const NONE: Piece = Piece {
    donor: 0,
    offset: 0,
    length: 0,
};

/// The part of a donor of so many bytes from this offset on.
fn part(donor: Side, offset: usize, donor_len: usize) -> Piece {
    Some((donor, offset..donor_len)).into()
}

/// The repair piece, held to the model's. There is one exactly if the search answers, and it ends
/// where the donor does.
fn repair(first: &[u8], second: &[u8], case: impl Fn() -> String) -> Piece {
    let piece = ringlog::repair(first, second);
    let expected = model::repair(first, second).into();
    assert_eq!(piece, expected, "{}", case());
    let answered = ringlog::search(first, second).number == 0;
    assert_eq!(piece.donor != 0, answered, "{}", case());
    let end = (piece.offset + piece.length) as usize;
    let ends = [0, first.len(), second.len()];
    assert_eq!(end, ends[piece.donor as usize], "{}", case());
    piece
}

/// The donor, the log that is not the donor, and the bytes of the piece.
fn parts<'a>(first: &'a [u8], second: &'a [u8], piece: Piece) -> [&'a [u8]; 3] {
    let (donor, other) = match piece.donor {
        1 => (first, second),
        2 => (second, first),
        donor => panic!("donor {donor}"),
    };
    let bytes = &donor[piece.offset as usize..][..piece.length as usize];
    [donor, other, bytes]
}

/// Cuts the log that is not the donor to the common count and puts the piece behind it. Answers
/// what this gives, and the donor.
fn repaired<'a>(first: &'a [u8], second: &'a [u8], piece: Piece) -> (Vec<u8>, &'a [u8]) {
    let [donor, other, bytes] = parts(first, second, piece);
    let common = ringlog::search(first, second).common as usize;
    let mut joined = other.to_vec();
    let cut = ringlog::cut(&mut joined, other.len(), common);
    assert_eq!(cut.number, 0, "a cut to {common}");
    joined.truncate(cut.value as usize);
    joined.extend(bytes);
    (joined, donor)
}

#[test]
fn the_other_log_cut_to_the_common_count_and_then_the_piece_is_the_donor_byte_for_byte() {
    each_parted(40, &mut Random::new(1), |parted| {
        let (first, second, case) = (parted.first, parted.second, || parted.case());
        let piece = repair(first, second, case);
        let (joined, donor) = repaired(first, second, piece);
        assert!(joined == donor, "{}", case());
        let (m1, m2) = parted.counts;
        let expected = if m2 > m1 {
            part(Side::Second, parted.common_end, second.len())
        } else {
            part(Side::First, parted.common_end, first.len())
        };
        assert_eq!(piece, expected, "{}", case());
        if (m1 + m2) % 7 == 0 {
            let whole = (m1.max(m2), joined.len());
            assert_eq!(ringlog::audit(&joined), whole.into(), "{}", case());
        }
    });
}

/// The piece is written at the new end, which leaves 0xFF or no byte behind it.
#[test]
fn in_a_buffer_with_room_the_other_log_cut_and_then_the_piece_is_the_donor_and_0xff_behind_it() {
    let mut random = Random::new(16);
    each_parted(20, &mut Random::new(17), |parted| {
        let (first, second, case) = (parted.first, parted.second, || parted.case());
        let piece = repair(first, second, case);
        let [donor, other, bytes] = parts(first, second, piece);
        for room in [0, 1, 99] {
            let len = donor.len().max(other.len()) + room;
            let mut buffer = [other, &random.bytes(len - other.len())].concat();
            let cut = ringlog::cut(&mut buffer, other.len(), parted.common);
            assert_eq!(cut.number, 0, "{}", case());
            buffer[cut.value as usize..][..bytes.len()].copy_from_slice(bytes);
            let blank = vec![0xff; len - donor.len()];
            assert!(buffer == [donor, &blank].concat(), "{}", case());
        }
    });
}

#[test]
fn long_logs_are_repaired_byte_for_byte_and_audit_whole() {
    let mut random = Random::new(2);
    let list = values(4_096, &mut random);
    let log = Log::of(&list);
    for i in [1, 129, 2_048, 2_049, 4_096] {
        let other = Log::of(&with_others(&list, &[i], &mut random));
        for m1 in LONG.into_iter().chain([4_096]) {
            for m2 in [1, 128, 2_049, 4_095, 4_096] {
                let (first, second) = (log.beginning(m1), other.beginning(m2));
                let piece = ringlog::repair(first, second);
                let (joined, donor) = repaired(first, second, piece);
                assert!(joined == donor, "{m1} and {m2} values that differ at {i}");
                let common = (i - 1).min(m1).min(m2);
                let start = log.end(common);
                assert_eq!(piece.offset as usize, start, "{m1}, {m2}, {i}");
            }
        }
        let (joined, _) = repaired(
            log.bytes(),
            other.bytes(),
            ringlog::repair(log.bytes(), other.bytes()),
        );
        assert_eq!(ringlog::audit(&joined), (4_096, joined.len()).into(), "{i}");
    }
}

/// One tap against one ticket: as many entries, and fewer bytes.
#[test]
fn the_donor_has_more_entries_and_not_more_bytes() {
    let mut random = Random::new(3);
    let (tap, ticket) = (logs::taps(1, &mut random), logs::tickets(1, &mut random));
    let case = || "taps and tickets".to_string();
    let piece = repair(tap.bytes(), ticket.bytes(), case);
    assert_eq!(piece, part(Side::First, 0, 52));
    let piece = repair(ticket.bytes(), tap.bytes(), case);
    assert_eq!(piece, part(Side::First, 0, ticket.bytes().len()));
    for n in 2..=20 {
        let (taps, tickets) = (logs::taps(n, &mut random), logs::tickets(n, &mut random));
        let fewer = tickets.beginning(n - 1);
        let more_bytes = fewer.len() > taps.bytes().len();
        assert!(more_bytes || n < 4 || n.is_power_of_two(), "{n}");
        let len = taps.bytes().len();
        let piece = repair(taps.bytes(), fewer, case);
        assert_eq!(piece, part(Side::First, 0, len), "{n}");
        let piece = repair(fewer, taps.bytes(), case);
        assert_eq!(piece, part(Side::Second, 0, len), "{n}");
        let piece = repair(taps.bytes(), tickets.bytes(), case);
        assert_eq!(piece, part(Side::First, 0, len), "{n}");
    }
}

/// Only three entries of the first log are left, and it ends with entry 8.
#[test]
fn the_entries_of_a_damaged_log_are_counted_by_the_index_of_its_last_one() {
    let mut random = Random::new(4);
    let log = logs::log(8, &mut random);
    for n in [5, 6, 7] {
        let damaged = only_met(&log, 8, n, &mut random);
        let shorter = log.beginning(n);
        let case = || format!("8 and {n} values");
        let piece = repair(&damaged, shorter, case);
        assert_eq!(piece, part(Side::First, log.end(n), damaged.len()), "{n}");
        let piece = repair(shorter, &damaged, case);
        assert_eq!(piece, part(Side::Second, log.end(n), damaged.len()), "{n}");
    }
}

#[test]
fn equal_logs_give_an_empty_piece_at_the_end_of_the_first() {
    let mut random = Random::new(5);
    for n in 0..=70 {
        let log = logs::log(n, &mut random);
        let (one, copy) = (log.bytes(), log.bytes().to_vec());
        let case = || format!("{n} values twice");
        let expected = part(Side::First, one.len(), one.len());
        assert_eq!(repair(one, &copy, case), expected, "{n} values");
        assert_eq!(repair(one, one, case), expected, "{n} values");
        // The same values with other bytes between them: the end of each is its own.
        let spread = Forged::of(&log).spread(20, &mut random).bytes();
        assert_eq!(repair(one, &spread, case), expected, "{n} values");
        let expected = part(Side::First, spread.len(), spread.len());
        assert_eq!(repair(&spread, one, case), expected, "{n} values");
    }
}

#[test]
fn the_piece_begins_at_0_if_n_is_0_and_is_the_whole_donor() {
    let mut random = Random::new(6);
    let case = || "an empty log".to_string();
    assert_eq!(repair(&[], &[], case), part(Side::First, 0, 0));
    for n in 1..=40 {
        let log = logs::log(n, &mut random);
        let len = log.bytes().len();
        let piece = repair(log.bytes(), &[], case);
        assert_eq!(piece, part(Side::First, 0, len), "{n} values");
        let piece = repair(&[], log.bytes(), case);
        assert_eq!(piece, part(Side::Second, 0, len), "{n} values");
    }
    for index in 2..=300 {
        let bytes = logs::forged(index, 77, &mut random);
        let piece = repair(&[], &bytes, case);
        assert_eq!(piece, part(Side::Second, 0, bytes.len()), "{index}");
    }
}

#[test]
fn there_is_no_piece_where_the_search_refuses() {
    let mut random = Random::new(7);
    let list = values(8, &mut random);
    let log = Log::of(&list);
    let other = Log::of(&with_others(&list, &[1], &mut random));
    for (name, bytes) in refused::not_opening(&mut random) {
        for partner in [&[], log.bytes(), &bytes] {
            assert_eq!(repair(&bytes, partner, || name.clone()), NONE, "{name}");
            assert_eq!(repair(partner, &bytes, || name.clone()), NONE, "{name}");
        }
    }
    for mislinked in links::mislinked(&log) {
        let bytes = mislinked.forged.bytes();
        for (partner, refused) in [
            (other.bytes(), mislinked.refusal(1)),
            (log.beginning(2), mislinked.refusal(2)),
            (log.beginning(3), mislinked.refusal(3)),
            (log.beginning(7), None),
        ] {
            let case = || format!("{:?}", mislinked.faults);
            let piece = repair(&bytes, partner, case);
            assert_eq!(piece == NONE, refused.is_some(), "{}", case());
            let piece = repair(partner, &bytes, case);
            assert_eq!(piece == NONE, refused.is_some(), "{}", case());
        }
    }
    for (i, h) in pairs::addresses(8) {
        let retold = pairs::retold(&log, (i, h), &mut random).bytes();
        let piece = repair(log.bytes(), &retold, || format!("({i}, {h})"));
        assert_eq!(piece == NONE, h > 0, "({i}, {h})");
    }
}

/// In a log with junk between its entries, entry i does not begin where entry i − 1 ends.
#[test]
fn the_piece_begins_where_the_search_reached_the_donors_entry() {
    let mut random = Random::new(8);
    for n in 2..=24 {
        let list = values(n, &mut random);
        let log = Log::of(&list);
        let mut spread = Forged::of(&log);
        for i in 2..=n {
            let len = 1 + random.up_to(30);
            spread.put_before(i, random.bytes(len));
        }
        let bytes = spread.bytes();
        for i in 1..=n {
            let case = || format!("{i} of {n} with gaps");
            let other = Log::of(&with_others(&list, &[i], &mut random));
            let expected = part(Side::First, spread.start(i), bytes.len());
            let piece = repair(&bytes, other.bytes(), case);
            assert_eq!(piece, expected, "differ at {}", case());
            for m in i..n {
                let piece = repair(&bytes, other.beginning(m), case);
                assert_eq!(piece, expected, "{m} values, differ at {}", case());
            }
            // With nothing different it begins at the end of entry i, and not at entry i + 1.
            let piece = repair(log.beginning(i), &bytes, case);
            let expected = match i {
                _ if i == n => part(Side::First, log.end(i), log.end(i)),
                _ => part(Side::Second, spread.end(i), bytes.len()),
            };
            assert_eq!(piece, expected, "{}", case());
            assert!(i == n || spread.end(i) < spread.start(i + 1), "{}", case());
        }
    }
}

/// Of two entries with one index the one at the left offset was reached; one that overlaps the next
/// ends inside it.
#[test]
fn the_piece_begins_where_the_links_lead_to() {
    let mut random = Random::new(9);
    for _ in 0..50 {
        let (bytes, start) = links::second_of_two(&mut random);
        let case = || format!("{bytes:02x?}");
        let reached = shaped(&bytes, start, 2).expect("entry 2");
        let first_value = shaped(&bytes, 0, 1).expect("entry 1").value;
        let short = Log::of(&[&first_value, &reached.value]);
        let piece = repair(&bytes, short.bytes(), case);
        let end = start + reached.length();
        assert_eq!(piece, part(Side::First, end, bytes.len()));
        let other = [first_value, pairs::other_value(&reached.value, &mut random)];
        let piece = repair(Log::of(&other).bytes(), &bytes, case);
        assert_eq!(piece, part(Side::Second, start, bytes.len()));

        let bytes = links::overlapping(&mut random);
        let case = || format!("{bytes:02x?}");
        let mut short = Forged::of(&logs::log(2, &mut random));
        assert_eq!(repair(&bytes, &short.bytes(), case), NONE);
        short.tell((2, 1), shaped(&bytes, 2, 2).expect("entry 2").top());
        let piece = repair(&bytes, &short.bytes(), case);
        assert_eq!(piece, part(Side::First, 124, bytes.len()));

        let memory = links::running_out(&mut random);
        let case = || format!("{memory:02x?}");
        short.tell((2, 1), shaped(&memory, 1, 2).expect("entry 2").top());
        assert_eq!(repair(&memory[..RUNNING_OUT], &short.bytes(), case), NONE);
    }
}

/// A value and a stored digest behind the split are changed in the donor. The piece is answered as
/// it stands, and the audit of what was repaired ends before them.
#[test]
fn the_piece_is_not_checked_and_the_receiver_audits() {
    let mut random = Random::new(10);
    let log = logs::log(12, &mut random);
    for m in 0..11 {
        let shorter = log.beginning(m);
        for i in m + 1..12 {
            let mut donor = log.bytes().to_vec();
            donor[log.end(i - 1) + 6] ^= 0x01;
            let case = || format!("{m} values, value {i} of 12 bent");
            let piece = repair(&donor, shorter, case);
            let number = model::search(&donor, shorter).map(|found| found.common);
            assert_eq!(number, Ok(m), "{}", case());
            assert_eq!(piece, part(Side::First, log.end(m), donor.len()));
            let (joined, donor) = repaired(&donor, shorter, piece);
            assert!(joined == donor, "{}", case());
            let whole = (i - 1, log.end(i - 1));
            assert_eq!(ringlog::audit(&joined), whole.into(), "{}", case());
        }
    }
}

#[test]
fn whole_torn_bent_and_forged_logs_get_what_the_model_gives() {
    let mut random = Random::new(11);
    let mut met = [0; 3];
    let mut empty = 0;
    for round in 0..20_000 {
        let most = if round % 8 == 0 { 70 } else { 12 };
        let (first, second) = match round % 3 {
            0 => pairs::mislinked(most, &mut random),
            _ => pairs::any(most, &mut random),
        };
        let case = || format!("round {round}: {first:02x?} and {second:02x?}");
        let piece = repair(&first, &second, case);
        met[piece.donor as usize] += 1;
        empty += usize::from(piece.donor != 0 && piece.length == 0);
    }
    assert!(met.iter().all(|&times| times > 1_000), "{met:?}");
    assert!(empty > 200, "{empty}");
}

#[test]
fn every_single_bent_byte_of_either_log_gives_what_the_model_gives() {
    let mut random = Random::new(12);
    let mut met = [0; 3];
    let list = values(9, &mut random);
    let log = Log::of(&list);
    let other = Log::of(&with_others(&list, &[3, 7], &mut random));
    let partners = [other.bytes(), other.beginning(6), log.beginning(8)];
    for m in [2, 7, 9] {
        let mut bent = log.beginning(m).to_vec();
        for at in 0..bent.len() {
            let mask = MASKS[at % MASKS.len()];
            bent[at] ^= mask;
            for partner in partners {
                let case = || format!("{m} values, byte {at} bent with {mask:#04x}");
                met[repair(&bent, partner, case).donor as usize] += 1;
                met[repair(partner, &bent, case).donor as usize] += 1;
            }
            bent[at] ^= mask;
        }
    }
    assert!(met.iter().all(|&times| times > 500), "{met:?}");
}

#[test]
fn the_two_logs_may_be_the_same_bytes_or_overlap() {
    let mut random = Random::new(13);
    for n in 0..=40 {
        let log = logs::log(n, &mut random);
        let memory = log.bytes();
        for m in 0..=n {
            let case = || format!("{m} and {n} values in one memory");
            let piece = repair(&memory[..log.end(m)], memory, case);
            let donor = if m == n { Side::First } else { Side::Second };
            assert_eq!(piece, part(donor, log.end(m), memory.len()), "{}", case());
            let piece = repair(memory, &memory[..log.end(m)], case);
            let expected = part(Side::First, log.end(m), memory.len());
            assert_eq!(piece, expected, "{}", case());
        }
    }
}

/// Entry 2 of the first log begins just below 2^32, so that it ends above.
#[test]
fn a_piece_may_begin_above_2_to_the_32_and_be_longer() {
    let mut random = Random::new(14);
    let list = values(2, &mut random);
    let log = Log::of(&list);
    let other = |i: usize, random: &mut Random| Log::of(&with_others(&list, &[i], random));
    let mut far = Far::of(&log);
    let end = far.put(LIMIT - 1);
    let (first, far) = (log.beginning(1), &far.buffer[..end]);
    let case = || "a last entry just below 2^32".to_string();
    assert_eq!(repair(far, log.bytes(), case), part(Side::First, end, end));
    let piece = repair(first, far, case);
    assert_eq!(piece, part(Side::Second, first.len(), end));
    let piece = repair(far, other(2, &mut random).bytes(), case);
    assert_eq!(piece, part(Side::First, LIMIT - 1, end));
    let piece = repair(far, other(1, &mut random).bytes(), case);
    assert_eq!(piece, part(Side::First, 0, end));
    assert_eq!(repair(&[], far, case), part(Side::Second, 0, end));
}

#[test]
fn a_repair_changes_no_byte_of_the_logs_and_looks_at_none_around() {
    let mut random = Random::new(15);
    let list = values(9, &mut random);
    let log = Log::of(&list);
    let other = Log::of(&with_others(&list, &[2], &mut random));
    let around = [0x00, 0x30, 0xff];
    lend_beginnings_beside(
        log.bytes(),
        other.bytes(),
        &around,
        |first, second, case| {
            repair(first, second, case);
        },
    );
}
