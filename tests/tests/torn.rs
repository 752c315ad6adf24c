//! Appends that are torn, so that only the first bytes of their entry are written. Behind a cut they
//! meet 0xFF, and the audit of the whole buffer counts what the cut has left and nothing else; over an
//! older log's bytes they can bring older entries back.

use ringlog_tests::answers::done;
use ringlog_tests::forged;
use ringlog_tests::logs::{self, LONGEST_ENTRY};
use ringlog_tests::long;
use ringlog_tests::model::item::VALUES;
use ringlog_tests::model::Log;
use ringlog_tests::random::Random;
use ringlog_tests::ringlog::Extent;
use ringlog_tests::{model, ringlog};

/// A log of twelve values, of the three kinds in turn.
fn twelve(random: &mut Random) -> Log {
    let value = |i: usize| logs::value_of(VALUES[i % 3], random);
    Log::of(&(0..12).map(value).collect::<Vec<_>>())
}

/// A value of each kind.
fn one_of_each_kind(random: &mut Random) -> Vec<Vec<u8>> {
    let value = |&kind: &u8| logs::value_of(kind, random);
    VALUES.iter().map(value).collect()
}

/// The buffer with an entry appended at used, and where the entry ends.
fn appended(buffer: &[u8], used: usize, item: &[u8]) -> (Vec<u8>, usize) {
    let mut buffer = buffer.to_vec();
    let answer = ringlog::append(&mut buffer, used, item);
    assert_eq!(answer.number, 0, "an append of {item:02x?}");
    (buffer, answer.value as usize)
}

/// An append that is torn at this place: before it the bytes afterwards, and behind it those before.
fn torn(before: &[u8], afterwards: &[u8], at: usize) -> Vec<u8> {
    [&afterwards[..at], &before[at..]].concat()
}

/// The log in a buffer with room for an entry behind it, after a cut to d.
fn cut(log: &[u8], d: usize, random: &mut Random) -> (Vec<u8>, usize) {
    let mut buffer = [log, &random.bytes(LONGEST_ENTRY)].concat();
    let answer = ringlog::cut(&mut buffer, log.len(), d);
    assert_eq!(answer.number, 0, "a cut to {d}");
    (buffer, answer.value as usize)
}

/// The value that follows in the old log is among those that are appended.
#[test]
fn every_tear_after_every_cut_of_a_log_of_12_entries_audits_to_what_was_left() {
    let mut random = Random::new(1);
    let log = twelve(&mut random);
    for d in 0..=12 {
        let (left, used) = cut(log.bytes(), d, &mut random);
        let mut items = one_of_each_kind(&mut random);
        if d < 12 {
            items.push(log.value(d + 1).to_vec());
        }
        for item in items {
            let (whole, end) = appended(&left, used, &item);
            for at in used..end {
                let counted = ringlog::audit(&torn(&left, &whole, at));
                let case = format!("cut to {d}, {item:02x?} torn at {at}");
                assert_eq!(counted, (d, used).into(), "{case}");
            }
            let counted = ringlog::audit(&whole);
            assert_eq!(counted, (d + 1, end).into(), "cut to {d}, {item:02x?}");
        }
    }
}

/// Entries with 0 to 12 nodes, of each kind. The last byte of an entry is the lowest of its length.
#[test]
fn an_entry_of_any_length_behind_a_cut_counts_with_its_last_byte_and_not_before() {
    let mut random = Random::new(2);
    let log = long::whole().beginning(4_096);
    for nodes in 0..=12 {
        let d = (1 << nodes) - 1;
        let (left, used) = cut(log, d, &mut random);
        for item in one_of_each_kind(&mut random) {
            let (whole, end) = appended(&left, used, &item);
            assert_eq!(end - used, 43 + item.len() + 70 * nodes);
            for at in [used + 1, end - 5, end - 1] {
                let counted = ringlog::audit(&torn(&left, &whole, at));
                assert_eq!(counted, (d, used).into(), "cut to {d}, torn at {at}");
            }
            assert_eq!(ringlog::audit(&whole), (d + 1, end).into(), "cut to {d}");
        }
    }
}

/// Three taps, and used where the first one ends, with the other two left as they were.
#[test]
fn a_torn_append_over_entries_that_were_not_blanked_can_bring_them_back() {
    let mut random = Random::new(3);
    let log = logs::taps(3, &mut random);
    let used = log.end(1);
    let all = Extent::from((3, log.bytes().len()));
    // The value that stood there: its entry is byte for byte the old one, wherever it is torn.
    let (whole, end) = appended(log.bytes(), used, log.value(2));
    for at in used..=end {
        let counted = ringlog::audit(&torn(log.bytes(), &whole, at));
        assert_eq!(counted, all, "the old value torn at {at}");
    }
    // Another tap: its entry begins as the old one, with index item and kind, and ends as the old one,
    // with the length item.
    let mut other = log.value(2).to_vec();
    other[1] ^= 0x01;
    let (whole, end) = appended(log.bytes(), used, &other);
    for at in used..=end {
        let counted = ringlog::audit(&torn(log.bytes(), &whole, at));
        let expected = match at {
            _ if at <= used + 6 => all,
            _ if at < end - 5 => (1, used).into(),
            _ => (2, end).into(),
        };
        assert_eq!(counted, expected, "another value torn at {at}");
    }
}

/// Audits the whole buffer, and cuts at the bytes to the entries that count: these are kept, what is
/// behind them is 0xFF, and they count again.
fn audit_and_cut(buffer: &[u8], case: impl Fn() -> String) -> Extent {
    let counted = ringlog::audit(buffer);
    assert_eq!(counted, model::audit(buffer).into(), "{}", case());
    let (entries, bytes) = (counted.entries as usize, counted.bytes as usize);
    let mut cut = buffer.to_vec();
    let answer = ringlog::cut(&mut cut, bytes, entries);
    assert_eq!(answer, done(bytes), "{}", case());
    let blank = vec![0xff; buffer.len() - bytes];
    assert!(cut == [&buffer[..bytes], &blank].concat(), "{}", case());
    assert_eq!(ringlog::audit(&cut), counted, "{}", case());
    counted
}

/// Behind the tear are the rest of an older log, random bytes, or 0xFF.
#[test]
fn a_cut_to_what_the_audit_of_a_torn_buffer_counts_leaves_0xff_behind_it() {
    let mut random = Random::new(4);
    let log = twelve(&mut random);
    for d in 0..12 {
        let used = log.end(d);
        let room = log.bytes().len() - used + LONGEST_ENTRY;
        let older = [&log.bytes()[used..], &[0x00; LONGEST_ENTRY]].concat();
        for behind in [older, random.bytes(room), vec![0xff; room]] {
            let buffer = [log.beginning(d), &behind].concat();
            for item in [log.value(d + 1), &logs::value(&mut random)] {
                let (whole, end) = appended(&buffer, used, item);
                for at in used..=end {
                    let case = || format!("{d} values, {item:02x?} torn at {at}");
                    let counted = audit_and_cut(&torn(&buffer, &whole, at), case);
                    assert!(counted.entries >= d as u64, "{}", case());
                }
            }
        }
    }
}

#[test]
fn a_cut_to_what_the_audit_of_any_bytes_counts_leaves_0xff_behind_it() {
    let mut random = Random::new(5);
    let mut some = 0;
    for round in 0..2_000 {
        let bytes = forged::any(if round % 8 == 0 { 70 } else { 12 }, &mut random);
        let counted = audit_and_cut(&bytes, || format!("round {round}: {bytes:02x?}"));
        some += usize::from(0 < counted.bytes && counted.bytes < bytes.len() as u64);
    }
    assert!(some > 200, "{some}");
}
