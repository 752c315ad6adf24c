//! The library's audit against the model's, which tries the log of the values found: every way to
//! tear an append, every single bent byte, and bytes that are no log.

use ringlog_tests::bent::each_bent;
use ringlog_tests::logs::{self, LONGEST_LOG, MASKS};
use ringlog_tests::memory::lend_beginnings;
use ringlog_tests::model::Log;
use ringlog_tests::random::Random;
use ringlog_tests::{model, refused, ringlog};

/// Audits the bytes, and holds the answer to the model's.
fn audit(bytes: &[u8], case: impl Fn() -> String) -> (usize, usize) {
    let expected = model::audit(bytes);
    assert_eq!(ringlog::audit(bytes), expected.into(), "{}", case());
    expected
}

/// The entries and bytes of the first n values' log.
fn first(log: &Log, n: usize) -> (usize, usize) {
    (n, log.end(n))
}

#[test]
fn no_bytes_are_a_log_of_no_entries() {
    assert_eq!(audit(&[], || "no bytes".to_string()), (0, 0));
}

#[test]
fn one_tap_and_three_stray_bytes_are_1_entry_in_52_bytes() {
    let mut random = Random::new(1);
    let log = logs::taps(1, &mut random);
    let bytes = [log.bytes(), &[1, 2, 3]].concat();
    assert_eq!(audit(&bytes, || format!("{bytes:02x?}")), (1, 52));
}

#[test]
fn every_log_of_0_to_300_random_values_counts_in_full() {
    let mut random = Random::new(2);
    let log = logs::log(300, &mut random);
    for n in 0..=300 {
        let answer = ringlog::audit(&log.bytes()[..log.end(n)]);
        assert_eq!(answer, first(&log, n).into(), "{n} values");
    }
    let answer = audit(log.bytes(), || "300 values".to_string());
    assert_eq!(answer, first(&log, 300));
}

#[test]
fn a_log_of_4096_tickets_counts_in_full_and_entry_4097_never_counts() {
    let log = logs::tickets(4_097, &mut Random::new(3));
    let full = &log.bytes()[..LONGEST_LOG];
    let case = || "tickets".to_string();
    assert_eq!(audit(log.bytes(), case), (4_096, 2_097_152));
    assert_eq!(ringlog::audit(full), (4_096, 2_097_152).into());
    let torn = &full[..LONGEST_LOG - 1];
    assert_eq!(ringlog::audit(torn), first(&log, 4_095).into());
}

/// Every length short of the last entry, with nothing behind the tear, and with erased bytes.
#[test]
fn every_way_to_tear_the_last_append_leaves_the_entries_before_it() {
    let mut random = Random::new(4);
    for n in 1..=40 {
        let log = logs::log(n, &mut random);
        let end = log.bytes().len();
        for tear in log.end(n - 1)..end {
            let case = || format!("{n} values torn at {tear}");
            let torn = &log.bytes()[..tear];
            assert_eq!(audit(torn, case), first(&log, n - 1), "{}", case());
            for erased in [0x00, 0xff] {
                let mut bytes = torn.to_vec();
                bytes.resize(end + 8, erased);
                let answer = ringlog::audit(&bytes);
                let expected = first(&log, n - 1).into();
                assert_eq!(answer, expected, "{}, then {erased:#04x}", case());
            }
        }
    }
}

#[test]
fn a_log_torn_over_an_older_one_counts_as_the_model_counts_it() {
    let mut random = Random::new(5);
    for n in 1..=12 {
        let log = logs::log(n, &mut random);
        let older = logs::log(n + 2, &mut random);
        for tear in 0..=log.bytes().len() {
            let rest = older.bytes().get(tear..).unwrap_or(&[]);
            let bytes = [&log.bytes()[..tear], rest].concat();
            audit(&bytes, || format!("{n} values torn at {tear}"));
        }
    }
}

#[test]
fn every_torn_append_can_be_done_again_where_the_audit_ends() {
    let mut random = Random::new(6);
    for n in 1..=20 {
        let log = logs::log(n, &mut random);
        let start = log.end(n - 1);
        let value = model::entry::last_entry(log.bytes())
            .expect("a last entry")
            .value;
        for tear in start..log.bytes().len() {
            let mut buffer = vec![0xff; log.bytes().len()];
            buffer[..tear].copy_from_slice(&log.bytes()[..tear]);
            let used = ringlog::audit(&buffer).bytes as usize;
            let answer = ringlog::append(&mut buffer, used, &value);
            assert_eq!(answer.number, 0, "{n} values torn at {tear}");
            assert!(buffer == log.bytes(), "{n} values torn at {tear}");
        }
    }
}

#[test]
fn every_single_bent_byte_ends_the_log_before_its_entry() {
    let mut random = Random::new(7);
    for n in 1..=12 {
        let log = logs::log(n, &mut random);
        each_bent(log.bytes(), |bytes, bent| {
            let whole = (1..=n).take_while(|&i| log.end(i) <= bent.at).count();
            let case = || format!("{n} values, {bent}");
            assert_eq!(audit(bytes, case), first(&log, whole), "{}", case());
        });
    }
}

#[test]
fn one_bent_byte_of_a_long_log_ends_it_before_its_entry() {
    let mut random = Random::new(8);
    let log = logs::log(1_025, &mut random);
    let mut bytes = log.bytes().to_vec();
    for _ in 0..60 {
        let at = random.up_to(bytes.len() - 1);
        let mask = 1 + random.up_to(254) as u8;
        let whole = log.starts().iter().filter(|&&start| start <= at).count() - 1;
        bytes[at] ^= mask;
        let answer = ringlog::audit(&bytes);
        assert_eq!(answer, first(&log, whole).into(), "byte {at}, {mask:#04x}");
        bytes[at] ^= mask;
    }
}

#[test]
fn what_follows_a_log_does_not_count() {
    let mut random = Random::new(9);
    for n in 0..=40 {
        let log = logs::log(n, &mut random);
        for len in 1..=60 {
            let junk = random.bytes(len);
            let bytes = [log.bytes(), &junk].concat();
            let case = || format!("{n} values, then {junk:02x?}");
            assert_eq!(audit(&bytes, case), first(&log, n), "{}", case());
        }
    }
    for n in 0..=4 {
        let log = logs::log(n, &mut random);
        for (name, bytes) in refused::not_opening(&mut random) {
            let bytes = [log.bytes(), &bytes].concat();
            audit(&bytes, || format!("{n} values, then {name}"));
        }
    }
}

/// Opening is not an audit: a last entry that opens, with random digests, does not count.
#[test]
fn forged_entries_of_right_shape_do_not_count() {
    let mut random = Random::new(10);
    for n in 0..=100 {
        let log = logs::log(n, &mut random);
        let offset = log.bytes().len();
        let forged = &logs::forged(n + 1, offset, &mut random)[offset..];
        let bytes = [log.bytes(), forged].concat();
        assert_eq!(ringlog::root(&bytes).number, 0, "{n} values");
        let case = || format!("{n} values, then {forged:02x?}");
        assert_eq!(audit(&bytes, case), first(&log, n), "{}", case());
    }
}

/// Changes these bytes: one is bent, some are lost, come twice or are others, there are more behind
/// them, another entry of the log comes between, or all are random ones.
fn edit(bytes: &mut Vec<u8>, log: &Log, random: &mut Random) {
    let len = bytes.len();
    let (a, b) = (random.up_to(len), random.up_to(len));
    let (from, to) = (a.min(b), a.max(b));
    let near = (from + random.up_to(9)).min(len);
    let some = random.up_to(60);
    match random.up_to(15) {
        0 => bytes.fill_with(|| random.word() as u8),
        1 => bytes.truncate(to),
        2 => drop(bytes.drain(from..near)),
        3 => drop(bytes.splice(to..to, bytes[from..near].to_vec())),
        4 => drop(bytes.splice(from..near, random.bytes(some))),
        5 => random.fill(&mut bytes[from..near]),
        6 | 7 => bytes.extend(random.bytes(some)),
        8..=10 => {
            let i = 1 + random.up_to(log.count() - 1);
            let at = log.end(random.up_to(log.count())).min(len);
            drop(bytes.splice(at..at, entry(log, i).to_vec()));
        }
        _ if from < len => bytes[from] ^= MASKS[random.up_to(MASKS.len() - 1)],
        _ => (),
    }
}

/// The counts are spread, and often only a part of the bytes counts.
#[test]
fn edited_logs_and_random_bytes_count_as_the_model_counts_them() {
    let mut random = Random::new(11);
    let log = logs::log(300, &mut random);
    let mut met = [0; 301];
    let mut stopped = 0;
    for round in 0..4_000 {
        let most = *random.one_of(&[2, 12, 12, 40, 40, 300]);
        let mut bytes = log.beginning(random.up_to(most)).to_vec();
        for _ in 0..random.up_to(2) {
            edit(&mut bytes, &log, &mut random);
        }
        let (count, end) = audit(&bytes, || format!("round {round}: {bytes:02x?}"));
        met[count] += 1;
        stopped += usize::from(0 < end && end < bytes.len());
    }
    let different = met.iter().filter(|&&times| times > 0).count();
    assert!(different > 150, "{different} counts");
    assert!(met[1..=12].iter().all(|&times| times > 40), "{met:?}");
    assert!(met[0] < 2_000, "nothing counts {} times", met[0]);
    assert!(stopped > 1_500, "a part counts {stopped} times");
}

/// The bytes of entry i of a log.
fn entry(log: &Log, i: usize) -> &[u8] {
    &log.bytes()[log.end(i - 1)..log.end(i)]
}

/// A log of 14 entries in which some are those of another log with some first values in common, or
/// are left out, come twice or are swapped. Every count of entries comes up.
#[test]
fn spliced_logs_count_as_the_model_counts_them() {
    let mut random = Random::new(12);
    let mut met = [false; 15];
    for round in 0..2_000 {
        let values: Vec<_> = (0..14).map(|_| logs::value(&mut random)).collect();
        let mut others = values.clone();
        others[random.up_to(6)..].fill_with(|| logs::value(&mut random));
        let (one, other) = (Log::of(&values), Log::of(&others));
        let mut entries: Vec<_> = (1..=14).map(|i| entry(&one, i)).collect();
        for _ in 0..random.up_to(2) {
            let (at, to) = (random.up_to(12), random.up_to(12));
            match random.up_to(3) {
                0 => entries[at] = entry(&other, 1 + at),
                1 => entries.insert(at, entries[at]),
                2 => entries.swap(at, to),
                _ => drop(entries.remove(at)),
            }
        }
        let bytes = entries.concat();
        let (count, _) = audit(&bytes, || format!("round {round}: {bytes:02x?}"));
        met[count] = true;
    }
    assert_eq!(met, [true; 15]);
}

/// Two logs of the same values but one, and the end of the one behind the beginning of the other: an
/// entry's left digests cover all values before it.
#[test]
fn the_end_of_another_log_counts_only_behind_the_same_values() {
    let mut random = Random::new(13);
    let values: Vec<_> = (0..16).map(|_| logs::tap(&mut random)).collect();
    let one = Log::of(&values);
    for changed in 1..=16 {
        let mut others = values.clone();
        others[changed - 1][8] ^= 0x01;
        let other = Log::of(&others);
        for cut in 0..=16 {
            let at = one.end(cut);
            let bytes = [&one.bytes()[..at], &other.bytes()[at..]].concat();
            let case = || format!("value {changed} changed, cut behind {cut}");
            let whole = if changed <= cut { cut } else { 16 };
            assert_eq!(audit(&bytes, case), first(&one, whole), "{}", case());
        }
    }
}

#[test]
fn the_audit_changes_no_byte_and_looks_at_none_around() {
    let mut random = Random::new(14);
    let log = logs::log(9, &mut random);
    lend_beginnings(log.bytes(), &[0x00, 0x10, 0xff], |log, case| {
        audit(log, case);
    });
    for len in 0..=log.bytes().len() {
        // The rest of the log is behind it.
        audit(&log.bytes()[..len], || format!("{len} bytes"));
    }
}
