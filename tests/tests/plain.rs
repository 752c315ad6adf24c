//! The plain Rust that the benchmark measures against the model: SHA-256, append and audit that make
//! each entry from the strata before it, the search, and the RFC 6962 edition.

use ringlog_tests::bent::each_bent;
use ringlog_tests::claims::{Claim, Edition};
use ringlog_tests::consistency::Consistency;
use ringlog_tests::logs::{self, LONGEST_ENTRY, LONGEST_LOG};
use ringlog_tests::model::Log;
use ringlog_tests::pairs::{self, each_parted, values, with_others};
use ringlog_tests::random::Random;
use ringlog_tests::{forged, links, long, model, plain, refused};

#[test]
fn digests_agree() {
    let message = Random::new(12).bytes(65_535);
    for len in (0..=300).chain([4_096, 65_472, 65_534, 65_535]) {
        let message = &message[..len];
        assert_eq!(
            plain::sha256(message),
            model::sha256(message),
            "{len} bytes"
        );
    }
}

fn assert_audits_agree(bytes: &[u8], case: impl Fn() -> String) {
    assert_eq!(plain::audit(bytes), model::audit(bytes), "{}", case());
}

fn assert_appends_agree(buffer: &[u8], used: usize, item: &[u8], case: impl Fn() -> String) {
    let (mut one, mut other) = (buffer.to_vec(), buffer.to_vec());
    let expected = model::append(&mut other, used, item);
    assert_eq!(plain::append(&mut one, used, item), expected, "{}", case());
    assert!(one == other, "{}", case());
}

#[test]
fn audits_of_whole_and_torn_logs_agree() {
    let mut random = Random::new(1);
    let log = logs::log(20, &mut random);
    for len in 0..=log.bytes().len() {
        assert_audits_agree(&log.bytes()[..len], || format!("{len} bytes"));
    }
    for n in [100, 300] {
        let log = logs::log(n, &mut random);
        assert_audits_agree(log.bytes(), || format!("{n} values"));
    }
}

#[test]
fn audits_of_bent_logs_agree() {
    let mut random = Random::new(2);
    let log = logs::log(9, &mut random);
    each_bent(log.bytes(), |bytes, bent| {
        assert_audits_agree(bytes, || bent.to_string());
    });
}

#[test]
fn audits_of_full_logs_agree_and_stop_before_entry_4097() {
    let mut random = Random::new(3);
    let log = logs::tickets(4_097, &mut random);
    assert_audits_agree(log.bytes(), || "4,097 tickets".to_string());
    assert_eq!(plain::audit(log.bytes()), (4_096, LONGEST_LOG));
    let log = logs::taps(4_095, &mut random);
    assert_audits_agree(log.bytes(), || "4,095 taps".to_string());
}

#[test]
fn appends_of_random_values_agree() {
    let mut random = Random::new(4);
    let mut log = Log::default();
    for n in 0..=200 {
        let value = logs::value(&mut random);
        for room in [0, 51, 52, LONGEST_ENTRY] {
            let buffer = [log.bytes(), &random.bytes(room)].concat();
            let case = || format!("{n} values, room of {room}");
            assert_appends_agree(&buffer, log.bytes().len(), &value, case);
        }
        log.push(&value);
    }
}

#[test]
fn appends_behind_forged_and_bent_entries_agree() {
    let mut random = Random::new(5);
    for index in 2..=4_096 {
        let log = logs::forged(index, 300, &mut random);
        let value = logs::value(&mut random);
        let mut buffer = [&log[..], &[0; LONGEST_ENTRY]].concat();
        assert_appends_agree(&buffer, log.len(), &value, || format!("index {index}"));
        let at = 300 + random.up_to(log.len() - 301);
        buffer[at] ^= 0x01;
        let case = || format!("index {index}, byte {at} bent");
        assert_appends_agree(&buffer, log.len(), &value, case);
    }
}

#[test]
fn refused_appends_agree() {
    let mut random = Random::new(6);
    let tap = logs::tap(&mut random);
    for (name, bytes) in refused::not_opening(&mut random) {
        let buffer = [&bytes[..], &[0; LONGEST_ENTRY]].concat();
        assert_appends_agree(&buffer, bytes.len(), &tap, || name.clone());
    }
    for item in refused::no_values() {
        let buffer = [0; LONGEST_ENTRY];
        assert_appends_agree(&buffer, 0, &item, || format!("{item:02x?}"));
    }
    for used in [101, (1 << 32) + 52, usize::MAX] {
        assert_appends_agree(&[0; 100], used, &tap, || format!("used {used}"));
    }
}

fn assert_searches_agree(first: &[u8], second: &[u8], case: impl Fn() -> String) {
    let expected = model::search(first, second).into();
    assert_eq!(plain::search(first, second), expected, "{}", case());
}

#[test]
fn searches_of_whole_logs_agree() {
    each_parted(40, &mut Random::new(7), |parted| {
        assert_searches_agree(parted.first, parted.second, || parted.case());
    });
}

#[test]
fn searches_of_full_logs_agree() {
    let mut random = Random::new(8);
    let list = values(4_096, &mut random);
    let log = Log::of(&list);
    for i in [1, 2, 2_048, 2_049, 4_095, 4_096] {
        let other = Log::of(&with_others(&list, &[i], &mut random));
        for m in [1, 2_047, 2_048, 2_049, 4_095, 4_096] {
            let case = || format!("4,096 and {m} values that differ at {i}");
            assert_searches_agree(log.bytes(), other.beginning(m), case);
            assert_searches_agree(other.beginning(m), log.bytes(), case);
        }
    }
}

#[test]
fn searches_of_torn_bent_and_forged_logs_agree() {
    let mut random = Random::new(9);
    let mut met = [0; 8];
    for round in 0..30_000 {
        let most = if round % 8 == 0 { 70 } else { 12 };
        let (first, second) = match round % 2 {
            0 => pairs::mislinked(most, &mut random),
            _ => pairs::any(most, &mut random),
        };
        let case = || format!("round {round}: {first:02x?} and {second:02x?}");
        assert_searches_agree(&first, &second, case);
        met[plain::search(&first, &second).number as usize] += 1;
    }
    assert!([0, 6, 7].iter().all(|&no| met[no] > 1_000), "{met:?}");
    let log = logs::log(8, &mut random);
    let other = logs::log(8, &mut random);
    for mislinked in links::mislinked(&log) {
        let bytes = mislinked.forged.bytes();
        for m in 1..=8 {
            let case = || format!("{:?} and {m} values", mislinked.faults);
            assert_searches_agree(&bytes, other.beginning(m), case);
            assert_searches_agree(log.beginning(m), &bytes, case);
        }
    }
}

#[test]
fn searches_of_bent_logs_agree() {
    let mut random = Random::new(10);
    let list = values(9, &mut random);
    let log = Log::of(&list);
    let other = Log::of(&with_others(&list, &[1], &mut random));
    each_bent(log.bytes(), |bytes, bent| {
        let case = || bent.to_string();
        assert_searches_agree(bytes, other.bytes(), case);
        assert_searches_agree(log.beginning(1), bytes, case);
    });
}

#[test]
fn searches_of_what_does_not_open_agree() {
    let mut random = Random::new(11);
    let log = logs::log(3, &mut random);
    for (name, bytes) in refused::not_opening(&mut random) {
        for partner in [&[], log.bytes(), &bytes] {
            assert_searches_agree(&bytes, partner, || name.clone());
            assert_searches_agree(partner, &bytes, || name.clone());
        }
    }
    assert_searches_agree(&[], &[], || "two empty logs".to_string());
    for _ in 0..50 {
        let two = logs::log(2, &mut random);
        let overlapping = links::overlapping(&mut random);
        let running_out = links::running_out(&mut random);
        let elsewhere = links::entry_1_elsewhere(&mut random);
        for bytes in [&overlapping, &running_out[..links::RUNNING_OUT], &elsewhere] {
            let case = || format!("{bytes:02x?}");
            assert_searches_agree(bytes, two.bytes(), case);
            assert_searches_agree(bytes, two.beginning(1), case);
        }
    }
}

/// The root, and for a number the path and the consistency proof into an output of so many bytes.
fn assert_rfc6962_agrees(log: &[u8], number: usize, len: usize, case: impl Fn() -> String) {
    let root = plain::rfc6962::root(log);
    assert_eq!(root, model::rfc6962_root(log), "{}", case());
    let (mut one, mut other) = (vec![0x5a; len], vec![0x5a; len]);
    let path = plain::rfc6962::path(log, number, &mut one);
    let expected = model::rfc6962_path(log, number, &mut other);
    assert_eq!((path, &one), (expected, &other), "{}", case());
    let proof = plain::rfc6962::consistency(log, number, &mut one);
    let expected = model::rfc6962_consistency(log, number, &mut other);
    assert_eq!((proof, &one), (expected, &other), "{}", case());
}

#[test]
fn roots_paths_and_consistency_proofs_agree() {
    let mut random = Random::new(13);
    let log = logs::log(40, &mut random);
    for n in 0..=40 {
        for number in 0..=n + 1 {
            let case = || format!("{number} of {n}");
            assert_rfc6962_agrees(log.beginning(n), number, 416, case);
        }
    }
    for n in [1_000, 4_095, 4_096, 4_097] {
        let log = long::whole().beginning(n);
        assert_rfc6962_agrees(log, 3, 416, || format!("3 of {n}"));
    }
    for round in 0..2_000 {
        let log = forged::any(12, &mut random);
        let number = forged::index(&log, &mut random);
        let len = random.up_to(200);
        assert_rfc6962_agrees(&log, number, len, || format!("round {round}: {log:02x?}"));
    }
}

/// RFC 9162 writes the checks in another way than the model, which goes by RFC 6962's recursions:
/// also what holds of no log is told alike by both.
#[test]
fn path_checks_agree() {
    let mut random = Random::new(14);
    let mut met = [0; 2];
    for round in 0..20_000 {
        let n = 1 + random.up_to(if round % 4 == 0 { 4_095 } else { 40 });
        let i = 1 + random.up_to(n - 1);
        let item = logs::value(&mut random);
        let mut claim = Claim::folded_in(Edition::Rfc6962, (n, i), item, &mut random);
        match random.up_to(7) {
            0 => claim.n = random.up_to(41),
            1 => claim.i = random.up_to(41),
            2 => claim.n = n + random.up_to(10),
            3 => claim.proof.resize(32 * random.up_to(13), 0),
            4 => claim.root.resize(random.up_to(33), 0),
            _ => (),
        }
        let Claim { n, i, .. } = claim;
        let (item, path, root) = (&claim.item, &claim.proof, &claim.root);
        let expected = model::rfc6962_check_path(n, i, item, path, root);
        let answer = plain::rfc6962::check_path(n, i, item, path, root);
        assert_eq!(answer, expected, "{claim:02x?}");
        met[usize::from(answer)] += 1;
    }
    assert!(met.iter().all(|&times| times > 2_000), "{met:?}");
}

#[test]
fn consistency_checks_agree() {
    let mut random = Random::new(15);
    let mut met = [0; 2];
    let mut assert_agrees = |claim: &Consistency| {
        let Consistency { m, n, .. } = *claim;
        let (proof, old, new) = (&claim.proof, &claim.old_root, &claim.new_root);
        let expected = model::rfc6962_check_consistency(m, n, proof, old, new);
        let answer = plain::rfc6962::check_consistency(m, n, proof, old, new);
        assert_eq!(answer, expected, "{claim:02x?}");
        met[usize::from(answer)] += 1;
    };
    for n in 1..=70 {
        for m in 1..=n {
            assert_agrees(&Consistency::folded(m, n, &mut random));
        }
    }
    for round in 0..20_000 {
        let n = 1 + random.up_to(if round % 4 == 0 { 4_095 } else { 40 });
        let m = 1 + random.up_to(n - 1);
        let mut claim = Consistency::folded(m, n, &mut random);
        match random.up_to(7) {
            0 => claim.n = random.up_to(41),
            1 => claim.m = random.up_to(41),
            2 => claim.n = n + random.up_to(10),
            3 => claim.proof.resize(32 * random.up_to(13), 0),
            4 => claim.old_root.resize(random.up_to(33), 0),
            5 => claim.new_root = claim.old_root.clone(),
            _ => (),
        }
        assert_agrees(&claim);
    }
    assert!(met.iter().all(|&times| times > 2_000), "{met:?}");
}
