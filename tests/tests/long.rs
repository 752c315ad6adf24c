//! Long logs with one fault: where the audit ends, and what refuses a cut, a checked value and a proof
//! on their way, at each height.

use ringlog_tests::answers::{done, refusal};
use ringlog_tests::logs::LONGEST_ENTRY;
use ringlog_tests::memory::Memory;
use ringlog_tests::model::entry::last_entry;
use ringlog_tests::model::inclusion::hops;
use ringlog_tests::random::Random;
use ringlog_tests::ringlog::Part;
use ringlog_tests::ways::{faults, links, only_met, Fault};
use ringlog_tests::{long, model, ringlog};
use std::collections::BTreeSet;

/// How many values the logs have.
const COUNTS: [usize; 5] = [301, 1_000, 2_049, 4_095, 4_096];

/// The length of the longest proof: 12 siblings.
const LONGEST_PROOF: usize = 384;

/// Indexes of a log of n values, n above 300, that are reached on many ways and on short ones.
fn indexes(n: usize) -> [usize; 10] {
    [1, 2, 3, 6, 100, n / 3, n / 2, n / 2 + 1, n - 2, n - 1]
}

/// Calls with a long log, an index and one fault of a link on the way to that index, for each link
/// and each of its faults. Links from nodes of every height are among them.
fn each_fault(mut call: impl FnMut(&mut [u8], usize, &Fault, &dyn Fn() -> String)) {
    let log = long::whole();
    let mut met = BTreeSet::new();
    for n in COUNTS {
        let mut bytes = log.beginning(n).to_vec();
        for i in indexes(n) {
            for link in links(n, i) {
                for mut fault in faults(log, link) {
                    fault.swap(&mut bytes);
                    let case = || format!("{i} of {n}, {link:?}: {}", fault.what);
                    call(&mut bytes, i, &fault, &case);
                    met.insert((link.from.1, fault.number));
                    fault.swap(&mut bytes);
                }
            }
        }
        assert!(bytes == log.beginning(n), "{n} values");
    }
    let all = (1..=12).flat_map(|height| [(height, 6), (height, 7)]);
    assert!(met.into_iter().eq(all));
}

#[test]
fn a_cut_of_a_long_log_is_refused_at_each_link_that_does_not_hold() {
    each_fault(|bytes, d, fault, case| {
        let used = bytes.len();
        let answer = ringlog::cut(bytes, used, d);
        assert_eq!(answer, refusal(fault.number), "{}", case());
        let expected = model::cut(bytes, used, d).into();
        assert_eq!(answer, expected, "{}", case());
    });
}

#[test]
fn a_value_of_a_long_log_is_refused_at_each_link_that_does_not_hold() {
    each_fault(|bytes, i, fault, case| {
        let n = last_entry(bytes).expect("a log that opens").index;
        let root = model::root(long::whole().beginning(n)).expect("a root");
        let answer = ringlog::value(bytes, &root, i);
        assert_eq!(answer, Part::from(Err(fault.number)), "{}", case());
        let expected = model::value(bytes, &root, i).into();
        assert_eq!(answer, expected, "{}", case());
    });
}

#[test]
fn a_proof_of_a_long_log_is_refused_at_each_link_that_does_not_hold_and_nothing_is_written() {
    each_fault(|bytes, i, fault, case| {
        let mut output = Memory::counting(LONGEST_PROOF);
        let before = output.clone();
        let answer = ringlog::proof(bytes, i, output.lent_mut());
        assert_eq!(answer, refusal(fault.number), "{}", case());
        assert!(output == before, "{}", case());
        let expected = model::proof(bytes, i, output.lent_mut()).into();
        assert_eq!(answer, expected, "{}", case());
    });
}

/// A long log is torn by some bytes, or some bytes follow it.
#[test]
fn a_long_log_that_does_not_end_with_an_entry_is_refused_with_6() {
    let log = long::whole();
    let root = model::root(log.beginning(301)).expect("a root");
    for n in COUNTS {
        let end = log.end(n);
        for len in (end - 6..=end + 6).filter(|&len| len != end) {
            // What follows is zero bytes, or what the next entry begins with.
            let mut zeros = log.beginning(n)[..len.min(end)].to_vec();
            zeros.resize(len, 0);
            for bytes in [zeros, log.bytes()[..len].to_vec()] {
                let mut buffer = [&bytes[..], &[0; LONGEST_ENTRY]].concat();
                let numbers = [
                    ringlog::append(&mut buffer, len, log.value(1)).number,
                    ringlog::cut(&mut buffer, len, n).number,
                    ringlog::root(&bytes).number,
                    ringlog::value(&bytes, &root, 1).number,
                    ringlog::proof(&bytes, 1, &mut [0; LONGEST_PROOF]).number,
                ];
                assert_eq!(numbers, [6; 5], "{n} values, {len} bytes for {end}");
            }
        }
    }
}

/// Random bytes, and in them the entries that are met: no call of the first edition asks for
/// anything else, and an audit does, also where another call begins with it.
#[test]
fn what_is_beside_the_way_to_an_entry_of_a_long_log_does_not_matter() {
    let mut random = Random::new(1);
    let log = long::whole();
    for n in COUNTS {
        let root = model::root(log.beginning(n)).expect("a root");
        for i in indexes(n) {
            let bytes = only_met(log, n, i, &mut random);
            let (mut left, mut expected) = (bytes.clone(), bytes.clone());
            let answer = ringlog::cut(&mut left, bytes.len(), i);
            assert_eq!(answer, done(log.end(i)), "{i} of {n}");
            assert_eq!(answer, model::cut(&mut expected, bytes.len(), i).into());
            assert!(left == expected, "{i} of {n}");
            let (start, len) = (log.end(i - 1) + 5, log.value(i).len());
            let answer = ringlog::value(&bytes, &root, i);
            assert_eq!(answer, Ok(start..start + len).into(), "{i} of {n}");
            let (mut proof, mut of_whole) = ([0; LONGEST_PROOF], [0; LONGEST_PROOF]);
            let answer = ringlog::proof(&bytes, i, &mut proof);
            assert_eq!(answer, done(32 * hops(n, i)), "{i} of {n}");
            model::proof(log.beginning(n), i, &mut of_whole).expect("a proof");
            assert_eq!(proof, of_whole, "{i} of {n}");
            let counted = ringlog::audit(&bytes);
            assert_eq!(counted, model::audit(&bytes).into(), "{i} of {n}");
            assert!(counted.entries < 10, "{i} of {n}");
            let audited_first = [
                ringlog::rfc6962_root(&bytes).number,
                ringlog::rfc6962_path(&bytes, i, &mut proof).number,
                ringlog::rfc6962_consistency(&bytes, i, &mut proof).number,
            ];
            assert_eq!(audited_first, [6; 3], "{i} of {n}");
        }
    }
}

#[test]
fn stray_bytes_behind_a_long_log_do_not_count() {
    let mut random = Random::new(2);
    let log = long::whole();
    for n in [301, 1_000, 4_095] {
        let end = log.end(n);
        let next = &log.bytes()[end..log.end(n + 1)];
        for len in (1..=6).chain([43, next.len() - 1]) {
            for stray in [&random.bytes(len), &next[..len]] {
                let bytes = [log.beginning(n), stray].concat();
                let answer = ringlog::audit(&bytes);
                assert_eq!(answer, (n, end).into(), "{n} values, then {stray:02x?}");
            }
        }
    }
    let full = &log.bytes()[..log.end(4_096) + 4];
    assert_eq!(ringlog::audit(full), (4_096, log.end(4_096)).into());
}

/// The fault is in an entry far behind the first ones, or in the one that has the link there.
#[test]
fn one_fault_deep_in_a_long_log_ends_the_audit_before_its_entry() {
    let log = long::whole();
    for (n, i) in [(700, 301), (1_040, 1_025), (2_300, 2_049), (4_096, 4_095)] {
        let mut bytes = log.beginning(n).to_vec();
        let link = *links(n, i).last().expect("a link");
        for mut fault in faults(log, link) {
            fault.swap(&mut bytes);
            let whole = log.starts().iter().filter(|&&start| start <= fault.at);
            let whole = whole.count() - 1;
            assert!(i <= whole + 1 && whole < n, "{i} of {n}");
            let answer = ringlog::audit(&bytes);
            let expected = (whole, log.end(whole)).into();
            assert_eq!(answer, expected, "{i} of {n}: {}", fault.what);
            fault.swap(&mut bytes);
        }
    }
}
