//! The library's search on torn, bent and forged logs against the model's. Every outcome is met.

use ringlog_tests::logs::MASKS;
use ringlog_tests::model::search::Side;
use ringlog_tests::model::{self, Log};
use ringlog_tests::pairs::{self, values, with_others};
use ringlog_tests::random::Random;
use ringlog_tests::ringlog::{self, Split};
use ringlog_tests::splits::{agree, count, refusal, search};
use std::collections::HashMap;
use std::ops::Range;

/// What a search comes to: where it is refused or that it answers, with number and side, or with
/// its verdict.
type Outcome = (&'static str, u32, u32);

fn outcome(first: &[u8], second: &[u8], split: Split) -> Outcome {
    let opens = |log: &[u8]| model::root(log).is_ok();
    let n = count(first).min(count(second));
    let comes_to_n = |log: &[u8]| model::end_of_entry(log, n).is_ok();
    if split.number == 0 {
        ("answered", 0, split.verdict)
    } else if !opens(first) || !opens(second) {
        ("opening", split.number, split.side)
    } else if !comes_to_n(first) || !comes_to_n(second) {
        ("bringing", split.number, split.side)
    } else {
        ("going down", split.number, split.side)
    }
}

const OUTCOMES: [Outcome; 15] = [
    ("answered", 0, 0),
    ("answered", 0, 1),
    ("answered", 0, 2),
    ("answered", 0, 3),
    ("opening", 6, 1),
    ("opening", 6, 2),
    ("bringing", 6, 1),
    ("bringing", 6, 2),
    ("bringing", 7, 1),
    ("bringing", 7, 2),
    ("going down", 6, 1),
    ("going down", 6, 2),
    ("going down", 7, 1),
    ("going down", 7, 2),
    ("going down", 7, 3),
];

/// How often each outcome was met. There are no others.
#[derive(Default)]
struct Outcomes(HashMap<Outcome, usize>);

impl Outcomes {
    fn count(&mut self, first: &[u8], second: &[u8], split: Split) {
        let outcome = outcome(first, second, split);
        assert!(OUTCOMES.contains(&outcome), "{outcome:?}");
        *self.0.entry(outcome).or_default() += 1;
    }

    /// Holds that each of these was met so often at least.
    fn assert_met(&self, outcomes: &[Outcome], least: usize) {
        for outcome in outcomes {
            let times = self.0.get(outcome).copied().unwrap_or(0);
            assert!(times >= least, "{outcome:?} {times} times: {:?}", self.0);
        }
    }
}

#[test]
fn whole_torn_bent_and_forged_logs_get_what_the_model_gives() {
    let mut random = Random::new(1);
    let mut met = Outcomes::default();
    for round in 0..30_000 {
        let most = if round % 8 == 0 { 70 } else { 12 };
        let (first, second) = pairs::any(most, &mut random);
        let case = || format!("round {round}: {first:02x?} and {second:02x?}");
        let split = search(&first, &second, case);
        met.count(&first, &second, split);
        // Junk and parts of logs, each beside each.
        let (from, to) = (random.up_to(first.len()), random.up_to(second.len()));
        search(&first[from..], &second[..to], case);
    }
    met.assert_met(&OUTCOMES, 50);
}

/// Digests agree where values differ, and differ where values agree.
#[test]
fn logs_with_digests_from_a_small_pool_get_what_the_model_gives() {
    let mut random = Random::new(2);
    let mut met = Outcomes::default();
    for round in 0..30_000 {
        let most = if round % 10 == 0 { 40 } else { 10 };
        let (first, second) = pairs::mislinked(most, &mut random);
        let case = || format!("round {round}: {first:02x?} and {second:02x?}");
        let split = search(&first, &second, case);
        met.count(&first, &second, split);
    }
    let opening = |outcome: &Outcome| outcome.0 == "opening";
    let rest: Vec<_> = OUTCOMES.into_iter().filter(|o| !opening(o)).collect();
    met.assert_met(&rest, 50);
}

/// The links of these logs hold, so they are refused only for both.
#[test]
fn logs_of_invented_digests_whose_links_hold_are_refused_for_both_or_not_at_all() {
    let mut random = Random::new(3);
    let mut met = Outcomes::default();
    for round in 0..10_000 {
        let pool = 1 + random.up_to(3);
        let (first, second) = pairs::invented(24, pool, &mut random);
        let (first, second) = (first.bytes(), second.spread(5, &mut random).bytes());
        let case = || format!("round {round}: {first:02x?} and {second:02x?}");
        let split = search(&first, &second, case);
        met.count(&first, &second, split);
        let for_both = split == refusal(Side::Both, 7);
        assert!(split.number == 0 || for_both, "{}", case());
        // All digests are one.
        if pool == 1 {
            assert_eq!(split, agree(count(&first), count(&second)), "{}", case());
        }
    }
    met.assert_met(&OUTCOMES[..4], 300);
    met.assert_met(&OUTCOMES[14..], 300);
}

#[test]
fn every_single_bent_byte_of_either_log_gives_what_the_model_gives() {
    let mut random = Random::new(4);
    let mut met = Outcomes::default();
    let list = values(11, &mut random);
    let log = Log::of(&list);
    let other = Log::of(&with_others(&list, &[3, 7], &mut random));
    let partners = [
        other.beginning(11),
        other.beginning(9),
        log.beginning(11),
        log.beginning(6),
    ];
    for m in [1, 2, 7, 11] {
        let mut bent = log.beginning(m).to_vec();
        for at in 0..bent.len() {
            for mask in [MASKS[at % 8], 0xff] {
                bent[at] ^= mask;
                for partner in partners {
                    let case = || format!("{m} values, byte {at} bent with {mask:#04x}");
                    let split = search(&bent, partner, case);
                    met.count(&bent, partner, split);
                    let split = search(partner, &bent, case);
                    met.count(partner, &bent, split);
                }
                bent[at] ^= mask;
            }
        }
    }
    met.assert_met(&OUTCOMES, 50);
}

#[test]
fn two_bent_bytes_one_in_each_log_give_what_the_model_gives() {
    let mut random = Random::new(5);
    let mut met = Outcomes::default();
    let list = values(200, &mut random);
    let log = Log::of(&list);
    let other = Log::of(&with_others(&list, &[90, 129], &mut random));
    for round in 0..20_000 {
        let (m1, m2) = (1 + random.up_to(199), 1 + random.up_to(199));
        let split = ringlog::search(log.beginning(m1), other.beginning(m2));
        assert_eq!(split.number, 0, "{m1}, {m2}");
        let found = model::search(log.beginning(m1), other.beginning(m2)).expect("an answer");
        // Bytes of entries that are read: the others do not matter.
        let mut bend = |log: &[u8], read: &[Range<usize>]| {
            let entry = read[random.up_to(read.len() - 1)].clone();
            let at = entry.start + random.up_to(entry.len() - 1);
            let mut bytes = log.to_vec();
            bytes[at] ^= MASKS[random.up_to(8)];
            bytes
        };
        let first = bend(log.beginning(m1), &found.read[0]);
        let second = bend(other.beginning(m2), &found.read[1]);
        let case = || format!("round {round}, {m1} and {m2} values");
        let split = search(&first, &second, case);
        met.count(&first, &second, split);
    }
    met.assert_met(&OUTCOMES, 20);
}

#[test]
fn every_beginning_of_a_log_gives_what_the_model_gives() {
    let mut random = Random::new(6);
    let list = values(9, &mut random);
    let log = Log::of(&list);
    let other = Log::of(&with_others(&list, &[4], &mut random));
    for len in 0..=log.bytes().len() {
        for partner in [other.bytes(), log.beginning(5)] {
            let case = || format!("{len} bytes");
            search(&log.bytes()[..len], partner, case);
            search(partner, &log.bytes()[..len], case);
        }
    }
    for len in 0..=log.bytes().len() {
        let other_len = random.up_to(other.bytes().len());
        let case = || format!("{len} and {other_len} bytes");
        search(&log.bytes()[..len], &other.bytes()[..other_len], case);
    }
}
