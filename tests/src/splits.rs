//! Answers of a search: those to expect of two logs, and the library's held to the model's.

use crate::model;
use crate::model::comparison::Verdict;
use crate::model::entry::last_entry;
use crate::model::reads::reads;
use crate::model::search::Side;
use crate::ringlog::{self, Split};

pub fn refusal(side: Side, number: u32) -> Split {
    (side, number).into()
}

/// The entries of a log that opens: the index of its last one.
pub fn count(log: &[u8]) -> usize {
    last_entry(log).map_or(0, |last| last.index)
}

/// The answer for two logs of m1 and m2 values, with the reads of the formula.
pub fn answer(m1: usize, m2: usize, common: usize, verdict: Verdict) -> Split {
    let n = m1.min(m2);
    Split {
        number: 0,
        side: 0,
        common: common as u64,
        verdict: verdict.into(),
        place: verdict.place().unwrap_or(0) as u64,
        first_reads: reads(m1, n, verdict.place()) as u64,
        second_reads: reads(m2, n, verdict.place()) as u64,
    }
}

pub fn differ_at(m1: usize, m2: usize, i: usize) -> Split {
    answer(m1, m2, i - 1, Verdict::DifferAt(i))
}

/// The answer where the shorter log is all in common.
pub fn agree(m1: usize, m2: usize) -> Split {
    answer(m1, m2, m1.min(m2), Verdict::of_lengths(m1, m2))
}

/// The search, held to the model's, and its reads to the formula.
pub fn search(first: &[u8], second: &[u8], case: impl Fn() -> String) -> Split {
    let split = ringlog::search(first, second);
    let expected = model::search(first, second).into();
    assert_eq!(split, expected, "{}", case());
    if split.number == 0 {
        let (m1, m2) = (count(first), count(second));
        let differ_at = (split.verdict == 3).then_some(split.place as usize);
        let by_formula = |m| reads(m, m1.min(m2), differ_at) as u64;
        assert_eq!(split.first_reads, by_formula(m1), "{}", case());
        assert_eq!(split.second_reads, by_formula(m2), "{}", case());
    }
    split
}
