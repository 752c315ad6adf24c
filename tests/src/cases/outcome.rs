//! What can come of each call, and what does.

use super::{Answer, Call, Case};
use crate::model;
use crate::model::entry::MOST;
use crate::model::inclusion::hops;
use crate::model::item::is_value;
use crate::model::rfc6962_checks::{proof_len, roots_by_proof};
use crate::splits::count;

/// What comes of a case: the number of the refusal, or 0, and which of those with that number.
pub type Outcome = (u32, &'static str);

/// All that can come of a call, its refusals in the order of its checks.
pub fn outcomes(call: Call) -> &'static [Outcome] {
    match call {
        Call::Sha256 => &[(0, ""), (1, "")],
        Call::Append => &[(0, ""), (1, ""), (3, ""), (6, ""), (4, ""), (5, "")],
        Call::Audit => &[(0, "whole"), (0, "a beginning"), (0, "nothing")],
        Call::Root => &[(0, "of an empty log"), (0, "of a log"), (6, "")],
        Call::Value => &[
            (0, ""),
            (1, ""),
            (6, "opening"),
            (2, ""),
            (6, "step"),
            (7, "step"),
            (7, "fold"),
        ],
        Call::Proof => &[
            (0, ""),
            (6, "opening"),
            (2, ""),
            (8, ""),
            (6, "step"),
            (7, "step"),
        ],
        Call::CheckProof | Call::Rfc6962CheckPath => &[
            (0, "yes"),
            (0, "no: index"),
            (0, "no: count"),
            (0, "no: item"),
            (0, "no: length of proof"),
            (0, "no: length of root"),
            (0, "no: fold"),
        ],
        Call::Cut => &[
            (0, "to 0"),
            (0, "to n"),
            (0, "to n with bytes behind used"),
            (0, "between"),
            (0, "between with bytes behind used"),
            (1, ""),
            (6, "opening"),
            (2, ""),
            (6, "step"),
            (7, "step"),
        ],
        Call::Search => &[
            (0, "same"),
            (0, "first shorter"),
            (0, "second shorter"),
            (0, "differ"),
            (6, "opening first"),
            (6, "opening second"),
            (6, "step in first"),
            (6, "step in second"),
            (7, "step in first"),
            (7, "step in second"),
            (7, "both"),
        ],
        Call::Repair => &[(0, "of first"), (0, "of second"), (0, "search refused")],
        Call::Rfc6962Root => &[
            (0, "of an empty log"),
            (0, "of a log"),
            (6, "opening"),
            (6, "audit"),
        ],
        Call::Rfc6962Path => &[(0, ""), (6, "opening"), (6, "audit"), (2, ""), (8, "")],
        Call::Rfc6962Consistency => &[
            (0, "equal counts"),
            (0, "power of two"),
            (0, "other count"),
            (6, "opening"),
            (6, "audit"),
            (2, ""),
            (8, ""),
        ],
        Call::Rfc6962CheckConsistency => &[
            (0, "yes: equal counts"),
            (0, "yes: power of two"),
            (0, "yes: other count"),
            (0, "no: old count"),
            (0, "no: new count"),
            (0, "no: length of old root"),
            (0, "no: length of new root"),
            (0, "no: length of proof"),
            (0, "no: old root"),
            (0, "no: new root"),
        ],
    }
}

impl Case {
    /// What comes of the case where this is its answer.
    pub fn outcome(&self, answer: &Answer) -> Outcome {
        let number = answer.number();
        (number, self.which(answer))
    }

    fn which(&self, answer: &Answer) -> &'static str {
        match (self.call, answer, &self.lent[..], &self.numbers[..]) {
            (Call::Audit, Answer::Extent(extent), [bytes], _) => match extent.bytes {
                all if all == bytes.len() as u64 => "whole",
                0 => "nothing",
                _ => "a beginning",
            },
            (Call::Root, Answer::Digest(digest), [log], _) => match digest.number {
                0 => of_a_log(log),
                _ => "",
            },
            (Call::Rfc6962Root, Answer::Digest(digest), [log], _) => match digest.number {
                0 => of_a_log(log),
                number => opening_or_audit(number, log),
            },
            (Call::Rfc6962Path, Answer::Count(count), [log, _], _) => {
                opening_or_audit(count.number, log)
            }
            (Call::Rfc6962Consistency, Answer::Count(made), [log, _], [m]) => match made.number {
                0 => from_old(*m, count(log)),
                number => opening_or_audit(number, log),
            },
            (Call::Value, Answer::Part(part), [log, _], [i]) => match part.number {
                7 if model::end_of_entry(log, *i).is_ok() => "fold",
                number => opening_or_step(number, log),
            },
            (Call::Proof, Answer::Count(count), [log, _], _) => opening_or_step(count.number, log),
            (Call::CheckProof | Call::Rfc6962CheckPath, Answer::Whether(true), _, _) => "yes",
            (Call::CheckProof | Call::Rfc6962CheckPath, _, [item, proof, root], [n, i]) => {
                why_not(*n, *i, item, proof, root)
            }
            (Call::Rfc6962CheckConsistency, Answer::Whether(true), _, [m, n]) => {
                match from_old(*m, *n) {
                    "equal counts" => "yes: equal counts",
                    "power of two" => "yes: power of two",
                    _ => "yes: other count",
                }
            }
            (Call::Rfc6962CheckConsistency, _, [proof, old_root, new_root], [m, n]) => {
                why_not_consistent(*m, *n, proof, old_root, new_root)
            }
            (Call::Cut, Answer::Count(count), [buffer], [used, d]) => match count.number {
                0 if *d == 0 => "to 0",
                0 => match (count.value == *used as u64, *used < buffer.len()) {
                    (true, false) => "to n",
                    (true, true) => "to n with bytes behind used",
                    (false, false) => "between",
                    (false, true) => "between with bytes behind used",
                },
                number => opening_or_step(number, &buffer[..*used.min(&buffer.len())]),
            },
            (Call::Search, Answer::Split(split), [first, second], _) => match split.number {
                0 => ["same", "first shorter", "second shorter", "differ"][split.verdict as usize],
                _ if !opens(first) => "opening first",
                _ if !opens(second) => "opening second",
                _ => ["step in first", "step in second", "both"][split.side as usize - 1],
            },
            (Call::Repair, Answer::Piece(piece), _, _) => {
                ["search refused", "of first", "of second"][piece.donor as usize]
            }
            _ => "",
        }
    }
}

fn of_a_log(log: &[u8]) -> &'static str {
    match log {
        [] => "of an empty log",
        _ => "of a log",
    }
}

/// Which consistency proof it is that leads from m values to n.
fn from_old(m: usize, n: usize) -> &'static str {
    if m == n {
        "equal counts"
    } else if m.is_power_of_two() {
        "power of two"
    } else {
        "other count"
    }
}

fn opens(log: &[u8]) -> bool {
    model::root(log).is_ok()
}

/// Whether a refusal with 6 or 7 was given at opening the log or for a step in it.
fn opening_or_step(number: u32, log: &[u8]) -> &'static str {
    match number {
        6 if !opens(log) => "opening",
        6 | 7 => "step",
        _ => "",
    }
}

/// Whether a refusal with 6 was given to a log that does not open, or to one that opens and is not well
/// formed.
fn opening_or_audit(number: u32, log: &[u8]) -> &'static str {
    match number {
        6 if !opens(log) => "opening",
        6 => "audit",
        _ => "",
    }
}

/// The first condition of a proof check that does not hold, in the header's order.
fn why_not(n: usize, i: usize, item: &[u8], proof: &[u8], root: &[u8]) -> &'static str {
    if i == 0 || i > n {
        "no: index"
    } else if n > MOST {
        "no: count"
    } else if !is_value(item) {
        "no: item"
    } else if proof.len() != 32 * hops(n, i) {
        "no: length of proof"
    } else if root.len() != 32 {
        "no: length of root"
    } else {
        "no: fold"
    }
}

/// The first condition of a consistency check that does not hold, in this order.
fn why_not_consistent(
    m: usize,
    n: usize,
    proof: &[u8],
    old_root: &[u8],
    new_root: &[u8],
) -> &'static str {
    if m == 0 || m > n {
        "no: old count"
    } else if n > MOST {
        "no: new count"
    } else if old_root.len() != 32 {
        "no: length of old root"
    } else if new_root.len() != 32 {
        "no: length of new root"
    } else if proof.len() != 32 * proof_len(m, n) {
        "no: length of proof"
    } else if !old_root_comes_out(m, n, proof, old_root) {
        "no: old root"
    } else {
        "no: new root"
    }
}

fn old_root_comes_out(m: usize, n: usize, proof: &[u8], old_root: &[u8]) -> bool {
    let digest = |bytes: &[u8]| bytes.try_into().expect("32 bytes");
    let digests: Vec<_> = proof.chunks(32).map(digest).collect();
    let roots = roots_by_proof(m, n, &digest(old_root), &digests);
    roots.map_or(false, |(old, _)| old == old_root)
}
