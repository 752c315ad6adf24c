//! What cases lend beside logs: buffers, items, roots, numbers and lengths, right in many cases and
//! wrong in many ways.

use crate::forged::{self, folded_root};
use crate::links::{self, RUNNING_OUT};
use crate::logs::{self, MASKS};
use crate::model;
use crate::model::entry::MOST;
use crate::random::Random;
use crate::refused::{self, FAR_ABOVE};

/// A buffer with so much room behind a log, and used: most often where the log ends, or one of its
/// entries. Now and then it is another log, which goes on behind used.
pub fn buffer(log: Vec<u8>, room: usize, random: &mut Random) -> (Vec<u8>, usize) {
    if random.up_to(31) == 0 {
        return (links::running_out(random), RUNNING_OUT);
    }
    let (end, len) = (log.len(), log.len() + room);
    let used = match random.up_to(11) {
        0 => end_of_one(&log, random).unwrap_or(0),
        1 => random.up_to(len),
        2 => *random.one_of(&[len, len + 1, len + (1 << 32), end + (1 << 32), usize::MAX]),
        3 => near(end, random),
        _ => end,
    };
    ([log, random.bytes(room)].concat(), used)
}

/// Where one of the log's entries ends, if the log opens and the links to that entry hold.
pub fn end_of_one(log: &[u8], random: &mut Random) -> Option<usize> {
    let i = forged::index(log, random);
    model::end_of_entry(log, i).ok()
}

/// A value item, or now and then bytes that are none.
pub fn item(random: &mut Random) -> Vec<u8> {
    let mut item = logs::value(random);
    match random.up_to(15) {
        0 => return random.one_of(&refused::no_values()).clone(),
        1 => item.resize(length_near(item.len(), random), 0x77),
        2 => bend(&mut item[..1], random),
        _ => (),
    }
    item
}

/// A root to lend for value i of a log: most often the one that the value folds to, else the stored
/// one, that of fewer values, or any.
pub fn root(log: &[u8], i: usize, random: &mut Random) -> Vec<u8> {
    let fewer = |random: &mut Random| folded_root(&log[..end_of_one(log, random)?], i);
    let root = match random.up_to(9) {
        0 => Some(random.digest()),
        1 | 2 => None,
        3 => fewer(random),
        _ => folded_root(log, i),
    };
    let stored = || model::root(log).unwrap_or([0; 32]);
    let mut root = root.unwrap_or_else(stored).to_vec();
    if random.up_to(7) == 0 {
        spoil_root(&mut root, random);
    }
    root
}

/// Bends a byte of a root, or makes the root longer or shorter.
pub fn spoil_root(root: &mut Vec<u8>, random: &mut Random) {
    match random.up_to(1) {
        0 => bend(root, random),
        _ => root.resize(*random.one_of(&[0, 1, 31, 33, 64, 288]), 0),
    }
}

/// Makes a proof longer or shorter.
pub fn spoil_length(proof: &mut Vec<u8>, random: &mut Random) {
    let len = proof.len();
    let by = *random.one_of(&[1, 31, 32, 33, len]);
    let len = match random.up_to(1) {
        0 => len.saturating_sub(by),
        _ => len + by,
    };
    proof.resize(len, 0);
}

/// How many values a check is told of: few, any number that a log can have, now and then one at the
/// limit or above it.
pub fn count(random: &mut Random) -> usize {
    match random.up_to(11) {
        0 => *random.one_of(&[1, MOST - 1, MOST, MOST + 1, 2 * MOST, 1 << 20]),
        1..=5 => 1 + random.up_to(MOST - 1),
        _ => 1 + random.up_to(20),
    }
}

/// Bends a byte, if there is one, and the last one more often than another.
pub fn bend(bytes: &mut [u8], random: &mut Random) {
    if let Some(last) = bytes.len().checked_sub(1) {
        let at = match random.up_to(3) {
            0 => last,
            _ => random.up_to(last),
        };
        bytes[at] ^= *random.one_of(&MASKS);
    }
}

/// The number, now and then one beside it, or one far above, some with the same lower 32 bits.
pub fn near(number: usize, random: &mut Random) -> usize {
    match random.up_to(31) {
        0 => number.wrapping_sub(1),
        1 => number.wrapping_add(1),
        2 => number.wrapping_add(1 << 32),
        3 => *random.one_of(&FAR_ABOVE),
        _ => number,
    }
}

/// A length where so many bytes are needed: enough exactly, a byte more or less, none, or ample.
pub fn length_near(need: usize, random: &mut Random) -> usize {
    match random.up_to(11) {
        0 | 1 => need.saturating_sub(1),
        2 => need + 1,
        3 => random.up_to(need),
        4 => 0,
        5..=7 => need + random.up_to(1_000),
        _ => need,
    }
}
