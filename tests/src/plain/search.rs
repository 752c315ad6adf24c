//! The search for the split of two logs in plain Rust. Every entry that it reads is tested for its
//! shape, and every link for its digest.

use super::{digest_at, digest_place, entry_len, nodes_are_shaped, open, u32_at, value_len, MOST};
use crate::ringlog::Split;

/// A log that is searched, and the entry that was reached in it.
#[derive(Clone, Copy)]
struct Reached<'a> {
    log: &'a [u8],
    start: usize,
    index: usize,
    item_len: usize,
    reads: u64,
}

const FIRST: u32 = 1;
const SECOND: u32 = 2;
const BOTH: u32 = 3;

/// The height of the highest set bit below this height, counted from 1; 0 if there is none.
fn highest(n: usize, below: u32) -> u32 {
    usize::BITS - (n & ((1 << below) - 1)).leading_zeros()
}

impl<'a> Reached<'a> {
    /// The last entry; index 0 in an empty log.
    fn open(log: &'a [u8]) -> Result<Self, u32> {
        let (start, index) = if log.is_empty() {
            (0, 0)
        } else {
            open(log).ok_or(6_u32)?
        };
        Ok(Reached {
            log,
            start,
            index,
            item_len: log.get(start + 5).map_or(0, |&kind| value_len(kind)),
            reads: u64::from(!log.is_empty()),
        })
    }

    /// Where the digest of height h is, and before it, where h is not 0, the rest of its node.
    fn place(&self, h: u32) -> usize {
        let nodes = match h {
            0 => 0,
            _ => ((self.index - 1) & ((1 << h) - 1)).count_ones() as usize,
        };
        self.start + digest_place(self.item_len, nodes)
    }

    fn digest(&self, h: u32) -> &'a [u8; 32] {
        digest_at(self.log, self.place(h))
    }

    fn left_digest(&self, h: u32) -> &'a [u8; 32] {
        digest_at(self.log, self.place(h) - 32)
    }

    fn left_index(&self, h: u32) -> usize {
        (self.index - 1) >> (h - 1) << (h - 1)
    }

    fn top(&self) -> u32 {
        highest(self.index - 1, usize::BITS - 1)
    }

    fn step(&mut self, h: u32) -> Result<(), u32> {
        let start = u32_at(self.log, self.place(h) - 36) as usize;
        let wanted = self.left_digest(h);
        self.index = self.left_index(h);
        self.start = start;
        self.item_len = shaped(self.log, start, self.index).ok_or(6_u32)?;
        self.reads += 1;
        if self.digest(h - 1) == wanted {
            Ok(())
        } else {
            Err(7)
        }
    }

    fn bring(&mut self, n: usize) -> Result<(), u32> {
        let mut h = self.top();
        while self.index != n {
            if n <= self.left_index(h) {
                self.step(h)?;
                h -= 1;
            } else {
                h = highest(self.index - 1, h - 1);
            }
        }
        Ok(())
    }
}

/// The length of the value item of the entry with this index at this offset, if it is shaped.
fn shaped(log: &[u8], start: usize, index: usize) -> Option<usize> {
    let entry = log.get(start..)?;
    let item_len = value_len(*entry.get(5)?);
    let len = entry_len(index - 1, item_len);
    let is_shaped = index <= MOST
        && (start == 0) == (index == 1)
        && item_len != 0
        && entry.len() >= len
        && entry[0] == 0x01
        && u32_at(entry, 1) as usize == index
        && entry[5 + item_len] == 0x20
        && entry[len - 5] == 0x30
        && u32_at(entry, len - 4) as usize == len
        && nodes_are_shaped(&entry[5 + item_len + 33..], index - 1, start);
    is_shaped.then_some(item_len)
}

fn refused(number: u32, side: u32) -> Split {
    Split {
        number,
        side,
        ..Split::default()
    }
}

pub fn search(first: &[u8], second: &[u8]) -> Split {
    match found(first, second) {
        Ok(split) => split,
        Err((number, side)) => refused(number, side),
    }
}

fn found(first: &[u8], second: &[u8]) -> Result<Split, (u32, u32)> {
    let in_first = |number| (number, FIRST);
    let in_second = |number| (number, SECOND);
    let mut first = Reached::open(first).map_err(in_first)?;
    let mut second = Reached::open(second).map_err(in_second)?;
    let (m1, m2) = (first.index, second.index);
    let n = m1.min(m2);
    let mut split = Split {
        common: n as u64,
        verdict: u32::from(m1 < m2) + 2 * u32::from(m1 > m2),
        ..Split::default()
    };
    if n > 0 {
        first.bring(n).map_err(in_first)?;
        second.bring(n).map_err(in_second)?;
        let mut h = first.top();
        if first.digest(h) != second.digest(h) {
            while h > 0 {
                if first.left_digest(h) != second.left_digest(h) {
                    first.step(h).map_err(in_first)?;
                    second.step(h).map_err(in_second)?;
                    h -= 1;
                } else {
                    h = highest(first.index - 1, h - 1);
                    if first.digest(h) == second.digest(h) {
                        return Err((7, BOTH));
                    }
                }
            }
            split.common = first.index as u64 - 1;
            split.verdict = 3;
            split.place = first.index as u64;
        }
    }
    split.first_reads = first.reads;
    split.second_reads = second.reads;
    Ok(split)
}
