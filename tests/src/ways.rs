//! The way from the last entry of a log to another one: the links that its left steps take, the entries
//! that are met, and one fault in a link.

use crate::model::item::four_bytes;
use crate::model::tree::{heights, left_child, right_child, top};
use crate::model::Log;
use crate::random::Random;
use std::ops::Range;

/// What a left step takes: the node that it is taken from, and the node or leaf that it leads to.
#[derive(Clone, Copy, Debug)]
pub struct Link {
    pub from: (usize, u8),
    pub to: (usize, u8),
}

/// The links from the top node of entry n to the leaf i, from the top down, for 1 ≤ i ≤ n.
pub fn links(n: usize, i: usize) -> Vec<Link> {
    let mut links = Vec::new();
    let mut from = (n, top(n));
    while from.1 > 0 {
        let to = left_child(from.0, from.1);
        if i <= to.0 {
            links.push(Link { from, to });
            from = to;
        } else {
            from = right_child(from.0, from.1);
        }
    }
    links
}

/// Random bytes, and in them, at their places in the log of the first n values, the entries that are
/// met on the way to entry i.
pub fn only_met(log: &Log, n: usize, i: usize, random: &mut Random) -> Vec<u8> {
    let mut bytes = random.bytes(log.end(n));
    for met in links(n, i).iter().map(|link| link.to.0).chain([n]) {
        let entry = log.end(met - 1)..log.end(met);
        bytes[entry.clone()].copy_from_slice(&log.bytes()[entry]);
    }
    bytes
}

/// Other bytes at one place of a log, by which a left step is refused with this number.
#[derive(Clone, Debug)]
pub struct Fault {
    pub what: &'static str,
    pub number: u32,
    pub at: usize,
    other: Vec<u8>,
}

impl Fault {
    /// Puts the fault into the log, or takes it out again.
    pub fn swap(&mut self, log: &mut [u8]) {
        let end = self.at + self.other.len();
        self.other.swap_with_slice(&mut log[self.at..end]);
    }
}

/// Each fault of a link of a well-formed log: its digest is not the one where it leads, or no entry
/// there is shaped with the index wanted.
pub fn faults(log: &Log, link: Link) -> Vec<Fault> {
    let Link { from, to } = link;
    let (start, end) = (log.end(to.0 - 1), log.end(to.0));
    let behind_value = start + 5 + log.value(to.0).len();
    let from_node = node(log, from);
    let (left_digest, digest) = (from_node + 6, stored(log, to));
    let bent = |what, number, at: usize, mask| Fault {
        what,
        number,
        at,
        other: vec![log.bytes()[at] ^ mask],
    };
    let offset = |what, node: usize, offset| Fault {
        what,
        number: 6,
        at: node + 2,
        other: four_bytes(offset).to_vec(),
    };
    let mut faults = vec![
        bent("first byte of the left digest", 7, left_digest, 0x80),
        bent("last byte of the left digest", 7, left_digest + 31, 0x01),
        bent("first byte of the digest there", 7, digest, 0x01),
        bent("last byte of the digest there", 7, digest + 31, 0x80),
        offset("left offset a byte too high", from_node, start + 1),
        bent("index item's kind there", 6, start, 0x02),
        bent("index there", 6, start + 4, 0x01),
        bent("value's kind there", 6, start + 5, 0x20),
        bent("leaf item's kind there", 6, behind_value, 0x01),
        bent("length item's kind there", 6, end - 5, 0x01),
        bent("length there", 6, end - 1, 0x01),
    ];
    // No shaped entry has a left offset that leads to itself.
    if to.0 + 1 < from.0 {
        faults.push(offset("left offset of the next entry", from_node, end));
    }
    if let Some(&lowest) = heights(to.0).first() {
        let lowest = node(log, (to.0, lowest));
        faults.push(offset("left offset there of itself", lowest, start));
        faults.push(bent("node item's kind there", 6, lowest, 0x01));
        faults.push(bent("height there", 6, lowest + 1, 0x10));
    }
    faults
}

/// Where the item of the node (i, h) begins in a well-formed log.
fn node(log: &Log, (i, h): (usize, u8)) -> usize {
    let below = heights(i).into_iter().filter(|&lower| lower < h).count();
    log.end(i - 1) + 5 + log.value(i).len() + 33 + 70 * below
}

/// Where a well-formed log stores the digest of the node (i, h), or of the leaf for h = 0.
fn stored(log: &Log, (i, h): (usize, u8)) -> usize {
    match h {
        0 => log.end(i - 1) + 5 + log.value(i).len() + 1,
        _ => node(log, (i, h)) + 38,
    }
}

/// Where a well-formed log stores the top digest of entry i.
pub fn top_digest(log: &Log, i: usize) -> Range<usize> {
    let start = stored(log, (i, top(i)));
    start..start + 32
}
