//! Forged logs: they open, or nearly, and are not well formed. Their entries lie where the forger
//! puts them and store what he likes.

use crate::logs::{self, MASKS};
use crate::model::entry::{last_entry, shaped, Entry, Node};
use crate::model::inclusion::fold;
use crate::model::tree::{heights, left_child, Digest};
use crate::model::walk::{bring_to, Met};
use crate::model::Log;
use crate::random::Random;

/// The entries 1 to n, and the bytes that stand before each.
#[derive(Clone)]
pub struct Forged {
    entries: Vec<Entry>,
    before: Vec<Vec<u8>>,
}

impl Forged {
    /// The entries of a well-formed log, one behind the other.
    pub fn of(log: &Log) -> Self {
        let entry = |i: usize| shaped(log.bytes(), log.end(i - 1), i).expect("a shaped entry");
        Forged {
            entries: (1..=log.count()).map(entry).collect(),
            before: vec![Vec::new(); log.count()],
        }
    }

    pub fn count(&self) -> usize {
        self.entries.len()
    }

    pub fn entry(&mut self, i: usize) -> &mut Entry {
        &mut self.entries[i - 1]
    }

    /// The node (i, h).
    pub fn node(&mut self, i: usize, h: u8) -> &mut Node {
        let mut nodes = self.entries[i - 1].nodes.iter_mut();
        nodes.find(|node| node.height == h).expect("a node")
    }

    /// The end of entry i, 0 for i = 0.
    pub fn end(&self, i: usize) -> usize {
        let lengths = self.entries.iter().map(Entry::length);
        let before = self.before.iter().map(Vec::len);
        lengths.zip(before).take(i).map(|(a, b)| a + b).sum()
    }

    /// Where entry i begins.
    pub fn start(&self, i: usize) -> usize {
        self.end(i) - self.entries[i - 1].length()
    }

    /// Puts these bytes before entry i, which is not the first, and keeps the links.
    pub fn put_before(&mut self, i: usize, junk: Vec<u8>) {
        self.before[i - 1] = junk;
        self.link_places();
    }

    /// Up to `most` random bytes before each entry but the first. The links hold.
    pub fn spread(mut self, most: usize, random: &mut Random) -> Self {
        for junk in self.before.iter_mut().skip(1) {
            let len = random.up_to(most);
            *junk = random.bytes(len);
        }
        self.link_places();
        self
    }

    /// Every left offset is where the left child's entry begins.
    fn link_places(&mut self) {
        let starts: Vec<_> = (1..=self.count()).map(|i| self.start(i)).collect();
        for entry in &mut self.entries {
            for node in &mut entry.nodes {
                node.left_offset = starts[left_child(entry.index, node.height).0 - 1];
            }
        }
    }

    /// Every left digest is the one that the left child's entry stores for it.
    pub fn link_digests(&mut self) {
        for i in 2..=self.count() {
            for h in heights(i) {
                let (l, p) = left_child(i, h);
                self.node(i, h).left = self.entries[l - 1].digest(p);
            }
        }
    }

    /// Stores this digest for the leaf (i, 0), or for the node (i, h) as its own.
    pub fn tell(&mut self, (i, h): (usize, u8), digest: Digest) {
        match h {
            0 => self.entry(i).leaf = digest,
            _ => self.node(i, h).own = digest,
        }
    }

    /// Some links lead elsewhere, or store another digest. There are two entries or more.
    pub fn mislink(&mut self, random: &mut Random) {
        for _ in 0..=random.up_to(2) {
            let i = 2 + random.up_to(self.count() - 2);
            let heights = heights(i);
            let h = heights[random.up_to(heights.len() - 1)];
            let below = self.start(i);
            let other = self.start(1 + random.up_to(i - 2));
            match random.up_to(3) {
                0 => self.node(i, h).left_offset = other,
                1 => self.node(i, h).left_offset = random.up_to(below - 1),
                2 => self.node(i, h).left = self.entries[random.up_to(i - 2)].top(),
                _ => self.node(i, h).left = random.digest(),
            }
        }
    }

    pub fn bytes(&self) -> Vec<u8> {
        let mut bytes = Vec::new();
        for (entry, junk) in self.entries.iter().zip(&self.before) {
            bytes.extend_from_slice(junk);
            bytes.extend(entry.bytes());
        }
        bytes
    }
}

/// A log of which all links hold and no digest is worked out: each is one of so many.
pub fn invented(count: usize, pool: usize, random: &mut Random) -> Forged {
    let pool: Vec<_> = (0..pool).map(|_| random.digest()).collect();
    invented_from(count, &pool, random)
}

/// A log of which all links hold and no digest is worked out: each is one of these.
pub fn invented_from(count: usize, pool: &[Digest], random: &mut Random) -> Forged {
    let digest = |random: &mut Random| pool[random.up_to(pool.len() - 1)];
    let mut forged = Forged::of(&logs::log(count, random));
    for i in 1..=count {
        forged.tell((i, 0), digest(random));
        for h in heights(i) {
            forged.tell((i, h), digest(random));
        }
    }
    forged.link_digests();
    forged
}

/// A log of up to `most` values that is whole, torn, bent or forged. Most of them open.
pub fn any(most: usize, random: &mut Random) -> Vec<u8> {
    let count = random.up_to(most);
    let log = logs::log(count, random);
    if count < 2 {
        return damaged(&log, random);
    }
    match random.up_to(9) {
        0 => invented(count, 1 + random.up_to(2), random).bytes(),
        1 => {
            let (index, offset) = (2 + random.up_to(4_094), 1 + random.up_to(200));
            logs::forged(index, offset, random)
        }
        2 => {
            let mut forged = invented(count, 2, random).spread(9, random);
            forged.mislink(random);
            forged.bytes()
        }
        _ => damaged(&log, random),
    }
}

/// The log whole, torn or bent, with junk between its entries, with entries lost, or with links
/// that do not hold.
pub fn damaged(log: &Log, random: &mut Random) -> Vec<u8> {
    if log.count() < 2 {
        return bent(log.bytes().to_vec(), random.up_to(1), random);
    }
    match random.up_to(6) {
        0 => log.bytes().to_vec(),
        1 => log.bytes()[..random.up_to(log.bytes().len())].to_vec(),
        2 => bent(log.bytes().to_vec(), 1 + random.up_to(2), random),
        3 => Forged::of(log).spread(20, random).bytes(),
        4 => bent(Forged::of(log).spread(20, random).bytes(), 1, random),
        5 => lost(log, random),
        _ => {
            let mut forged = Forged::of(log).spread(9, random);
            forged.mislink(random);
            forged.bytes()
        }
    }
}

/// An index of this log, if it opens, and now and then 0 or one above.
pub fn index(log: &[u8], random: &mut Random) -> usize {
    let n = last_entry(log).map_or(3, |last| last.index);
    match random.up_to(15) {
        0 => 0,
        1 => n + 1,
        _ => 1 + random.up_to(n - 1),
    }
}

/// The bytes, with so many of them bent.
fn bent(mut bytes: Vec<u8>, times: usize, random: &mut Random) -> Vec<u8> {
    if let Some(last) = bytes.len().checked_sub(1) {
        for _ in 0..times {
            bytes[random.up_to(last)] ^= MASKS[random.up_to(MASKS.len() - 1)];
        }
    }
    bytes
}

/// The log with random bytes in place of some entries before the last one.
fn lost(log: &Log, random: &mut Random) -> Vec<u8> {
    let last = log.count() - 1;
    let (from, to) = (random.up_to(last), random.up_to(last));
    let mut bytes = log.bytes().to_vec();
    random.fill(&mut bytes[log.end(from.min(to))..log.end(from.max(to))]);
    bytes
}

/// The root that the value of entry i gives with the siblings that the log stores, if the log opens
/// and the steps to entry i hold.
pub fn folded_root(log: &[u8], i: usize) -> Option<Digest> {
    let last = Met::last(log)?;
    let n = last.entry.index;
    if i == 0 || i > n {
        return None;
    }
    let way = bring_to(log, last, i).ok()?;
    Some(fold(n, i, &way.reached.entry.value, &way.siblings))
}
