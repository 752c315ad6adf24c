//! Logs of two to eight values with links that are broken in known ways, or lead to odd places.

use crate::forged::Forged;
use crate::logs::{value, value_of};
use crate::model::entry::{shaped, Entry, Node};
use crate::model::item::{TAP, TICKET};
use crate::model::tree::{heights, Digest};
use crate::model::Log;
use crate::random::Random;

/// What is wrong with a link: its left offset leads to no shaped entry, its left digest is not the
/// one that the entry there stores, or both.
#[derive(Clone, Copy, Debug)]
pub struct Fault {
    place: bool,
    digest: bool,
}

impl Fault {
    /// The refusal of a left step by this link: 6 before 7.
    pub fn refusal(self) -> Option<u32> {
        match (self.place, self.digest) {
            (true, _) => Some(6),
            (_, true) => Some(7),
            _ => None,
        }
    }
}

/// A log of eight values whose nodes (8, 3), (4, 2) and (2, 1) have these faults in their links.
/// The three left steps to entry 1 take these links in this order.
pub struct Mislinked {
    pub faults: [Fault; 3],
    pub forged: Forged,
}

impl Mislinked {
    /// The first refusal of the steps to entry i, from the top down. Entries 2, 3 and 4 are reached
    /// by fewer of the three links, and the others by none.
    pub fn refusal(&self, i: usize) -> Option<u32> {
        let links = match i {
            1 => 3,
            2 => 2,
            3 | 4 => 1,
            _ => 0,
        };
        self.faults[..links]
            .iter()
            .find_map(|fault| fault.refusal())
    }

    /// Whether a left digest that is a sibling on the path to leaf i is changed: where the path
    /// goes right at one of the three nodes.
    pub fn changes_sibling(&self, i: usize) -> bool {
        match i {
            1 => false,
            2 => self.faults[2].digest,
            3 | 4 => self.faults[1].digest,
            _ => self.faults[0].digest,
        }
    }
}

/// Each fault of the three links with each, and none.
pub fn mislinked(log: &Log) -> Vec<Mislinked> {
    assert_eq!(log.count(), 8);
    let fault = |bits: usize| Fault {
        place: bits & 1 == 1,
        digest: bits & 2 == 2,
    };
    let with = |bits: usize| {
        let faults = [fault(bits), fault(bits >> 2), fault(bits >> 4)];
        let mut forged = Forged::of(log);
        for ((i, h), fault) in [(8, 3), (4, 2), (2, 1)].into_iter().zip(faults) {
            let node = forged.node(i, h);
            node.left_offset += usize::from(fault.place);
            node.left[31] ^= u8::from(fault.digest);
        }
        Mislinked { faults, forged }
    };
    (0..64).map(with).collect()
}

/// Three values, of which entry 3 begins inside entry 2. Entry 2 is at 2 and ends at 124, in the
/// value of entry 3, which is at 100. The link from entry 3 to entry 2 holds.
pub fn overlapping(random: &mut Random) -> Vec<u8> {
    let mut ticket = value_of(TICKET, random);
    ticket[14..19].copy_from_slice(&[0x30, 0, 0, 0, 122]);
    let mut own = random.digest();
    own[13..18].copy_from_slice(&[0x01, 0, 0, 0, 3]);
    own[18..].copy_from_slice(&ticket[..14]);
    let tap = value_of(TAP, random);
    let second = entry(2, tap, random.digest(), 0, (random.digest(), own));
    let third = entry(3, ticket, random.digest(), 2, (own, random.digest()));
    let mut bytes = [random.bytes(2), second.bytes()].concat();
    bytes.truncate(100);
    bytes.extend(third.bytes());
    assert!(shaped(&bytes, 2, 2).is_some());
    bytes
}

/// The length of the log that `running_out` begins with.
pub const RUNNING_OUT: usize = 133;

/// A log of 133 bytes with entry 3 at its end, and 30 bytes behind it. Entry 2, to which the link
/// leads, is at 1 and would be shaped if the bytes behind the log belonged to it.
pub fn running_out(random: &mut Random) -> Vec<u8> {
    let mut leaf = random.digest();
    leaf[29] = 0x20;
    let mut left = random.digest();
    left[2..7].copy_from_slice(&[0x30, 0, 0, 0, 122]);
    left[24..30].copy_from_slice(&[0x21, 1, 0, 0, 0, 0]);
    let mut own = random.digest();
    own[30..].copy_from_slice(&left[..2]);
    let third = entry(3, value_of(TAP, random), leaf, 1, (left, own));
    let head = [&random.bytes(1)[..], &[0x01, 0, 0, 0, 2, TICKET]].concat();
    let inside = [head, random.bytes(4), third.bytes()].concat();
    assert_eq!(inside.len(), RUNNING_OUT);
    let bytes = [&inside[..], &left[7..], &[0x30, 0, 0, 0, 162]].concat();
    assert!(shaped(&bytes, 1, 2).is_some());
    bytes
}

/// Entry 2 or 3, which has one node, with these left and own digests.
fn entry(
    index: usize,
    value: Vec<u8>,
    leaf: Digest,
    left_offset: usize,
    (left, own): (Digest, Digest),
) -> Entry {
    let node = Node {
        height: heights(index)[0],
        left_offset,
        left,
        own,
    };
    Entry {
        index,
        value,
        leaf,
        nodes: vec![node],
    }
}

/// Three values with two entries of index 2, and where the second of these begins. The link of
/// entry 3 leads to that one, and holds.
pub fn second_of_two(random: &mut Random) -> (Vec<u8>, usize) {
    let first = value(random);
    let values = |random: &mut Random| [first.clone(), value(random), value(random)];
    let (one, other) = (Log::of(&values(random)), Log::of(&values(random)));
    let mut forged = Forged::of(&other);
    forged.put_before(2, one.bytes()[one.end(1)..one.end(2)].to_vec());
    (forged.bytes(), forged.start(2))
}

/// Two values with two copies of entry 1. The link of entry 2 leads to the second copy, which does
/// not begin at 0.
pub fn entry_1_elsewhere(random: &mut Random) -> Vec<u8> {
    let log = Log::of(&[value(random), value(random)]);
    let mut forged = Forged::of(&log);
    forged.put_before(2, log.bytes()[..log.end(1)].to_vec());
    forged.node(2, 1).left_offset = log.end(1);
    forged.bytes()
}

/// The entries of a log of eight values that opening and the steps to entry i meet, for each i.
pub const MET_OF_EIGHT: [&[usize]; 8] = [
    &[8, 4, 2, 1],
    &[8, 4, 2],
    &[8, 4, 3],
    &[8, 4],
    &[8, 6, 5],
    &[8, 6],
    &[8, 7],
    &[8],
];
