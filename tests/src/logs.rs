//! Values and logs to try: well-formed logs, and forged ones that open.

use crate::model::entry::{Entry, Node};
use crate::model::item::{body_len, TAP, TICKET, VALUES};
use crate::model::tree::heights;
use crate::model::Log;
use crate::random::Random;

/// The length of the longest entry: a ticket with a node of each height from 1 to 12.
pub const LONGEST_ENTRY: usize = 932;

/// The length of a log of 4,096 tickets.
pub const LONGEST_LOG: usize = 2_097_152;

/// What a byte is bent with: each bit alone, and all of them.
pub const MASKS: [u8; 9] = [0x01, 0x02, 0x04, 0x08, 0x10, 0x20, 0x40, 0x80, 0xff];

/// Counts of values of long logs: powers of two with their neighbours, one between, and the last but
/// one.
pub const LONG: [usize; 17] = [
    127, 128, 129, 255, 256, 257, 511, 512, 513, 1_023, 1_024, 1_025, 2_047, 2_048, 2_049, 3_000,
    4_095,
];

/// The bench sheet's hops: n, i and hops(n, i).
pub const SHEET_HOPS: [(usize, usize, usize); 6] = [
    (22, 18, 4),
    (7, 1, 3),
    (7, 7, 2),
    (7, 5, 3),
    (1, 1, 0),
    (4_096, 1, 12),
];

/// Indexes of a log of n values: powers of two with the numbers behind them, the last ones, and some
/// others.
pub fn indexes(n: usize, random: &mut Random) -> Vec<usize> {
    let powers = (0..12).map(|p| 1 << p).flat_map(|i| [i, i + 1]);
    let others: Vec<_> = (0..20).map(|_| 1 + random.up_to(n - 1)).collect();
    let all = powers.chain([n - 1, n]).chain(others);
    all.filter(|i| (1..=n).contains(i)).collect()
}

/// A value item of this kind with a random body.
pub fn value_of(kind: u8, random: &mut Random) -> Vec<u8> {
    let body = random.bytes(body_len(kind).expect("a kind"));
    [&[kind][..], &body].concat()
}

/// A tap with a random body.
pub fn tap(random: &mut Random) -> Vec<u8> {
    value_of(TAP, random)
}

/// A value item of a random kind with a random body.
pub fn value(random: &mut Random) -> Vec<u8> {
    value_of(VALUES[random.up_to(2)], random)
}

/// Taps whose bodies are the numbers from 1.
pub fn numbered_taps(count: u64) -> Vec<Vec<u8>> {
    let tap = |k: u64| [&[TAP], &k.to_be_bytes()[..]].concat();
    (1..=count).map(tap).collect()
}

/// Values of mixed kinds: value k has the kind 0x10 + k mod 3, and every byte of its body is k.
pub fn numbered_values(count: u8) -> Vec<Vec<u8>> {
    let value = |k: u8| match k % 3 {
        0 => [&[0x10][..], &[k; 8]].concat(),
        1 => [&[0x11][..], &[k; 16]].concat(),
        _ => [&[0x12][..], &[k; 48]].concat(),
    };
    (1..=count).map(value).collect()
}

/// The log of `count` random values of mixed kinds.
pub fn log(count: usize, random: &mut Random) -> Log {
    let values: Vec<_> = (0..count).map(|_| value(random)).collect();
    Log::of(&values)
}

/// The log of `count` random taps.
pub fn taps(count: usize, random: &mut Random) -> Log {
    let values: Vec<_> = (0..count).map(|_| tap(random)).collect();
    Log::of(&values)
}

/// The log of `count` random tickets.
pub fn tickets(count: usize, random: &mut Random) -> Log {
    let values: Vec<_> = (0..count).map(|_| value_of(TICKET, random)).collect();
    Log::of(&values)
}

/// Makes a log longer by random values, up to `count` of them.
pub fn grow(log: &mut Log, count: usize, random: &mut Random) {
    while log.count() < count {
        log.push(&value(random));
    }
}

/// An entry of this index with a random value, random digests and random left offsets below its own.
fn forged_entry(index: usize, offset: usize, random: &mut Random) -> Entry {
    Entry {
        index,
        value: value(random),
        leaf: random.digest(),
        nodes: heights(index)
            .into_iter()
            .map(|height| Node {
                height,
                left_offset: random.up_to(offset.max(1) - 1),
                left: random.digest(),
                own: random.digest(),
            })
            .collect(),
    }
}

/// Random bytes up to the offset, and then a forged entry. They open wherever an entry of this index
/// can be at this offset.
pub fn forged(index: usize, offset: usize, random: &mut Random) -> Vec<u8> {
    let mut bytes = random.bytes(offset);
    bytes.extend(forged_entry(index, offset, random).bytes());
    bytes
}
