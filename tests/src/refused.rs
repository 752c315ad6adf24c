//! What is refused: bytes that do not open, steps to entry 1, bytes that are no value item, and numbers
//! above n.

use crate::links;
use crate::logs::{self, forged, taps};
use crate::model::entry::MOST;
use crate::model::item::{body_len, four_bytes, VALUES};
use crate::model::Log;
use crate::random::Random;

/// Bytes with a name that says what they are.
pub type Named = (String, Vec<u8>);

/// Numbers above every count of entries. The lower 32 bits of some are an index that a log has.
pub const FAR_ABOVE: [usize; 7] = [
    4_097,
    1 << 32,
    (1 << 32) + 1,
    (1 << 32) + 2,
    (1 << 63) + 1,
    !0 << 32,
    usize::MAX,
];

/// Bytes, what opening them is refused with, and what the steps from there to entry 1 are.
pub type Refused = (Named, Option<u32>, Option<u32>);

/// Bytes that do not open, and this log of eight values with each fault of the links to entry 1 with
/// each, and with none.
pub fn at_opening_or_steps(log: &Log, random: &mut Random) -> Vec<Refused> {
    let not_opening = not_opening(random).into_iter();
    let at_opening = not_opening.map(|bytes| (bytes, Some(6), None));
    let mislinked = links::mislinked(log).into_iter();
    let at_steps = mislinked.map(|mislinked| {
        let name = format!("{:?}", mislinked.faults);
        ((name, mislinked.forged.bytes()), None, mislinked.refusal(1))
    });
    at_opening.chain(at_steps).collect()
}

/// Bytes that do not open.
pub fn not_opening(random: &mut Random) -> Vec<Named> {
    [torn(random), misshapen(random)].concat()
}

/// Bytes that do not open though they are not torn.
pub fn misshapen(random: &mut Random) -> Vec<Named> {
    let lists = [
        too_short(random),
        wrong_lengths(random),
        misplaced(random),
        wrong_left_offsets(random),
        wrong_bytes(random),
        no_entry(random),
    ];
    lists.concat()
}

fn named(name: &str, bytes: &[u8]) -> Named {
    (name.to_string(), bytes.to_vec())
}

/// The bytes with others put in their place from `at` on.
fn changed(bytes: &[u8], at: usize, new: &[u8]) -> Vec<u8> {
    let mut bytes = bytes.to_vec();
    bytes[at..at + new.len()].copy_from_slice(new);
    bytes
}

fn too_short(random: &mut Random) -> Vec<Named> {
    let log = taps(1, random);
    let end = |len: usize| &log.bytes()[52 - len..];
    let ends = (1..=5).map(|len| named(&format!("the last {len} bytes of a log"), end(len)));
    let zeros = (1..=5).map(|len| named(&format!("{len} zero bytes"), &vec![0; len]));
    let alone = [0, 5].map(|n| named(&format!("a length of {n}"), &[0x30, 0, 0, 0, n]));
    ends.chain(zeros).chain(alone).collect()
}

/// Every way to tear the last entry of a log of one value, of three, and of a full one.
fn torn(random: &mut Random) -> Vec<Named> {
    let (one, three) = (logs::log(1, random), logs::log(3, random));
    let full = forged(MOST, 70, random);
    let last_entries = [
        ("1 value", one.bytes(), 0),
        ("3 values", three.bytes(), three.end(2)),
        ("4,096 values", &full, 70),
    ];
    let mut list = Vec::new();
    for (name, log, start) in last_entries {
        for len in start + 1..log.len() {
            list.push(named(&format!("{name} torn at byte {len}"), &log[..len]));
        }
    }
    list
}

fn wrong_lengths(random: &mut Random) -> Vec<Named> {
    let log = logs::log(4, random);
    let end = log.bytes().len();
    let length = end - log.end(3);
    let of_two = end - log.end(2);
    let mut wrong = vec![0, 1, 4, 5, 6, 42, 43, 52, length - 70, length - 1];
    wrong.extend([length + 1, length + 70, of_two, end, end + 1]);
    wrong.extend([length + (1 << 16), 1 << 31, u32::MAX as usize]);
    let mut list: Vec<Named> = wrong
        .into_iter()
        .map(|wrong| {
            let bytes = changed(log.bytes(), end - 4, &four_bytes(wrong));
            named(&format!("a length of {wrong}, not {length}"), &bytes)
        })
        .collect();
    // The entry that begins so far from the end is shaped, and it is shorter.
    let tap = taps(1, random);
    let longer = [tap.bytes(), &[0x30, 0, 0, 0, 57]].concat();
    list.push(named("a shaped entry of another length", &longer));
    list
}

/// Entries where their index cannot be.
fn misplaced(random: &mut Random) -> Vec<Named> {
    let log = taps(2, random);
    let (first, second) = log.bytes().split_at(52);
    vec![
        named("entry 2 at offset 0", second),
        named("entry 1 behind a byte", &[&[0x01], first].concat()),
        named("entry 1 behind entry 1", &[first, first].concat()),
        named("index 0", &changed(first, 1, &four_bytes(0))),
        named("entry 4,096 at offset 0", &forged(4_096, 0, random)),
        named("index 4,097", &forged(4_097, 100, random)),
        named("index 65,537", &forged(65_537, 100, random)),
        named("index 2^31", &forged(1 << 31, 100, random)),
    ]
}

/// Left offsets in entry 2, which begins at 52, that are not below 52.
fn wrong_left_offsets(random: &mut Random) -> Vec<Named> {
    let log = taps(2, random);
    let wrong = [
        52,
        53,
        101,
        174,
        1 << 8,
        1 << 16,
        1 << 31,
        u32::MAX as usize,
    ];
    let with = |offset| changed(log.bytes(), 101, &four_bytes(offset));
    let name = |offset| format!("a left offset of {offset}");
    let list = wrong.map(|offset| named(&name(offset), &with(offset)));
    list.to_vec()
}

/// Wrong kinds, heights and indexes, one byte at a time, in entry 8 of a log of taps. It has nodes
/// of heights 1, 2 and 3.
fn wrong_bytes(random: &mut Random) -> Vec<Named> {
    let log = taps(8, random);
    let places: [(&str, usize, &[u8]); 12] = [
        ("index item's kind", 0, &[0x00, 0x02, 0x10, 0x30]),
        ("index's highest byte", 1, &[0x01, 0x80]),
        ("index's lowest byte", 4, &[0, 1, 4, 7, 9, 16]),
        ("value's kind", 5, &[0x00, 0x01, 0x0f, 0x11, 0x12, 0x13]),
        ("leaf item's kind", 14, &[0x00, 0x10, 0x21]),
        ("first node item's kind", 47, &[0x00, 0x20, 0x30]),
        ("first height", 48, &[0, 2, 3, 4, 0xff]),
        ("second node item's kind", 117, &[0x20, 0x22]),
        ("second height", 118, &[0, 1, 3]),
        ("third node item's kind", 187, &[0x11, 0x30]),
        ("third height", 188, &[2, 4, 12]),
        ("length item's kind", 257, &[0x00, 0x20, 0x31]),
    ];
    let mut list = Vec::new();
    for (what, at, wrong) in places {
        for &byte in wrong {
            let bytes = changed(log.bytes(), log.end(7) + at, &[byte]);
            list.push(named(&format!("the {what} is {byte:#04x}"), &bytes));
        }
    }
    list
}

fn no_entry(random: &mut Random) -> Vec<Named> {
    let log = logs::log(3, random);
    vec![
        named("60 zero bytes", &[0x00; 60]),
        named("60 bytes 0xff", &[0xff; 60]),
        named("1,000 random bytes", &random.bytes(1_000)),
        named("a value item", &logs::tap(random)),
        named("a log and a byte", &[log.bytes(), &[0x00]].concat()),
    ]
}

/// Bytes that are no value item.
pub fn no_values() -> Vec<Vec<u8>> {
    let item = |kind: u8, len: usize| [vec![kind], vec![0x77; len - 1]].concat();
    let mut list = vec![Vec::new()];
    for kind in [0x00, 0x01, 0x02, 0x0f, 0x13, 0x20, 0x21, 0x30, 0xff] {
        for len in [1, 5, 8, 9, 10, 16, 17, 18, 33, 48, 49, 50, 70] {
            list.push(item(kind, len));
        }
    }
    let value_len = |kind| 1 + body_len(kind).expect("a kind");
    for kind in VALUES {
        let len = value_len(kind);
        for wrong in [1, len - 1, len + 1, len + (1 << 8), len + (1 << 16)] {
            list.push(item(kind, wrong));
        }
        for other in VALUES.into_iter().filter(|&other| other != kind) {
            list.push(item(kind, value_len(other)));
        }
    }
    list
}
