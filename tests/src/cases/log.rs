//! The bytes that a case lends as a log.

use super::lent::bend;
use crate::forged::{self, Forged};
use crate::links::{self, RUNNING_OUT};
use crate::logs;
use crate::model::entry::{last_entry, MOST};
use crate::model::item::{four_bytes, LENGTH};
use crate::model::tree::left_child;
use crate::model::Log;
use crate::random::Random;
use crate::ways::only_met;
use crate::{pairs, refused};

/// The most values of a log that is made anew: few, now and then some dozens, rarely some hundreds,
/// and once in a while as many as a log can have.
pub fn most_values(random: &mut Random) -> usize {
    match random.up_to(999) {
        0 => MOST,
        1..=10 => 600,
        11..=199 => 70,
        _ => 12,
    }
}

/// A log whole, torn, bent, forged or spliced, or no log at all. Most of them open.
pub fn any(random: &mut Random) -> Vec<u8> {
    let most = most_values(random);
    match random.up_to(27) {
        0 => Vec::new(),
        1 => junk(random),
        2 | 3 => misshapen(random),
        4 | 5 => linked(random),
        6 => logs::forged(2 + random.up_to(MOST), 1 + random.up_to(200), random),
        7 => full(random),
        8 => spliced(most, random),
        9..=12 => relinked(most, random),
        13 | 14 => bent_frame(most, random),
        15..=18 => logs::log(random.up_to(most), random).bytes().to_vec(),
        19 => followed(most, random),
        _ => forged::any(most, random),
    }
}

fn misshapen(random: &mut Random) -> Vec<u8> {
    let list = refused::misshapen(random);
    random.one_of(&list).1.clone()
}

fn junk(random: &mut Random) -> Vec<u8> {
    let len = random.up_to(300);
    random.bytes(len)
}

/// Junk and a forged last entry, by which the log has as many values as it can have, or one less.
pub fn full(random: &mut Random) -> Vec<u8> {
    logs::forged(MOST - random.up_to(1), 1 + random.up_to(200), random)
}

/// A log and something behind it: junk, or a length item that leads to where the last entry begins.
fn followed(most: usize, random: &mut Random) -> Vec<u8> {
    let log = logs::log(random.up_to(most), random);
    let behind = match (random.up_to(1), last_entry(log.bytes())) {
        (0, Some(last)) => [&[LENGTH][..], &four_bytes(last.length() + 5)].concat(),
        _ => junk(random),
    };
    [log.bytes(), &behind].concat()
}

/// A log of two to eight values whose links are broken in known ways, or lead to odd places.
fn linked(random: &mut Random) -> Vec<u8> {
    let log = logs::log(8, random);
    match random.up_to(6) {
        0 => links::overlapping(random),
        1 => links::running_out(random)[..RUNNING_OUT].to_vec(),
        2 => links::second_of_two(random).0,
        3 => links::entry_1_elsewhere(random),
        4 => only_met(&log, 8, 1 + random.up_to(7), random),
        _ => mislinked(&log, random),
    }
}

/// A log of eight values, with faults in some of the three links to entry 1.
pub fn mislinked(log: &Log, random: &mut Random) -> Vec<u8> {
    random.one_of(&links::mislinked(log)).forged.bytes()
}

/// A log of one to so many values of which one entry stores another digest for its leaf, a node or a
/// left child, or a left offset that is not below its own, or just below. It is an entry near the
/// top of the tree more often than another.
fn relinked(most: usize, random: &mut Random) -> Vec<u8> {
    let log = logs::log(1 + random.up_to(most - 1), random);
    let addresses = pairs::addresses(log.count());
    let some = random.up_to(addresses.len() - 1);
    let fewer = random.up_to(some);
    let (i, h) = *random.one_of(&addresses[..=fewer]);
    let mut forged = Forged::of(&log);
    match random.up_to(4) {
        0 | 1 if h > 0 => forged.node(i, h).left = random.digest(),
        2 if h > 0 => forged.tell(left_child(i, h), random.digest()),
        3 if h > 0 => forged.node(i, h).left_offset = log.end(i - 1) - random.up_to(1),
        _ => forged.tell((i, h), random.digest()),
    }
    forged.bytes()
}

/// A log of one to so many values with a bent byte in the frame of one entry: in its index item, in
/// its length item, or the kind of its value. It is the last entry more often than another.
fn bent_frame(most: usize, random: &mut Random) -> Vec<u8> {
    let log = logs::log(1 + random.up_to(most - 1), random);
    let n = log.count();
    let any_one = 1 + random.up_to(n - 1);
    let i = *random.one_of(&[n, any_one]);
    let mut bytes = log.bytes().to_vec();
    let (start, end) = (log.end(i - 1), log.end(i));
    match random.up_to(1) {
        0 => bend(&mut bytes[start..start + 6], random),
        _ => bend(&mut bytes[end - 5..end], random),
    }
    bytes
}

/// The beginning of one log and the end of another, most often where entries end.
fn spliced(most: usize, random: &mut Random) -> Vec<u8> {
    let (first, second) = pairs::parted(most, random);
    let m = random.up_to(first.count().min(second.count()));
    let from = match random.up_to(3) {
        0 => random.up_to(second.bytes().len()),
        1 => second.end(random.up_to(second.count())),
        _ => second.end(m),
    };
    [first.beginning(m), &second.bytes()[from..]].concat()
}
