//! The two logs that a case lends for a search or a repair piece.

use super::lent::end_of_one;
use super::log::{self, mislinked, most_values};
use super::long;
use crate::model::Log;
use crate::random::Random;
use crate::{logs, pairs};

type Pair = (Vec<u8>, Vec<u8>);

/// Two logs whole, torn, bent, forged or spliced, or no logs at all. Most have something in common, and
/// now and then both are long.
pub fn any(random: &mut Random) -> Pair {
    let most = most_values(random);
    let (first, second) = match random.up_to(10) {
        0 => long::pair(random),
        1 => (log::any(random), log::any(random)),
        2 => beside_its_beginning(random),
        3 => {
            let (first, second) = pairs::parted(most, random);
            (first.bytes().to_vec(), second.bytes().to_vec())
        }
        4 => retold(most, random),
        5 | 6 => beside_mislinked(random),
        _ => pairs::any(most, random),
    };
    match random.up_to(1) {
        0 => (first, second),
        _ => (second, first),
    }
}

/// A log beside itself, or beside what stands before the end of one of its entries.
fn beside_its_beginning(random: &mut Random) -> Pair {
    let log = log::any(random);
    let end = end_of_one(&log, random).unwrap_or(log.len());
    let beginning = log[..end].to_vec();
    (log, beginning)
}

/// A log of one to so many values beside itself with other digests for a node or leaf and for the
/// nodes above it.
fn retold(most: usize, random: &mut Random) -> Pair {
    let log = logs::log(1 + random.up_to(most - 1), random);
    let address = *random.one_of(&pairs::addresses(log.count()));
    let retold = pairs::retold(&log, address, random);
    (log.bytes().to_vec(), retold.bytes())
}

/// A log of eight values with faults in its links, and one that parts from it: one with such faults
/// too, or one of up to eight values.
fn beside_mislinked(random: &mut Random) -> Pair {
    let values = pairs::values(8, random);
    let other = pairs::parted_at(&values, 1 + random.up_to(8), random);
    let (log, other) = (Log::of(&values), Log::of(&other));
    let second = match random.up_to(2) {
        0 => mislinked(&other, random),
        1 => other.bytes().to_vec(),
        _ => other.beginning(random.up_to(8)).to_vec(),
    };
    (mislinked(&log, random), second)
}
