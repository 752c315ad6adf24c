//! Pairs of logs to search: they have a beginning in common, or digests from one pool, or one is
//! the other with some digests told anew.

use crate::forged::{self, damaged, Forged};
use crate::logs::value;
use crate::model::tree::{left_child, right_child, top};
use crate::model::Log;
use crate::random::Random;

/// So many random values of mixed kinds.
pub fn values(count: usize, random: &mut Random) -> Vec<Vec<u8>> {
    (0..count).map(|_| value(random)).collect()
}

/// A value that is not this one: one bit of the body is changed, or it is another value altogether.
pub fn other_value(old: &[u8], random: &mut Random) -> Vec<u8> {
    let mut new = old.to_vec();
    if random.up_to(1) == 0 {
        new[1 + random.up_to(old.len() - 2)] ^= 1 << random.up_to(7);
    }
    while new == old {
        new = value(random);
    }
    new
}

/// These values, with another one at each of these places.
pub fn with_others(values: &[Vec<u8>], places: &[usize], random: &mut Random) -> Vec<Vec<u8>> {
    let mut values = values.to_vec();
    for &i in places {
        values[i - 1] = other_value(&values[i - 1], random);
    }
    values
}

/// These values, with another one at i, if there is one, and at some places behind it.
pub fn parted_at(values: &[Vec<u8>], i: usize, random: &mut Random) -> Vec<Vec<u8>> {
    let mut places: Vec<_> = (i..=values.len()).collect();
    places.retain(|&place| place == i || random.up_to(1) == 0);
    with_others(values, &places, random)
}

/// Two logs with a beginning in common: how many values each has, how many are in common, and where
/// these end.
pub struct Parted<'a> {
    pub first: &'a [u8],
    pub second: &'a [u8],
    pub counts: (usize, usize),
    pub common: usize,
    pub common_end: usize,
}

impl Parted<'_> {
    pub fn case(&self) -> String {
        let (m1, m2) = self.counts;
        format!("{m1} and {m2} values, {} in common", self.common)
    }
}

/// Two such logs for each number of values in common up to `most`, and for each two numbers of values
/// from there to `most`.
pub fn each_parted(most: usize, random: &mut Random, mut act: impl FnMut(&Parted)) {
    let list = values(most, random);
    let log = Log::of(&list);
    for common in 0..=most {
        let other = Log::of(&parted_at(&list, common + 1, random));
        for m1 in common..=most {
            for m2 in common..=most {
                act(&Parted {
                    first: log.beginning(m1),
                    second: other.beginning(m2),
                    counts: (m1, m2),
                    common,
                    common_end: log.end(common),
                });
            }
        }
    }
}

/// Two logs of up to `most` values with a beginning in common.
pub fn parted(most: usize, random: &mut Random) -> (Log, Log) {
    let longer = values(random.up_to(most), random);
    let i = 1 + random.up_to(longer.len());
    let other = parted_at(&longer, i, random);
    let shorter = match random.up_to(1) {
        0 => longer.len(),
        _ => random.up_to(longer.len()),
    };
    let logs = (Log::of(&longer), Log::of(&other[..shorter]));
    match random.up_to(1) {
        0 => logs,
        _ => (logs.1, logs.0),
    }
}

/// Two logs of up to `most` values, and at least one, with digests from one pool of so many: they
/// agree and differ as it comes. All links hold.
pub fn invented(most: usize, pool: usize, random: &mut Random) -> (Forged, Forged) {
    let pool: Vec<_> = (0..pool).map(|_| random.digest()).collect();
    let m1 = 1 + random.up_to(most - 1);
    let m2 = match random.up_to(1) {
        0 => m1,
        _ => 1 + random.up_to(most - 1),
    };
    let first = forged::invented_from(m1, &pool, random);
    (first, forged::invented_from(m2, &pool, random))
}

/// Two logs with digests from a small pool, junk between entries, and here and there a link that
/// does not hold.
pub fn mislinked(most: usize, random: &mut Random) -> (Vec<u8>, Vec<u8>) {
    let pool = 2 + random.up_to(1);
    let (first, second) = invented(most, pool, random);
    let mut bytes = |forged: Forged| {
        let mut forged = forged.spread(random.up_to(1) * 9, random);
        if forged.count() > 1 && random.up_to(2) == 0 {
            forged.mislink(random);
        }
        forged.bytes()
    };
    (bytes(first), bytes(second))
}

/// Two logs of up to `most` values that are whole, torn, bent or forged. Most have something in
/// common.
pub fn any(most: usize, random: &mut Random) -> (Vec<u8>, Vec<u8>) {
    match random.up_to(3) {
        0 => (forged::any(most, random), forged::any(most, random)),
        1 => mislinked(most, random),
        _ => {
            let (first, second) = parted(most, random);
            let mut bytes = |log: &Log| match random.up_to(2) {
                0 => log.bytes().to_vec(),
                _ => damaged(log, random),
            };
            (bytes(&first), bytes(&second))
        }
    }
}

/// The addresses of all nodes and leaves of the tree of n values, n at least 1.
pub fn addresses(n: usize) -> Vec<(usize, u8)> {
    addresses_below((n, top(n)))
}

fn addresses_below((k, h): (usize, u8)) -> Vec<(usize, u8)> {
    let mut all = vec![(k, h)];
    if h > 0 {
        all.extend(addresses_below(left_child(k, h)));
        all.extend(addresses_below(right_child(k, h)));
    }
    all
}

/// The log with other digests for this node or leaf of its tree and for the nodes above it. What it
/// stores below and beside them is as it was, and the links hold.
pub fn retold(log: &Log, address: (usize, u8), random: &mut Random) -> Forged {
    let mut forged = Forged::of(log);
    let (mut k, mut h) = (log.count(), top(log.count()));
    while (k, h) != address {
        forged.tell((k, h), random.digest());
        let left = left_child(k, h);
        (k, h) = if address.0 <= left.0 {
            left
        } else {
            right_child(k, h)
        };
    }
    forged.tell(address, random.digest());
    forged.link_digests();
    forged
}
