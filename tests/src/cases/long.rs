//! Long logs for cases, with one fault or none: on the way that the call takes, beside that way, or at
//! the end of the log.

use super::lent::bend;
use crate::claims::{Claim, Edition};
use crate::consistency::Consistency;
use crate::logs::LONG;
use crate::long::{parted, whole, PLACES};
use crate::model::entry::MOST;
use crate::model::inclusion::hops;
use crate::model::{self, Log};
use crate::random::Random;
use crate::ways::{faults, links, top_digest, Link};

/// How many values a long log has: some hundreds, now and then more, up to one more than a log can
/// have.
fn count(random: &mut Random) -> usize {
    match random.up_to(11) {
        0 => MOST - 1 + random.up_to(2),
        1 | 2 => 301 + random.up_to(MOST - 301),
        3 => 301.max(*random.one_of(&LONG)),
        _ => 301 + random.up_to(400),
    }
}

/// An index of a long log of n values.
fn index(n: usize, random: &mut Random) -> usize {
    match random.up_to(7) {
        0 | 1 => 1,
        2 => n,
        3 => 1 << random.up_to(8),
        _ => 1 + random.up_to(n - 1),
    }
}

/// A log and an index of it. Where there is a fault, it is most often on the way to that index.
pub fn walked(random: &mut Random) -> (Vec<u8>, usize) {
    let n = count(random);
    let i = index(n, random);
    (damaged(whole(), n, &links(n, i), random), i)
}

/// Two logs with a beginning in common. There is a fault in the first, in the second, in both or in
/// none, most often on the way that the search takes.
pub fn pair(random: &mut Random) -> (Vec<u8>, Vec<u8>) {
    let place = *random.one_of(&PLACES);
    let m1 = count(random);
    let m2 = match random.up_to(1) {
        0 => m1,
        _ => count(random),
    };
    let n = m1.min(m2);
    let down = match place <= n {
        true => links(n, place),
        false => Vec::new(),
    };
    let (in_first, in_second) = (random.up_to(1) == 0, random.up_to(1) == 0);
    let mut bytes = |log: &Log, m: usize, faulty: bool| match faulty {
        true => damaged(log, m, &[&links(m, n)[..], &down].concat(), random),
        false => log.beginning(m).to_vec(),
    };
    let first = bytes(whole(), m1, in_first);
    (first, bytes(parted(place), m2, in_second))
}

/// The claim of a value of a log.
pub fn claim(edition: Edition, random: &mut Random) -> Claim {
    let n = count(random).min(MOST);
    let i = index(n, random);
    if edition == Edition::Rfc6962 {
        return Claim::rfc6962(&whole().values()[..n], i);
    }
    let log = whole().beginning(n);
    let mut proof = vec![0; 32 * hops(n, i)];
    model::proof(log, i, &mut proof).expect("a proof");
    Claim {
        edition,
        n,
        i,
        item: whole().value(i).to_vec(),
        proof,
        root: model::root(log).expect("a root").to_vec(),
    }
}

/// The claim that a log goes on from its first values.
pub fn consistency(random: &mut Random) -> Consistency {
    let n = count(random).min(MOST);
    let m = index(n, random);
    Consistency::of(&whole().values()[..n], m)
}

/// The log of the first n values, with one fault or none.
fn damaged(log: &Log, n: usize, way: &[Link], random: &mut Random) -> Vec<u8> {
    let mut bytes = log.beginning(n).to_vec();
    match random.up_to(15) {
        0 => (),
        1..=3 => bytes.extend(stray(log, n, random)),
        4 => {
            let last = bytes.len() - log.end(n - 1);
            let lost = random.up_to(last);
            bytes.truncate(log.end(n) - *random.one_of(&[1, 5, lost]));
        }
        5 => bend(&mut bytes, random),
        6 => bend(&mut bytes[top_digest(log, n)], random),
        7 => {
            let met = way.iter().map(|link| link.to.0).chain([n]);
            let i = *random.one_of(&met.collect::<Vec<_>>());
            bend(&mut bytes[log.end(i - 1)..log.end(i)], random);
        }
        _ if way.is_empty() => (),
        _ => {
            let number = 6 + random.up_to(1) as u32;
            let mut faults = faults(log, *random.one_of(way));
            faults.retain(|fault| fault.number == number);
            random.one_of(&faults).clone().swap(&mut bytes);
        }
    }
    bytes
}

/// One to four bytes, or some more: any, or what entry n + 1 begins with.
fn stray(log: &Log, n: usize, random: &mut Random) -> Vec<u8> {
    let len = match random.up_to(1) {
        0 => 1 + random.up_to(3),
        _ => 1 + random.up_to(99),
    };
    match random.up_to(1) {
        0 => random.bytes(len),
        _ => log.bytes()[log.end(n)..]
            .iter()
            .take(len)
            .copied()
            .collect(),
    }
}
