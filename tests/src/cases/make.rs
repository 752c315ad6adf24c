//! The generator: the case of each number of a seed.

use super::lent::{buffer, item, length_near, near, root};
use super::log::most_values;
use super::{claim, consistency, log, long, pair, Call, Case};
use crate::claims::Edition;
use crate::model::inclusion::hops;
use crate::model::rfc6962_checks::proof_len;
use crate::random::Random;
use crate::splits::count;
use crate::{forged, logs};

impl Case {
    /// The case of this number of a seed. It rests on the two alone. Now and then one of its slices has
    /// no bytes.
    pub fn of(seed: u64, number: u64) -> Case {
        let random = &mut Random::of_case(seed, number);
        let call = *random.one_of(&Call::ALL);
        let (mut lent, numbers) = match call {
            Call::Sha256 => (vec![message(random)], vec![]),
            Call::Append => append(random),
            Call::Audit | Call::Root => (vec![log_and_index(random).0], vec![]),
            Call::Value => value(random),
            Call::Proof => proof(random),
            Call::CheckProof => claimed(Edition::First, random),
            Call::Cut => cut(random),
            Call::Search | Call::Repair => {
                let (first, second) = pair::any(random);
                (vec![first, second], vec![])
            }
            Call::Rfc6962Root => (vec![audited(random).0], vec![]),
            Call::Rfc6962Path => audited_and_written(hops, random),
            Call::Rfc6962CheckPath => claimed(Edition::Rfc6962, random),
            Call::Rfc6962Consistency => audited_and_written(|n, m| proof_len(m, n), random),
            Call::Rfc6962CheckConsistency => consistency(random),
        };
        if random.up_to(19) == 0 {
            let slice = random.up_to(lent.len() - 1);
            lent[slice].clear();
        }
        Case {
            call,
            lent,
            numbers,
        }
    }
}

/// The slices and the numbers that a call is lent.
type Lent = (Vec<Vec<u8>>, Vec<usize>);

/// A log, and an index that is wanted of it. It is a long log now and then.
fn log_and_index(random: &mut Random) -> (Vec<u8>, usize) {
    if random.up_to(9) == 0 {
        return long::walked(random);
    }
    let log = log::any(random);
    let i = forged::index(&log, random);
    (log, i)
}

/// A message: of up to some blocks, often with an end near that of a block, or about as long as the
/// longest that is hashed.
fn message(random: &mut Random) -> Vec<u8> {
    let len = match random.up_to(15) {
        0 => random.up_to(70_000),
        1 => 65_534 + random.up_to(3),
        2 => (1 << 16) + random.up_to(1 << 16),
        3..=9 => 64 * random.up_to(5) + 54 + random.up_to(12),
        _ => random.up_to(600),
    };
    random.bytes(len)
}

fn append(random: &mut Random) -> Lent {
    let log = match random.up_to(15) {
        0 | 1 => log::full(random),
        _ => log_and_index(random).0,
    };
    let item = item(random);
    let need = 43 + item.len() + 70 * count(&log).count_ones() as usize;
    let room = length_near(need, random);
    let (buffer, used) = buffer(log, room, random);
    (vec![buffer, item], vec![used])
}

fn value(random: &mut Random) -> Lent {
    let (log, i) = log_and_index(random);
    let root = root(&log, i, random);
    (vec![log, root], vec![near(i, random)])
}

fn proof(random: &mut Random) -> Lent {
    let (log, i) = log_and_index(random);
    written(log, i, hops, random)
}

/// What is lent to a call that writes so many digests for a log of n values and a number up to n.
fn written(
    log: Vec<u8>,
    i: usize,
    digests: fn(usize, usize) -> usize,
    random: &mut Random,
) -> Lent {
    let i = near(i, random);
    let n = count(&log);
    let digests = if (1..=n).contains(&i) {
        digests(n, i)
    } else {
        1
    };
    let len = length_near(32 * digests, random);
    let output = random.bytes(len);
    (vec![log, output], vec![i])
}

fn claimed(edition: Edition, random: &mut Random) -> Lent {
    let claim = claim::any(edition, random);
    let lent = vec![claim.item, claim.proof, claim.root];
    (lent, vec![claim.n, claim.i])
}

fn cut(random: &mut Random) -> Lent {
    let (log, d) = log_and_index(random);
    let d = near(d, random);
    let room = random.up_to(1) * random.up_to(100);
    let (buffer, used) = buffer(log, room, random);
    (vec![buffer], vec![used, d])
}

/// A log for a call that audits it, and an index or an older count that is wanted of it. Two of
/// three are well formed.
fn audited(random: &mut Random) -> (Vec<u8>, usize) {
    if random.up_to(2) == 0 {
        return log_and_index(random);
    }
    let most = most_values(random);
    let log = logs::log(random.up_to(most), random);
    let i = forged::index(log.bytes(), random);
    (log.bytes().to_vec(), i)
}

fn audited_and_written(digests: fn(usize, usize) -> usize, random: &mut Random) -> Lent {
    let (log, i) = audited(random);
    written(log, i, digests, random)
}

fn consistency(random: &mut Random) -> Lent {
    let claim = consistency::any(random);
    let lent = vec![claim.proof, claim.old_root, claim.new_root];
    (lent, vec![claim.m, claim.n])
}
