//! What a proof check, or the path check of the RFC 6962 edition, is lent: claims that are true,
//! and claims with one thing wrong.

use super::lent::{bend, count, item, near, spoil_length, spoil_root};
use super::long;
use crate::claims::{Claim, Edition};
use crate::logs;
use crate::model::entry::MOST;
use crate::random::Random;

/// A claim that holds in about half of the cases.
pub fn any(edition: Edition, random: &mut Random) -> Claim {
    let mut claim = match random.up_to(15) {
        0 => long::claim(edition, random),
        1..=4 => of_log(edition, random),
        _ => folded(edition, random),
    };
    if random.up_to(1) == 0 {
        spoil(&mut claim, random);
    }
    claim
}

/// The claim of a value of a log.
fn of_log(edition: Edition, random: &mut Random) -> Claim {
    let n = 1 + random.up_to(39);
    let i = 1 + random.up_to(n - 1);
    let mut log = logs::log(n, random);
    match edition {
        Edition::First => Claim::of(&mut log, i),
        Edition::Rfc6962 => Claim::rfc6962(log.values(), i),
    }
}

/// A claim of any siblings, with the root that the item folds to. Now and then there are more values
/// than a log can have, or the item is no value.
fn folded(edition: Edition, random: &mut Random) -> Claim {
    let n = count(random);
    let i = match random.up_to(3) {
        0 => *random.one_of(&[1, n]),
        _ => 1 + random.up_to(n - 1),
    };
    let item = item(random);
    Claim::folded_in(edition, (n, i), item, random)
}

/// Changes one thing, in most cases so that the claim is false.
fn spoil(claim: &mut Claim, random: &mut Random) {
    let other = random.up_to(claim.n + 1);
    match random.up_to(11) {
        0 => claim.n = near(1 + random.up_to(MOST), random),
        1 => claim.n = *random.one_of(&[claim.n - 1, claim.n + 1, claim.n + (1 << 32)]),
        2 => claim.i = *random.one_of(&[0, claim.n + 1, claim.i + (1 << 32), usize::MAX]),
        3 => claim.i = near(other, random),
        4 => claim.item = item(random),
        5 => bend(&mut claim.item, random),
        6 | 7 => bend(&mut claim.proof, random),
        8 => spoil_length(&mut claim.proof, random),
        9 => go_on_above(claim, random),
        _ => spoil_root(&mut claim.root, random),
    }
}

/// Adds one sibling to the proof, and makes the root the one above it.
fn go_on_above(claim: &mut Claim, random: &mut Random) {
    let sibling = random.digest();
    let roots = claim.roots_above(&sibling);
    claim.proof.extend(sibling);
    claim.root = random.one_of(&roots).to_vec();
}
