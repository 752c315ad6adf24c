//! The RFC 6962 edition in plain Rust. Roots are made from left to right: two whole subtrees of one
//! height are put together as soon as they are there. The checks go from the leaf up, as RFC 9162
//! writes them in sections 2.1.3.2 and 2.1.4.2.

use super::{audit, entry_len, leaf_digest, node_digest, sha256, value_len, MOST};

type Digest = [u8; 32];

/// More than any tree here has heights.
const HEIGHTS: usize = 16;

/// The most digests that a consistency proof has. A path has one less.
const LONGEST: usize = 13;

fn node(left: &Digest, right: &Digest) -> Digest {
    node_digest(0x01, left, right)
}

/// The value items of a log; 6 if it is not well formed.
fn open(log: &[u8]) -> Result<Vec<&[u8]>, u32> {
    let (n, bytes) = audit(log);
    if bytes != log.len() {
        return Err(6);
    }
    let mut start = 0;
    let value = |i| {
        let behind_index = &log[start + 5..];
        let item = &behind_index[..value_len(behind_index[0])];
        start += entry_len(i, item.len());
        item
    };
    Ok((0..n).map(value).collect())
}

/// The value items of a log for a number from 1 to how many they are, else 2.
fn open_for(log: &[u8], number: usize) -> Result<Vec<&[u8]>, u32> {
    let values = open(log)?;
    match 1 <= number && number <= values.len() {
        true => Ok(values),
        false => Err(2),
    }
}

/// The root of these values, at least one.
fn top(values: &[&[u8]]) -> Digest {
    let mut whole = [[0; 32]; HEIGHTS];
    for (i, value) in values.iter().enumerate() {
        let height = i.trailing_ones() as usize;
        let lower = &whole[..height];
        whole[height] = lower
            .iter()
            .fold(leaf_digest(value), |right, left| node(left, &right));
    }
    // A whole subtree is left for each set bit of the count, the lowest one rightmost.
    let mut left = (0..HEIGHTS).filter(|p| values.len() >> p & 1 == 1);
    let last = left.next().expect("at least one value");
    left.fold(whole[last], |right, p| node(&whole[p], &right))
}

/// The first values, whose number is the largest power of two below how many they are, and the others.
fn split<'a, 'b>(values: &'a [&'b [u8]]) -> (&'a [&'b [u8]], &'a [&'b [u8]]) {
    values.split_at(values.len().next_power_of_two() / 2)
}

pub fn root(log: &[u8]) -> Result<Digest, u32> {
    let values = open(log)?;
    match values.is_empty() {
        true => Ok(sha256(&[])),
        false => Ok(top(&values)),
    }
}

/// The digests of a proof, which are met from the last one on.
struct Made {
    digests: [Digest; LONGEST],
    start: usize,
}

impl Made {
    fn none() -> Self {
        Made {
            digests: [[0; 32]; LONGEST],
            start: LONGEST,
        }
    }

    fn put(&mut self, digest: Digest) {
        self.start -= 1;
        self.digests[self.start] = digest;
    }

    /// Writes them, if there is room (else 8), and answers how many bytes they are.
    fn write(&self, output: &mut [u8]) -> Result<usize, u32> {
        let digests = &self.digests[self.start..];
        let output = output.get_mut(..32 * digests.len()).ok_or(8_u32)?;
        for (bytes, digest) in output.chunks_exact_mut(32).zip(digests) {
            bytes.copy_from_slice(digest);
        }
        Ok(output.len())
    }
}

pub fn path(log: &[u8], index: usize, output: &mut [u8]) -> Result<usize, u32> {
    let values = open_for(log, index)?;
    let (mut values, mut before) = (&values[..], index - 1);
    let mut made = Made::none();
    while values.len() > 1 {
        let (left, right) = split(values);
        if before < left.len() {
            made.put(top(right));
            values = left;
        } else {
            made.put(top(left));
            before -= left.len();
            values = right;
        }
    }
    made.write(output)
}

pub fn consistency(log: &[u8], old_count: usize, output: &mut [u8]) -> Result<usize, u32> {
    let values = open_for(log, old_count)?;
    let (mut values, mut old, mut leftmost) = (&values[..], old_count, true);
    let mut made = Made::none();
    while old < values.len() {
        let (left, right) = split(values);
        if old <= left.len() {
            made.put(top(right));
            values = left;
        } else {
            made.put(top(left));
            old -= left.len();
            (values, leftmost) = (right, false);
        }
    }
    if !leftmost {
        made.put(top(values));
    }
    made.write(output)
}

/// The digests that the bytes are, 32 bytes each.
fn digests(bytes: &[u8]) -> impl Iterator<Item = &Digest> {
    let bytes = bytes.chunks_exact(32);
    bytes.map(|bytes| bytes.try_into().expect("32 bytes"))
}

pub fn check_path(count: usize, index: usize, item: &[u8], path: &[u8], root: &[u8]) -> bool {
    let is_value = !item.is_empty() && item.len() == value_len(item[0]);
    let in_range = 1 <= index && index <= count && count <= MOST;
    if !(is_value && in_range && path.len() % 32 == 0 && root.len() == 32) {
        return false;
    }
    let mut place = Place {
        number: index - 1,
        last: count - 1,
    };
    let mut digest = leaf_digest(item);
    for beside in digests(path) {
        digest = match place.go_up() {
            Some(Side::Left) => node(beside, &digest),
            Some(Side::Right) => node(&digest, beside),
            None => return false,
        };
    }
    place.last == 0 && digest == root
}

pub fn check_consistency(
    old_count: usize,
    new_count: usize,
    proof: &[u8],
    old_root: &[u8],
    new_root: &[u8],
) -> bool {
    let in_range = 1 <= old_count && old_count <= new_count && new_count <= MOST;
    if !(in_range && proof.len() % 32 == 0 && old_root.len() == 32 && new_root.len() == 32) {
        return false;
    }
    if old_count == new_count {
        return proof.is_empty() && old_root == new_root;
    }
    // The last node of the old tree that is whole in the new one.
    let height = (old_count - 1).trailing_ones();
    let mut place = Place {
        number: (old_count - 1) >> height,
        last: (new_count - 1) >> height,
    };
    let mut digests = digests(proof);
    let first = match old_count.is_power_of_two() {
        true => old_root.try_into().ok(),
        false => digests.next().copied(),
    };
    let (mut old, mut new): (Digest, Digest) = match first {
        Some(first) => (first, first),
        None => return false,
    };
    for beside in digests {
        match place.go_up() {
            Some(Side::Left) => {
                old = node(beside, &old);
                new = node(beside, &new);
            }
            Some(Side::Right) => new = node(&new, beside),
            None => return false,
        }
    }
    place.last == 0 && old == old_root && new == new_root
}

enum Side {
    Left,
    Right,
}

/// The number of a node among those of its height, from 0, and that of the last one.
struct Place {
    number: usize,
    last: usize,
}

impl Place {
    /// Goes to the node above, and says on which side the other node below it is; none at the root.
    /// The last node of a height with none on its left has none beside it there, and stands for
    /// itself one height up.
    fn go_up(&mut self) -> Option<Side> {
        if self.last == 0 {
            return None;
        }
        let mut heights = 1;
        let mut side = Side::Right;
        if self.number % 2 == 1 || self.number == self.last {
            heights += self.number.trailing_zeros();
            side = Side::Left;
        }
        self.number >>= heights;
        self.last >>= heights;
        Some(side)
    }
}
