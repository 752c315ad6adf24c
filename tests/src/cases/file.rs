//! The file of cases that tests/c/driver.c reads.
//!
//! It is one case behind the other, in numbers of eight bytes, big endian, and in bytes:
//!
//! - the number of the case in its seed;
//! - the call, from 0, in the order of include/ringlog.h;
//! - how many slices are lent, and for each its length and its bytes; then, of what is other
//!   afterwards, where it begins, how long it is, and its bytes;
//! - how many other numbers are lent, and these;
//! - how many fields the answer has, and these, a digest byte by byte.

use super::{Case, Done};
use std::io::{self, Write};
use std::ops::Range;

/// Writes the cases of these numbers of a seed, with what the model makes of them.
pub fn write(seed: u64, numbers: Range<u64>, file: &mut impl Write) -> io::Result<()> {
    for number in numbers {
        let case = Case::of(seed, number);
        let done = Done::by_model(&case);
        put(file, [number, case.call as u64, case.lent.len() as u64])?;
        for (bytes, afterwards) in case.lent.iter().zip(done.lent()) {
            put(file, [bytes.len() as u64])?;
            file.write_all(bytes)?;
            let other = other(bytes, afterwards);
            put(file, [other.start as u64, other.len() as u64])?;
            file.write_all(&afterwards[other])?;
        }
        put(file, [case.numbers.len() as u64])?;
        put(file, case.numbers.iter().map(|&number| number as u64))?;
        let fields = done.answer.fields();
        put(file, [fields.len() as u64])?;
        put(file, fields)?;
    }
    Ok(())
}

/// From the first place at which the bytes are other ones afterwards to the last one.
fn other(bytes: &[u8], afterwards: &[u8]) -> Range<usize> {
    let differ = |&at: &usize| bytes[at] != afterwards[at];
    let first = (0..bytes.len()).find(differ);
    let last = (0..bytes.len()).rfind(differ);
    first
        .zip(last)
        .map_or(0..0, |(first, last)| first..last + 1)
}

fn put(file: &mut impl Write, numbers: impl IntoIterator<Item = u64>) -> io::Result<()> {
    let mut numbers = numbers.into_iter();
    numbers.try_for_each(|number| file.write_all(&number.to_be_bytes()))
}
