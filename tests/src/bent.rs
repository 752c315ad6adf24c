//! Bytes of which one is bent.

use crate::logs::MASKS;
use std::fmt::{self, Display, Formatter};

/// The bent byte: its place, and what it is bent with.
#[derive(Clone, Copy)]
pub struct Bent {
    pub at: usize,
    pub mask: u8,
}

impl Display for Bent {
    fn fmt(&self, f: &mut Formatter) -> fmt::Result {
        write!(f, "byte {} bent with {:#04x}", self.at, self.mask)
    }
}

/// Calls with these bytes for each byte and each mask, while this byte alone is bent with it.
pub fn each_bent(bytes: &[u8], mut call: impl FnMut(&[u8], Bent)) {
    let mut bytes = bytes.to_vec();
    for at in 0..bytes.len() {
        for mask in MASKS {
            bytes[at] ^= mask;
            call(&bytes, Bent { at, mask });
            bytes[at] ^= mask;
        }
    }
}
