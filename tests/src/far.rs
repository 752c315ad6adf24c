//! Logs with a last entry about 2^32 bytes from their start, and other bytes of which there are
//! more than 2^32.

use crate::model::Log;
use crate::random::Random;
use crate::{logs, pages};

/// The least offset that takes more than four bytes.
pub const LIMIT: usize = 1 << 32;

/// A buffer that goes on behind 2^32, of zero bytes, and an entry 2 to put there.
pub struct Far {
    pub buffer: &'static mut [u8],
    last: Vec<u8>,
}

impl Far {
    /// A forged entry, with nothing before it.
    pub fn forged(random: &mut Random) -> Self {
        Far {
            buffer: pages::zeros_to_write(LIMIT + 4_096),
            last: logs::forged(2, 1, random).split_off(1),
        }
    }

    /// The last entry of a log of two values, with the first one in its place.
    pub fn of(log: &Log) -> Self {
        let (first, last) = log.bytes().split_at(log.end(1));
        let buffer = pages::zeros_to_write(LIMIT + 4_096);
        buffer[..first.len()].copy_from_slice(first);
        let last = last.to_vec();
        Far { buffer, last }
    }

    /// Puts the last entry at this offset, and gives back where it ends.
    pub fn put(&mut self, offset: usize) -> usize {
        let end = offset + self.last.len();
        self.buffer[offset..end].copy_from_slice(&self.last);
        end
    }
}

/// These bytes, and 2^32 zero bytes behind them, which stay for as long as the process lasts.
pub fn far_longer(bytes: &[u8]) -> &'static [u8] {
    let longer = pages::zeros_to_write(LIMIT + bytes.len());
    longer[..bytes.len()].copy_from_slice(bytes);
    longer
}
