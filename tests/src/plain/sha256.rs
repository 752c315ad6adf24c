//! SHA-256 in plain Rust, written to be fast. The schedule keeps 16 words, each round from 16 on makes
//! the word that it takes, and the rounds stand one behind the other with their constants.

use crate::model::sha256::{INITIAL, K};

/// The bytes of a block.
const BLOCK: usize = 64;

/// Where the length of the message in bits stands in the last block.
const LENGTH: usize = BLOCK - 8;

type Words = [u32; 8];

/// The SHA-256 digest of a message of any length.
pub fn sha256(message: &[u8]) -> [u8; 32] {
    let mut state = INITIAL;
    let whole_blocks = message.chunks_exact(BLOCK);
    let rest = whole_blocks.remainder();
    for block in whole_blocks {
        compress(&mut state, block.try_into().expect("a block"));
    }
    let mut last = [0; BLOCK];
    last[..rest.len()].copy_from_slice(rest);
    last[rest.len()] = 0x80;
    if rest.len() >= LENGTH {
        compress(&mut state, &last);
        last = [0; BLOCK];
    }
    last[LENGTH..].copy_from_slice(&(8 * message.len() as u64).to_be_bytes());
    compress(&mut state, &last);
    let mut digest = [0; 32];
    for (bytes, word) in digest.chunks_exact_mut(4).zip(state) {
        bytes.copy_from_slice(&word.to_be_bytes());
    }
    digest
}

/// Rounds from 16 on, by their numbers.
macro_rules! rounds {
    ($words:ident, $w:ident, $($t:literal)*) => {
        $( $words = round($words, K[$t], next_word(&mut $w, $t)); )*
    };
}

fn compress(state: &mut Words, block: &[u8; BLOCK]) {
    let mut w = [0; 16];
    for (word, bytes) in w.iter_mut().zip(block.chunks_exact(4)) {
        *word = u32::from_be_bytes(bytes.try_into().expect("4 bytes"));
    }
    let mut words = *state;
    for t in 0..16 {
        words = round(words, K[t], w[t]);
    }
    rounds!(words, w, 16 17 18 19 20 21 22 23 24 25 26 27 28 29 30 31);
    rounds!(words, w, 32 33 34 35 36 37 38 39 40 41 42 43 44 45 46 47);
    rounds!(words, w, 48 49 50 51 52 53 54 55 56 57 58 59 60 61 62 63);
    for (word, addend) in state.iter_mut().zip(words) {
        *word = word.wrapping_add(addend);
    }
}

#[inline(always)]
fn round([a, b, c, d, e, f, g, h]: Words, k: u32, w: u32) -> Words {
    let sigma_1 = e.rotate_right(6) ^ e.rotate_right(11) ^ e.rotate_right(25);
    let ch = (e & f) ^ (!e & g);
    let t1 = h
        .wrapping_add(sigma_1)
        .wrapping_add(ch)
        .wrapping_add(k)
        .wrapping_add(w);
    let sigma_0 = a.rotate_right(2) ^ a.rotate_right(13) ^ a.rotate_right(22);
    let maj = (a & b) ^ (a & c) ^ (b & c);
    let t2 = sigma_0.wrapping_add(maj);
    [t1.wrapping_add(t2), a, b, c, d.wrapping_add(t1), e, f, g]
}

/// Word t of the schedule, in the place of word t - 16.
#[inline(always)]
fn next_word(w: &mut [u32; 16], t: usize) -> u32 {
    let (x, y) = (w[(t - 15) % 16], w[(t - 2) % 16]);
    let sigma_0 = x.rotate_right(7) ^ x.rotate_right(18) ^ (x >> 3);
    let sigma_1 = y.rotate_right(17) ^ y.rotate_right(19) ^ (y >> 10);
    w[t % 16] = w[t % 16]
        .wrapping_add(sigma_0)
        .wrapping_add(w[(t - 7) % 16])
        .wrapping_add(sigma_1);
    w[t % 16]
}
