//! SHA-256 as FIPS 180-4 writes it. The section numbers are those of that standard.

#![forbid(unsafe_code)]

/// Section 4.2.2: the first 32 bits of the fractional parts of the cube roots of the first 64
/// primes.
pub const K: [u32; 64] = [
    0x428a2f98, 0x71374491, 0xb5c0fbcf, 0xe9b5dba5, 0x3956c25b, 0x59f111f1, 0x923f82a4, 0xab1c5ed5,
    0xd807aa98, 0x12835b01, 0x243185be, 0x550c7dc3, 0x72be5d74, 0x80deb1fe, 0x9bdc06a7, 0xc19bf174,
    0xe49b69c1, 0xefbe4786, 0x0fc19dc6, 0x240ca1cc, 0x2de92c6f, 0x4a7484aa, 0x5cb0a9dc, 0x76f988da,
    0x983e5152, 0xa831c66d, 0xb00327c8, 0xbf597fc7, 0xc6e00bf3, 0xd5a79147, 0x06ca6351, 0x14292967,
    0x27b70a85, 0x2e1b2138, 0x4d2c6dfc, 0x53380d13, 0x650a7354, 0x766a0abb, 0x81c2c92e, 0x92722c85,
    0xa2bfe8a1, 0xa81a664b, 0xc24b8b70, 0xc76c51a3, 0xd192e819, 0xd6990624, 0xf40e3585, 0x106aa070,
    0x19a4c116, 0x1e376c08, 0x2748774c, 0x34b0bcb5, 0x391c0cb3, 0x4ed8aa4a, 0x5b9cca4f, 0x682e6ff3,
    0x748f82ee, 0x78a5636f, 0x84c87814, 0x8cc70208, 0x90befffa, 0xa4506ceb, 0xbef9a3f7, 0xc67178f2,
];

/// Section 5.3.3: the first 32 bits of the fractional parts of the square roots of the first 8
/// primes.
pub const INITIAL: [u32; 8] = [
    0x6a09e667, 0xbb67ae85, 0x3c6ef372, 0xa54ff53a, 0x510e527f, 0x9b05688c, 0x1f83d9ab, 0x5be0cd19,
];

/// The bytes of a block: 512 bits.
const BLOCK: usize = 64;

/// The bytes that hold the message length at the end of the padding: 64 bits.
const LENGTH: usize = 8;

/// The SHA-256 digest of a message of any length (section 6.2).
pub fn sha256(message: &[u8]) -> [u8; 32] {
    let mut state = INITIAL;
    let whole_blocks = message.chunks_exact(BLOCK);
    let rest = whole_blocks.remainder();
    for block in whole_blocks {
        compress(&mut state, block);
    }
    let (padded, padded_len) = pad(rest, message.len());
    for block in padded[..padded_len].chunks_exact(BLOCK) {
        compress(&mut state, block);
    }
    digest(&state)
}

/// Section 5.1.1: the end of the message that fills no block, then a 1 bit, then as few 0 bits as
/// fill the last block together with the 64-bit length in bits. One or two blocks.
fn pad(rest: &[u8], message_len: usize) -> ([u8; 2 * BLOCK], usize) {
    let padded_len = if rest.len() + 1 + LENGTH <= BLOCK {
        BLOCK
    } else {
        2 * BLOCK
    };
    let mut padded = [0; 2 * BLOCK];
    padded[..rest.len()].copy_from_slice(rest);
    padded[rest.len()] = 0x80;
    let length_in_bits = 8 * message_len as u64;
    padded[padded_len - LENGTH..padded_len].copy_from_slice(&length_in_bits.to_be_bytes());
    (padded, padded_len)
}

/// Section 6.2.2, steps 1 to 4: one block goes into the hash value.
fn compress(state: &mut [u32; 8], block: &[u8]) {
    let w = schedule(block);
    let [mut a, mut b, mut c, mut d, mut e, mut f, mut g, mut h] = *state;
    for t in 0..64 {
        let t1 = h
            .wrapping_add(big_sigma_1(e))
            .wrapping_add(ch(e, f, g))
            .wrapping_add(K[t])
            .wrapping_add(w[t]);
        let t2 = big_sigma_0(a).wrapping_add(maj(a, b, c));
        h = g;
        g = f;
        f = e;
        e = d.wrapping_add(t1);
        d = c;
        c = b;
        b = a;
        a = t1.wrapping_add(t2);
    }
    for (word, addend) in state.iter_mut().zip([a, b, c, d, e, f, g, h]) {
        *word = word.wrapping_add(addend);
    }
}

/// Section 6.2.2, step 1: the message schedule of a block, whose words are big-endian (sections
/// 3.1 and 5.2.1).
fn schedule(block: &[u8]) -> [u32; 64] {
    let mut w = [0; 64];
    for (word, bytes) in w.iter_mut().zip(block.chunks_exact(4)) {
        *word = u32::from_be_bytes([bytes[0], bytes[1], bytes[2], bytes[3]]);
    }
    for t in 16..64 {
        w[t] = small_sigma_1(w[t - 2])
            .wrapping_add(w[t - 7])
            .wrapping_add(small_sigma_0(w[t - 15]))
            .wrapping_add(w[t - 16]);
    }
    w
}

/// Section 6.2.2, at its end: the words of the hash value, big-endian, one after another.
fn digest(state: &[u32; 8]) -> [u8; 32] {
    let mut digest = [0; 32];
    for (bytes, word) in digest.chunks_exact_mut(4).zip(state) {
        bytes.copy_from_slice(&word.to_be_bytes());
    }
    digest
}

/// Section 4.1.2, (4.2).
fn ch(x: u32, y: u32, z: u32) -> u32 {
    (x & y) ^ (!x & z)
}

/// Section 4.1.2, (4.3).
fn maj(x: u32, y: u32, z: u32) -> u32 {
    (x & y) ^ (x & z) ^ (y & z)
}

/// Section 4.1.2, (4.4).
fn big_sigma_0(x: u32) -> u32 {
    x.rotate_right(2) ^ x.rotate_right(13) ^ x.rotate_right(22)
}

/// Section 4.1.2, (4.5).
fn big_sigma_1(x: u32) -> u32 {
    x.rotate_right(6) ^ x.rotate_right(11) ^ x.rotate_right(25)
}

/// Section 4.1.2, (4.6).
fn small_sigma_0(x: u32) -> u32 {
    x.rotate_right(7) ^ x.rotate_right(18) ^ (x >> 3)
}

/// Section 4.1.2, (4.7).
fn small_sigma_1(x: u32) -> u32 {
    x.rotate_right(17) ^ x.rotate_right(19) ^ (x >> 10)
}
