//! The library's SHA-256 against the model, and both against digests from outside this project.

use ringlog_tests::memory::Memory;
use ringlog_tests::random::Random;
use ringlog_tests::ringlog::Digest;
use ringlog_tests::{model, pages, ringlog};

const LONGEST: usize = 65_535;

const REFUSED: Digest = Digest {
    number: 1,
    digest: [0; 32],
};

fn accepted(digest: [u8; 32]) -> Digest {
    Digest { number: 0, digest }
}

fn assert_agrees_with_the_model(message: &[u8]) {
    assert_eq!(
        ringlog::sha256(message),
        accepted(model::sha256(message)),
        "a message of {} bytes: {}",
        message.len(),
        excerpt(message)
    );
}

fn assert_both_give(message: &[u8], digest: [u8; 32]) {
    let shown = excerpt(message);
    assert_eq!(model::sha256(message), digest, "the model on {shown}");
    assert_eq!(
        ringlog::sha256(message),
        accepted(digest),
        "the library on {shown}"
    );
}

/// The first bytes of a message in hex, short enough for a line.
fn excerpt(message: &[u8]) -> String {
    let shown = &message[..message.len().min(64)];
    let dots = if shown.len() < message.len() {
        "..."
    } else {
        ""
    };
    let hex: String = shown.iter().map(|byte| format!("{byte:02x}")).collect();
    hex + dots
}

fn from_hex(hex: &str) -> Vec<u8> {
    assert!(hex.len() % 2 == 0, "odd number of hex digits: {hex}");
    (0..hex.len())
        .step_by(2)
        .map(|at| u8::from_str_radix(&hex[at..at + 2], 16).expect("hex digits"))
        .collect()
}

fn digest_from_hex(hex: &str) -> [u8; 32] {
    from_hex(hex).try_into().expect("64 hex digits")
}

#[test]
fn the_empty_message_has_its_known_digest() {
    let digest = "e3b0c44298fc1c149afbf4c8996fb92427ae41e4649b934ca495991b7852b855";
    assert_both_give(b"", digest_from_hex(digest));
}

#[test]
fn abc_has_the_digest_that_fips_gives() {
    let digest = "ba7816bf8f01cfea414140de5dae2223b00361a396177a9cb410ff61f20015ad";
    assert_both_give(b"abc", digest_from_hex(digest));
}

#[test]
fn the_448_bit_message_has_the_digest_that_fips_gives() {
    let message = b"abcdbcdecdefdefgefghfghighijhijkijkljklmklmnlmnomnopnopq";
    let digest = "248d6a61d20638b8e5c026930c3e6039a33ce45964ff2167f6ecedd419db06c1";
    assert_eq!(message.len() * 8, 448);
    assert_both_give(message, digest_from_hex(digest));
}

struct Vector {
    message: Vec<u8>,
    digest: [u8; 32],
}

/// The vectors of a NIST response file: lines `Len = bits`, `Msg = hex`, `MD = hex` for each. An
/// empty message stands there as `Len = 0` with `Msg = 00`.
fn vectors(file: &str) -> Vec<Vector> {
    let mut vectors = Vec::new();
    let mut bits: Option<usize> = None;
    let mut message: Option<Vec<u8>> = None;
    for (name, value) in file.lines().filter_map(|line| line.split_once(" = ")) {
        let value = value.trim();
        match name {
            "Len" => bits = Some(value.parse().expect("a number of bits")),
            "Msg" => message = Some(from_hex(value)),
            "MD" => vectors.push(Vector {
                message: cut(message.take().expect("Msg"), bits.take().expect("Len")),
                digest: digest_from_hex(value),
            }),
            _ => assert_eq!((name, value), ("[L", "32]"), "a line of unknown kind"),
        }
    }
    vectors
}

fn cut(mut message: Vec<u8>, bits: usize) -> Vec<u8> {
    assert!(bits % 8 == 0, "{bits} bits are no whole bytes");
    if bits == 0 {
        assert_eq!(message, [0]);
        message.clear();
    }
    assert_eq!(message.len() * 8, bits, "Msg is not as long as Len says");
    message
}

#[test]
fn all_65_short_messages_of_nist_have_their_digests() {
    let vectors = vectors(include_str!("../vectors/SHA256ShortMsg.rsp"));
    assert_eq!(vectors.len(), 65);
    for (len, vector) in vectors.iter().enumerate() {
        assert_eq!(vector.message.len(), len, "the file has each length once");
        assert_both_give(&vector.message, vector.digest);
    }
}

#[test]
fn every_length_from_0_to_300_agrees_with_the_model() {
    let mut random = Random::new(1);
    for len in 0..=300 {
        assert_agrees_with_the_model(&vec![0x00; len]);
        assert_agrees_with_the_model(&vec![0xff; len]);
        for _ in 0..8 {
            assert_agrees_with_the_model(&random.bytes(len));
        }
    }
}

#[test]
fn twenty_thousand_random_messages_of_up_to_600_bytes_agree_with_the_model() {
    let mut random = Random::new(2);
    for _ in 0..20_000 {
        let len = random.up_to(600);
        assert_agrees_with_the_model(&random.bytes(len));
    }
}

#[test]
fn random_lengths_up_to_65535_agree_with_the_model() {
    let mut random = Random::new(3);
    for _ in 0..200 {
        let len = random.up_to(LONGEST);
        assert_agrees_with_the_model(&random.bytes(len));
    }
}

#[test]
fn the_longest_messages_agree_with_the_model() {
    let mut random = Random::new(4);
    for len in LONGEST - 130..=LONGEST {
        assert_agrees_with_the_model(&random.bytes(len));
    }
    assert_agrees_with_the_model(&[0x00; LONGEST]);
    assert_agrees_with_the_model(&[0xff; LONGEST]);
}

#[test]
fn a_message_of_65536_bytes_is_refused() {
    let message = Random::new(5).bytes(65_536);
    assert_eq!(ringlog::sha256(&message), REFUSED);
    assert_eq!(
        ringlog::sha256(&message[1..]),
        accepted(model::sha256(&message[1..]))
    );
}

#[test]
fn longer_messages_are_refused_whatever_the_low_16_bits_of_their_length() {
    let mut random = Random::new(6);
    let buffer = random.bytes(1 << 20);
    for len in [65_537, 65_539, 65_600, 100_000, 131_071, 131_072, 131_075] {
        assert_eq!(ringlog::sha256(&buffer[..len]), REFUSED, "{len} bytes");
    }
    for _ in 0..1_000 {
        let len = LONGEST + 1 + random.up_to(buffer.len() - LONGEST - 1);
        assert_eq!(ringlog::sha256(&buffer[..len]), REFUSED, "{len} bytes");
    }
    assert_eq!(ringlog::sha256(&buffer), REFUSED);
}

#[test]
fn a_message_whose_length_takes_more_than_32_bits_is_refused() {
    let buffer = pages::zeros((1 << 32) + 130);
    for beyond in [0, 3, 64, 130] {
        let message = &buffer[..(1 << 32) + beyond];
        assert_eq!(ringlog::sha256(message), REFUSED, "2^32 + {beyond} bytes");
    }
}

#[test]
fn each_flipped_bit_of_a_130_byte_message_gives_a_digest_of_its_own() {
    let mut message = Random::new(7).bytes(130);
    let mut digests = vec![ringlog::sha256(&message).digest];
    for bit in 0..130 * 8 {
        message[bit / 8] ^= 1 << (bit % 8);
        assert_agrees_with_the_model(&message);
        digests.push(ringlog::sha256(&message).digest);
        message[bit / 8] ^= 1 << (bit % 8);
    }
    digests.sort_unstable();
    digests.dedup();
    assert_eq!(digests.len(), 1 + 130 * 8);
}

/// A type whose address is a multiple of 64.
#[repr(align(64))]
struct Aligned([u8; 512]);

#[test]
fn a_message_at_each_offset_from_an_aligned_address_agrees_with_the_model() {
    let mut random = Random::new(8);
    let mut buffer = Aligned([0; 512]);
    for offset in 0..=16 {
        for len in [0, 1, 9, 50, 55, 56, 63, 64, 65, 119, 120, 128, 130, 300] {
            random.fill(&mut buffer.0);
            let message = &buffer.0[offset..offset + len];
            assert_eq!(message.as_ptr() as usize % 64, offset);
            assert_agrees_with_the_model(message);
        }
    }
}

#[test]
fn the_bytes_around_a_message_do_not_matter_and_no_byte_is_changed() {
    let mut random = Random::new(9);
    for len in 0..=200 {
        let message = random.bytes(len);
        let expected = accepted(model::sha256(&message));
        for poison in [0x00, 0x01, 0x80, 0xff] {
            let memory = Memory::among(poison, &message);
            let before = memory.clone();
            let result = ringlog::sha256(memory.lent());
            assert_eq!(result, expected, "{len} bytes among {poison:#04x}");
            assert_eq!(memory, before, "{len} bytes among {poison:#04x}");
        }
    }
}

#[test]
fn a_call_leaves_nothing_behind_for_the_next() {
    let mut random = Random::new(10);
    let too_long = random.bytes(LONGEST + 1);
    for len in 0..=130 {
        let message = random.bytes(len);
        assert_agrees_with_the_model(&message);
        assert_eq!(ringlog::sha256(&too_long), REFUSED);
        assert_agrees_with_the_model(&message);
    }
}
