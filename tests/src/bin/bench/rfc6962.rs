//! The calls of the RFC 6962 edition that are measured, on a long log and beside plain Rust.

use crate::calls::{taps, MANY};
use crate::measure::{black_box, Row};
use ringlog_tests::random::Random;
use ringlog_tests::ringlog::Count;
use ringlog_tests::{logs, plain, ringlog};

/// The longest consistency proof is the one from three values.
const OLD: usize = 3;

/// A call is in a batch by itself, in each so many rounds.
const SELDOM: (u32, usize) = (1, 15);

/// The root, the path of value 1, the consistency proof from three values, and the checks of these two.
pub fn rows() -> Vec<Row> {
    let log = logs::taps(MANY, &mut Random::new(5));
    let root = ringlog::rfc6962_root(log.bytes()).digest;
    let old_root = ringlog::rfc6962_root(log.beginning(OLD)).digest;
    let item: [u8; 9] = log.value(1).try_into().expect("a tap");
    let log = log.bytes().to_vec();
    let (make_path, path) = path(log.clone());
    let (make_proof, proof) = consistency(log.clone());
    vec![
        root_row(log),
        make_path,
        check_path(item, path, root),
        make_proof,
        check_consistency(proof, old_root, root),
    ]
}

fn root_row(log: Vec<u8>) -> Row {
    let again = log.clone();
    Row::beside_plain(
        format!("root of {}", taps(MANY)),
        SELDOM,
        move || ringlog::rfc6962_root(black_box(&log)),
        move || plain::rfc6962::root(black_box(&again)).into(),
    )
}

/// The row, and what is written.
fn path(log: Vec<u8>) -> (Row, [u8; 12 * 32]) {
    let name = format!("path of value 1 of {}", taps(MANY));
    made(
        name,
        log,
        |log, output| ringlog::rfc6962_path(log, black_box(1), output),
        |log, output| plain::rfc6962::path(log, black_box(1), output).into(),
    )
}

/// The row, and what is written.
fn consistency(log: Vec<u8>) -> (Row, [u8; 13 * 32]) {
    let name = format!("consistency proof from {OLD} to {}", taps(MANY));
    made(
        name,
        log,
        |log, output| ringlog::rfc6962_consistency(log, black_box(OLD), output),
        |log, output| plain::rfc6962::consistency(log, black_box(OLD), output).into(),
    )
}

/// The row of a call that fills an output, and what it is filled with.
fn made<const LEN: usize>(
    name: String,
    log: Vec<u8>,
    library: fn(&[u8], &mut [u8]) -> Count,
    plain: fn(&[u8], &mut [u8]) -> Count,
) -> (Row, [u8; LEN]) {
    let again = log.clone();
    let (mut output, mut other) = ([0; LEN], [0; LEN]);
    assert_eq!(library(&log, &mut output), Ok(LEN).into(), "{name}");
    assert_eq!(plain(&log, &mut other), Ok(LEN).into(), "{name}");
    assert_eq!(output, other, "{name}");
    let row = Row::beside_plain(
        name,
        SELDOM,
        move || library(black_box(&log), &mut output),
        move || plain(black_box(&again), &mut other),
    );
    (row, output)
}

fn check_path(item: [u8; 9], path: [u8; 12 * 32], root: [u8; 32]) -> Row {
    Row::beside_plain(
        "check of that path".to_string(),
        (10, 1),
        move || {
            let (count, index) = (black_box(MANY), black_box(1));
            ringlog::rfc6962_check_path(count, index, &item, black_box(&path), &root)
        },
        move || {
            let (count, index) = (black_box(MANY), black_box(1));
            plain::rfc6962::check_path(count, index, &item, black_box(&path), &root)
        },
    )
}

fn check_consistency(proof: [u8; 13 * 32], old_root: [u8; 32], new_root: [u8; 32]) -> Row {
    Row::beside_plain(
        "check of that consistency proof".to_string(),
        (10, 1),
        move || {
            let (old, new) = (black_box(OLD), black_box(MANY));
            ringlog::rfc6962_check_consistency(old, new, black_box(&proof), &old_root, &new_root)
        },
        move || {
            let (old, new) = (black_box(OLD), black_box(MANY));
            plain::rfc6962::check_consistency(old, new, black_box(&proof), &old_root, &new_root)
        },
    )
}
