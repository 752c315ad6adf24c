//! The calls that are measured: SHA-256, append, audit and search beside plain Rust, and the others
//! alone.

use crate::measure::{self, black_box, Row};
use crate::text::grouped;
use ringlog_tests::model::Log;
use ringlog_tests::random::Random;
use ringlog_tests::{logs, model, plain, ringlog};
use std::cell::RefCell;
use std::rc::Rc;

/// The message whose time gives that of one compression, and how many compressions it takes.
pub const LONG_MESSAGE: (usize, u32) = (65_535, 1_025);

/// The values of a long log; the last entry has nodes of eleven heights, and twelve links lead to
/// entry 1.
pub const MANY: usize = 4_095;

/// A search, and the entries that it reads in each of the two logs.
pub struct Search {
    pub row: Row,
    pub reads: u64,
}

pub fn taps(count: usize) -> String {
    let plural = if count == 1 { "" } else { "s" };
    format!("{} tap{plural}", grouped(count as u64))
}

pub fn sha256(len: usize, calls: u32) -> Row {
    let message = Random::new(1).bytes(len);
    let again = message.clone();
    Row::beside_plain(
        format!("sha256 of {} bytes", grouped(len as u64)),
        (calls, 1),
        move || ringlog::sha256(black_box(&message)),
        move || Ok(plain::sha256(black_box(&again))).into(),
    )
}

pub fn audit(count: usize, batch: measure::Batch) -> Row {
    let log = logs::taps(count, &mut Random::new(2)).bytes().to_vec();
    let again = log.clone();
    Row::beside_plain(
        format!("audit of {}", taps(count)),
        batch,
        move || ringlog::audit(black_box(&log)),
        move || plain::audit(black_box(&again)).into(),
    )
}

/// The same append again and again: it writes the same bytes behind the same log.
pub fn append(count: usize, calls: u32) -> Row {
    let mut random = Random::new(3);
    let log = logs::taps(count, &mut random);
    let tap: [u8; 9] = logs::tap(&mut random).try_into().expect("a tap");
    let used = log.bytes().len();
    let mut buffer = [log.bytes(), &[0; logs::LONGEST_ENTRY]].concat();
    let mut again = buffer.clone();
    let plain_answer = plain::append(&mut again, used, &tap).into();
    assert_eq!(ringlog::append(&mut buffer, used, &tap), plain_answer);
    assert!(buffer == again, "the bytes of an append");
    Row::beside_plain(
        format!("append of a tap to {}", taps(count)),
        (calls, 1),
        move || ringlog::append(&mut buffer, black_box(used), &black_box(tap)),
        move || plain::append(&mut again, black_box(used), &black_box(tap)).into(),
    )
}

/// Two logs of so many taps that differ at value i, or are the same where there is no i.
fn two_logs(count: usize, differ_at: Option<usize>) -> (Vec<u8>, Vec<u8>) {
    let mut random = Random::new(4);
    let mut values: Vec<_> = (0..count).map(|_| logs::tap(&mut random)).collect();
    let first = Log::of(&values).bytes().to_vec();
    if let Some(i) = differ_at {
        values[i - 1] = logs::tap(&mut random);
    }
    (first, Log::of(&values).bytes().to_vec())
}

pub fn search(count: usize, differ_at: Option<usize>) -> Search {
    let (first, second) = two_logs(count, differ_at);
    let split = ringlog::search(&first, &second);
    assert_eq!(split.first_reads, split.second_reads, "entries read");
    let again = (first.clone(), second.clone());
    let how = match differ_at {
        Some(i) => format!("differ at {}", grouped(i as u64)),
        None => "same".to_string(),
    };
    let row = Row::beside_plain(
        format!("of {}, {how}", taps(count)),
        (200, 1),
        move || ringlog::search(black_box(&first), black_box(&second)),
        move || plain::search(black_box(&again.0), black_box(&again.1)),
    );
    Search {
        row,
        reads: split.first_reads,
    }
}

/// The other calls on a long log, by the longest way: to entry 1. The model has their answers.
pub fn others() -> Vec<Row> {
    let (log, other) = two_logs(MANY, Some(1));
    let digest = ringlog::root(&log).digest;
    let [make, check] = proof_and_check(log.clone(), digest);
    vec![
        root(log.clone()),
        cut(log.clone()),
        value(log.clone(), digest),
        make,
        check,
        repair(log, other),
    ]
}

fn root(log: Vec<u8>) -> Row {
    let name = format!("root of {}", taps(MANY));
    let answer = model::root(&log).into();
    Row::alone(name, (200, 1), answer, move || {
        ringlog::root(black_box(&log))
    })
}

/// In a buffer of the log's own length. A cut blanks what it cuts off, and the log is copied back before
/// the next one.
fn cut(log: Vec<u8>) -> Row {
    let name = format!("cut of {} to 1", taps(MANY));
    let used = log.len();
    let mut left = log.clone();
    let answer = model::cut(&mut left, used, 1).into();
    let buffer = Rc::new(RefCell::new(log.clone()));
    let lent = Rc::clone(&buffer);
    let row = Row::alone(name, (1, 15), answer, move || {
        ringlog::cut(&mut lent.borrow_mut(), black_box(used), black_box(1))
    });
    assert!(*buffer.borrow() == left, "the bytes of a cut");
    row.prepared(move || buffer.borrow_mut().copy_from_slice(&log))
}

fn value(log: Vec<u8>, root: [u8; 32]) -> Row {
    let name = format!("checked value 1 of {}", taps(MANY));
    let answer = model::value(&log, &root, 1).into();
    Row::alone(name, (10, 1), answer, move || {
        ringlog::value(black_box(&log), &black_box(root), black_box(1))
    })
}

fn proof_and_check(log: Vec<u8>, root: [u8; 32]) -> [Row; 2] {
    let tap: [u8; 9] = log[5..14].try_into().expect("a tap");
    let mut proof = [0; 12 * 32];
    let answer = model::proof(&log, 1, &mut proof).into();
    let mut output = proof;
    let name = format!("proof of value 1 of {}", taps(MANY));
    let make = Row::alone(name, (50, 1), answer, move || {
        ringlog::proof(black_box(&log), black_box(1), &mut output)
    });
    let name = "check of that proof".to_string();
    let check = Row::alone(name, (10, 1), true, move || {
        let (count, index) = (black_box(MANY), black_box(1));
        ringlog::check_proof(count, index, &tap, black_box(&proof), &root)
    });
    [make, check]
}

fn repair(first: Vec<u8>, second: Vec<u8>) -> Row {
    let name = format!("repair of two logs of {}, differ at 1", taps(MANY));
    let answer = model::repair(&first, &second).into();
    Row::alone(name, (100, 1), answer, move || {
        ringlog::repair(black_box(&first), black_box(&second))
    })
}
