//! Calls from several threads at once, with memory of their own or with logs that they share: each
//! answers what it answers alone.

use ringlog_tests::cases::{Answer, Case, Done};
use ringlog_tests::logs::LONGEST_ENTRY;
use ringlog_tests::long::{parted, whole};
use ringlog_tests::model::inclusion::hops;
use ringlog_tests::model::rfc6962_checks::proof_len;
use ringlog_tests::ringlog::*;
use std::sync::Barrier;
use std::thread;
use std::time::{Duration, Instant};

const THREADS: usize = 8;

/// In this time a thread calls thousands of times, and is stopped within a call many times.
const LONG_ENOUGH: Duration = Duration::from_millis(40);

/// Calls once in each thread, with its number from 0, and lets all begin together.
fn in_threads(call: impl Fn(usize) + Sync) {
    let begin = Barrier::new(THREADS);
    thread::scope(|scope| {
        for thread in 0..THREADS {
            let (begin, call) = (&begin, &call);
            scope.spawn(move || {
                begin.wait();
                call(thread);
            });
        }
    });
}

/// All threads run all cases, each beginning with another one.
#[test]
fn random_cases_in_several_threads_at_once_give_what_the_model_gives() {
    let with_expected = |number| {
        let case = Case::of(3, number);
        let expected = Done::by_model(&case);
        (case, expected)
    };
    let cases: Vec<_> = (0..300).map(with_expected).collect();
    in_threads(|thread| {
        let first = thread * cases.len() / THREADS;
        for number in (first..cases.len()).chain(0..first) {
            let (case, expected) = &cases[number];
            assert!(Done::by_library(case) == *expected, "case {number}");
        }
    });
}

/// A call that rests on a number, and what it writes.
type Numbered<'a> = &'a (dyn Fn(usize) -> (Answer, Vec<u8>) + Sync);

/// For some time and in all threads at once, the call answers what it answers alone, with two numbers
/// that are the thread's own, the least of them 1.
fn assert_as_alone(name: &str, call: Numbered) {
    let alone: Vec<_> = (1..=2 * THREADS).map(call).collect();
    in_threads(|thread| {
        let begun = Instant::now();
        while begun.elapsed() < LONG_ENOUGH {
            for at in [2 * thread, 2 * thread + 1] {
                assert_eq!(call(at + 1), alone[at], "{name} of {}", at + 1);
            }
        }
    });
}

/// An answer of a call that writes nothing.
fn nothing_written(answer: Answer) -> (Answer, Vec<u8>) {
    (answer, Vec::new())
}

/// One call after another, with another length or index in each thread.
#[test]
fn several_threads_may_read_the_same_log_at_once() {
    let whole = whole();
    let log = whole.beginning(2_000);
    let stored = root(log).digest;
    assert_as_alone("sha256", &|i| {
        nothing_written(Answer::Digest(sha256(&log[i * 999..][..500 + i])))
    });
    assert_as_alone("audit", &|i| {
        nothing_written(Answer::Extent(audit(&log[..whole.end(i * 5) - 1])))
    });
    assert_as_alone("root", &|i| {
        nothing_written(Answer::Digest(root(whole.beginning(i * 100))))
    });
    assert_as_alone("value", &|i| {
        nothing_written(Answer::Part(value(log, &stored, i * 111)))
    });
    let prove = |i| {
        let mut output = vec![0; 384];
        let proved = proof(log, i * 111, &mut output);
        (Answer::Count(proved), output)
    };
    assert_as_alone("proof", &prove);
    let proofs: Vec<_> = (1..=2 * THREADS).map(prove).collect();
    assert_as_alone("check_proof", &|i| {
        // Every other thread asks for a value that is not there.
        let item = whole.value(i * 111 + i / 2 % 2);
        let proof = &proofs[i - 1].1[..32 * hops(2_000, i * 111)];
        let accepted = check_proof(2_000, i * 111, item, proof, &stored);
        nothing_written(Answer::Whether(accepted))
    });
}

/// The calls of the RFC 6962 edition, on a shorter log, since they audit it.
#[test]
fn several_threads_may_ask_for_rfc_6962_of_the_same_log_at_once() {
    let whole = whole();
    let log = whole.beginning(100);
    let stored = rfc6962_root(log).digest;
    assert_as_alone("rfc6962_root", &|i| {
        nothing_written(Answer::Digest(rfc6962_root(whole.beginning(i * 5))))
    });
    let path = |i| {
        let mut output = vec![0; 384];
        let made = rfc6962_path(log, i * 6, &mut output);
        (Answer::Count(made), output)
    };
    assert_as_alone("rfc6962_path", &path);
    let paths: Vec<_> = (1..=2 * THREADS).map(path).collect();
    assert_as_alone("rfc6962_check_path", &|i| {
        // Every other thread asks for a value that is not there.
        let item = whole.value(i * 6 + i / 2 % 2);
        let path = &paths[i - 1].1[..32 * hops(100, i * 6)];
        let accepted = rfc6962_check_path(100, i * 6, item, path, &stored);
        nothing_written(Answer::Whether(accepted))
    });
    let consistency = |i| {
        let mut output = vec![0; 416];
        let made = rfc6962_consistency(log, i * 6, &mut output);
        (Answer::Count(made), output)
    };
    assert_as_alone("rfc6962_consistency", &consistency);
    let proofs: Vec<_> = (1..=2 * THREADS).map(consistency).collect();
    assert_as_alone("rfc6962_check_consistency", &|i| {
        // Every other thread has the root of a value more.
        let old_root = rfc6962_root(whole.beginning(i * 6 + i / 2 % 2)).digest;
        let proof = &proofs[i - 1].1[..32 * proof_len(i * 6, 100)];
        let accepted = rfc6962_check_consistency(i * 6, 100, proof, &old_root, &stored);
        nothing_written(Answer::Whether(accepted))
    });
}

#[test]
fn several_threads_may_search_the_same_two_logs_at_once() {
    let (log, parted) = (whole().beginning(2_000), parted(600));
    let other = |i: usize| parted.beginning(i * 110);
    assert_as_alone("search", &|i| {
        nothing_written(Answer::Split(search(log, other(i))))
    });
    assert_as_alone("repair", &|i| {
        nothing_written(Answer::Piece(repair(other(i), log)))
    });
}

#[test]
fn several_threads_may_append_and_cut_at_once_each_in_a_buffer_of_its_own() {
    let whole = whole();
    assert_as_alone("append", &|i| {
        let mut buffer = [whole.beginning(i), &[0; LONGEST_ENTRY]].concat();
        let appended = append(&mut buffer, whole.end(i), whole.value(i));
        (Answer::Count(appended), buffer)
    });
    assert_as_alone("cut", &|i| {
        let mut buffer = whole.beginning(20).to_vec();
        let used = buffer.len();
        (Answer::Count(cut(&mut buffer, used, i)), buffer)
    });
}
