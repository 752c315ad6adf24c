//! Memory with a closed page at its edge: a call that reads or writes a byte beyond what it is lent is
//! ended by a signal, and this test with it.

use ringlog_tests::cases::{Case, Done};
use ringlog_tests::pages::{Edge, Enclosed};
use std::collections::HashSet;

/// The cases that the gate also gives to tests/c/driver.c. Under valgrind that says which byte is
/// touched.
const SEED: u64 = 1;
const CASES: u64 = 2_000;

/// How many slices the fifteen calls are lent.
const SLICES: usize = 28;

/// More than any case lends in one slice.
const ROOM: usize = 3 << 20;

/// Each case twice: every slice begins behind a closed page, and then every slice ends before one.
/// Each slice of each call has no bytes in some case.
#[test]
fn no_call_touches_a_byte_before_or_behind_what_it_is_lent() {
    let mut memory = [(); 3].map(|()| Enclosed::with_room(ROOM));
    let mut empty = HashSet::new();
    for number in 0..CASES {
        let case = Case::of(SEED, number);
        let expected = Done::by_model(&case);
        let slices = case.lent.iter().enumerate();
        let of_no_bytes = slices.filter(|(_, bytes)| bytes.is_empty());
        empty.extend(of_no_bytes.map(|(slice, _)| (case.call, slice)));
        for edge in [Edge::Begin, Edge::End] {
            let pairs = memory.iter_mut().zip(&case.lent);
            let mut lent: Vec<_> = pairs
                .map(|(memory, bytes)| memory.lend(bytes, edge))
                .collect();
            let answer = Done::answer_from(&case, &mut lent);
            assert_eq!(answer, expected.answer, "case {number}, {edge:?}");
            let same = lent.iter().map(|lent| &**lent).eq(expected.lent());
            assert!(same, "case {number}, {edge:?}");
        }
    }
    assert_eq!(empty.len(), SLICES, "slices that had no bytes: {empty:?}");
}
