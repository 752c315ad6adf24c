//! Two long logs with one fault in the first, in the second or in each: for which log the search is
//! refused, and with what, at each of its steps. The repair piece is then empty.

use ringlog_tests::logs;
use ringlog_tests::long::{self, whole};
use ringlog_tests::model::search::Side;
use ringlog_tests::model::{self, tree, Log};
use ringlog_tests::pairs::retold;
use ringlog_tests::random::Random;
use ringlog_tests::ringlog::{self, Piece, Split};
use ringlog_tests::splits::{agree, differ_at, refusal, search};
use ringlog_tests::ways::{faults, links, Fault, Link};
use std::collections::BTreeSet;

/// How many values two logs have, and where they part if both have so many.
const PAIRS: [(usize, usize, usize); 8] = [
    (4_096, 4_096, 1),
    (4_095, 3_000, 301),
    (1_000, 4_095, 600),
    (301, 2_049, 200),
    (2_049, 301, 1),
    (700, 701, 600),
    (1_025, 4_096, 1_500),
    (4_095, 2_048, 3_000),
];

/// The left steps of a search of two well-formed logs of m1 and m2 values that part at this place.
fn steps((m1, m2, place): (usize, usize, usize)) -> Vec<(Side, Link)> {
    let n = m1.min(m2);
    let in_first = |link: &Link| (Side::First, *link);
    let in_second = |link: &Link| (Side::Second, *link);
    let brought = (links(m1, n), links(m2, n));
    let mut steps: Vec<_> = brought.0.iter().map(in_first).collect();
    steps.extend(brought.1.iter().map(in_second));
    if place <= n {
        let down = links(n, place);
        steps.extend(
            down.iter()
                .flat_map(|link| [in_first(link), in_second(link)]),
        );
    }
    steps
}

/// Two logs, and the bytes of the first values of each.
struct Pair {
    logs: [&'static Log; 2],
    bytes: [Vec<u8>; 2],
}

impl Pair {
    fn of((m1, m2, place): (usize, usize, usize)) -> Self {
        let logs = [whole(), long::parted(place)];
        let bytes = [logs[0].beginning(m1), logs[1].beginning(m2)];
        Pair {
            logs,
            bytes: bytes.map(<[u8]>::to_vec),
        }
    }

    /// The log of this side.
    fn log(&self, side: Side) -> &'static Log {
        self.logs[usize::from(side == Side::Second)]
    }

    /// Puts the fault into the log of this side, or takes it out again.
    fn swap(&mut self, side: Side, fault: &mut Fault) {
        fault.swap(&mut self.bytes[usize::from(side == Side::Second)]);
    }

    /// The search, held to the model's, with the repair piece that belongs to it.
    fn search(&self, case: &dyn Fn() -> String) -> Split {
        let [first, second] = &self.bytes;
        let split = search(first, second, case);
        let piece = ringlog::repair(first, second);
        assert_eq!(piece, model::repair(first, second).into(), "{}", case());
        assert_eq!(piece == Piece::default(), split.number != 0, "{}", case());
        split
    }
}

#[test]
fn two_long_logs_are_searched_by_the_steps_that_their_links_say() {
    for (m1, m2, place) in PAIRS {
        let case = || format!("{m1} and {m2} values, parted at {place}");
        let expected = match place <= m1.min(m2) {
            true => differ_at(m1, m2, place),
            false => agree(m1, m2),
        };
        let split = Pair::of((m1, m2, place)).search(&case);
        assert_eq!(split, expected, "{}", case());
        let taken = |side| {
            steps((m1, m2, place))
                .iter()
                .filter(|step| step.0 == side)
                .count()
        };
        assert_eq!(
            split.first_reads as usize,
            1 + taken(Side::First),
            "{}",
            case()
        );
        assert_eq!(
            split.second_reads as usize,
            1 + taken(Side::Second),
            "{}",
            case()
        );
    }
}

#[test]
fn a_link_that_does_not_hold_in_one_of_two_long_logs_is_refused_for_that_log_at_each_step() {
    let mut met = BTreeSet::new();
    for numbers in PAIRS {
        let mut pair = Pair::of(numbers);
        for (side, link) in steps(numbers) {
            for mut fault in faults(pair.log(side), link) {
                pair.swap(side, &mut fault);
                let case = || format!("{numbers:?}, {side:?}, {link:?}: {}", fault.what);
                let expected = refusal(side, fault.number);
                assert_eq!(pair.search(&case), expected, "{}", case());
                met.insert((u32::from(side), link.from.1, fault.number));
                pair.swap(side, &mut fault);
            }
        }
    }
    assert_eq!(
        met.len(),
        2 * 12 * 2,
        "each side, height and number: {met:?}"
    );
}

/// A fault in each log, at every two steps: the one that is taken first counts.
#[test]
fn of_two_links_that_do_not_hold_one_in_each_long_log_the_first_taken_counts() {
    let mut random = Random::new(1);
    for numbers in PAIRS {
        let mut pair = Pair::of(numbers);
        let steps = steps(numbers);
        for (at, &(side, link)) in steps.iter().enumerate() {
            for &(other_side, other_link) in &steps[at + 1..] {
                if side == other_side {
                    continue;
                }
                let mut one = random.one_of(&faults(pair.log(side), link)).clone();
                let of_other = faults(pair.log(other_side), other_link);
                let mut other = random.one_of(&of_other).clone();
                pair.swap(side, &mut one);
                pair.swap(other_side, &mut other);
                let case = || format!("{numbers:?}, {side:?}, {link:?}: {}", one.what);
                let expected = refusal(side, one.number);
                assert_eq!(pair.search(&case), expected, "{}", case());
                pair.swap(side, &mut one);
                pair.swap(other_side, &mut other);
            }
        }
    }
}

/// One log stores other digests for one node on the way to a leaf, and for all nodes above it.
#[test]
fn left_and_right_both_equal_deep_in_two_long_logs_are_refused_with_7_for_both() {
    let mut random = Random::new(2);
    let log = logs::log(1_000, &mut random);
    for i in [1, 300, 777] {
        let mut address = (1_000, tree::top(1_000));
        while address.1 > 0 {
            let retold = retold(&log, address, &mut random).bytes();
            let case = || format!("{address:?} told anew");
            let expected = refusal(Side::Both, 7);
            assert_eq!(search(log.bytes(), &retold, case), expected, "{}", case());
            assert_eq!(search(&retold, log.bytes(), case), expected, "{}", case());
            let left = tree::left_child(address.0, address.1);
            address = match i <= left.0 {
                true => left,
                false => tree::right_child(address.0, address.1),
            };
        }
    }
}
