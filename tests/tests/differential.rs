//! Random calls of all kinds: the library makes of each what the model makes of it. The environment
//! variables RINGLOG_SEED and RINGLOG_CASES give another seed and another number of cases.

use ringlog_tests::cases::{outcomes, run, Call};
use std::env;

const SEED: u64 = 1;
const CASES: u64 = 20_000;

/// The number in an environment variable, if it is set.
fn number(variable: &str) -> Option<u64> {
    let text = env::var(variable).ok()?;
    Some(text.parse().expect("a number"))
}

/// In so many cases, or more, every outcome that a call can have is met once in a thousand at least.
#[test]
fn random_cases_give_what_the_model_gives_and_meet_every_outcome_of_every_call() {
    let seed = number("RINGLOG_SEED").unwrap_or(SEED);
    let cases = number("RINGLOG_CASES").unwrap_or(CASES);
    let met = run(seed, 0..cases).unwrap_or_else(|difference| panic!("{difference}"));
    let least = if cases < CASES { 0 } else { cases / 1_000 };
    for call in Call::ALL {
        for &outcome in outcomes(call) {
            let times = met.times(call, outcome) as u64;
            assert!(times >= least, "{call:?} {outcome:?}:\n{met}");
        }
    }
}
