//! Long logs that are made once and shared: one of a value more than a log can have, and others that
//! part from it at known places. They are the same in every run.

use crate::model::entry::MOST;
use crate::model::Log;
use crate::pairs::{parted_at, values};
use crate::random::Random;
use std::sync::Mutex;

/// Where the others part from the first one.
pub const PLACES: [usize; 6] = [1, 200, 301, 600, 1_500, 3_000];

/// The log of 4,097 values of mixed kinds.
pub fn whole() -> &'static Log {
    made(0, || Log::of(&values(MOST + 1, &mut Random::new(0))))
}

/// The log of as many values, of which the one at this place is the first that is another one.
pub fn parted(place: usize) -> &'static Log {
    made(place, || {
        let random = &mut Random::new(0);
        let whole = values(MOST + 1, random);
        Log::of(&parted_at(&whole, place, random))
    })
}

/// The log that is made for this place, once in a process.
fn made(place: usize, make: impl FnOnce() -> Log) -> &'static Log {
    static MADE: Mutex<Vec<(usize, &'static Log)>> = Mutex::new(Vec::new());
    let mut made = MADE.lock().expect("no log fails to be made");
    if let Some(&(_, log)) = made.iter().find(|&&(at, _)| at == place) {
        return log;
    }
    let log: &'static Log = Box::leak(Box::new(make()));
    made.push((place, log));
    log
}
