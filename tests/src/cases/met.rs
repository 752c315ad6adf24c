//! How often each outcome of each call was met.

use super::{outcomes, Call, Outcome};
use std::collections::HashMap;
use std::fmt::{self, Display, Formatter};

#[derive(Default)]
pub struct Met(HashMap<(Call, Outcome), usize>);

impl Met {
    /// Counts an outcome of a call, which must be one that can come of it.
    pub fn count(&mut self, call: Call, outcome: Outcome) {
        assert!(outcomes(call).contains(&outcome), "{call:?}: {outcome:?}");
        *self.0.entry((call, outcome)).or_default() += 1;
    }

    /// How often an outcome of a call was met.
    pub fn times(&self, call: Call, outcome: Outcome) -> usize {
        self.0.get(&(call, outcome)).copied().unwrap_or(0)
    }

    /// How often a call was refused with this number, or answered, for 0; none where it never can
    /// be.
    fn with_number(&self, call: Call, number: u32) -> Option<usize> {
        let those = outcomes(call).iter().filter(|outcome| outcome.0 == number);
        let times: Vec<_> = those.map(|&outcome| self.times(call, outcome)).collect();
        (!times.is_empty()).then(|| times.iter().sum())
    }

    /// How often each outcome of a call that shares its number with others was met.
    fn apart(&self, call: Call) -> Vec<String> {
        let named = outcomes(call).iter().filter(|(_, which)| !which.is_empty());
        let text = |&(number, which)| match (number, self.times(call, (number, which))) {
            (0, times) => format!("{which} {times}"),
            (_, times) => format!("{number} {which} {times}"),
        };
        named.map(text).collect()
    }
}

/// A table of the calls and their refusals by number, and then the outcomes that share one.
impl Display for Met {
    fn fmt(&self, f: &mut Formatter) -> fmt::Result {
        write!(f, "{:25} {:>8} {:>8}", "call", "cases", "answered")?;
        (1..=8).try_for_each(|number| write!(f, " {number:>6}"))?;
        for call in Call::ALL {
            let [answered, refused @ ..] =
                [0, 1, 2, 3, 4, 5, 6, 7, 8].map(|n| self.with_number(call, n));
            let answered = answered.unwrap_or(0);
            let cases = answered + refused.iter().flatten().sum::<usize>();
            write!(f, "\n{:25} {cases:>8} {answered:>8}", call.name())?;
            for times in refused {
                let times = times.map_or_else(|| "-".to_string(), |times| times.to_string());
                write!(f, " {times:>6}")?;
            }
        }
        writeln!(f)?;
        for call in Call::ALL {
            let apart = self.apart(call);
            if !apart.is_empty() {
                writeln!(f, "{}: {}", call.name(), apart.join(", "))?;
            }
        }
        Ok(())
    }
}
