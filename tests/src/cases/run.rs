//! Cases run through the library and held to the model.

use super::{Case, Done, Met};
use std::fmt::{self, Display, Formatter};
use std::ops::Range;

/// A case of which the library makes something else than the model.
pub struct Difference {
    seed: u64,
    number: u64,
    case: Case,
    expected: Done,
    got: Done,
}

/// Runs the cases of these numbers of a seed, up to the first difference.
pub fn run(seed: u64, numbers: Range<u64>) -> Result<Met, Box<Difference>> {
    let mut met = Met::default();
    for number in numbers {
        let case = Case::of(seed, number);
        let expected = Done::by_model(&case);
        let got = Done::by_library(&case);
        if got != expected {
            return Err(Box::new(Difference {
                seed,
                number,
                case,
                expected,
                got,
            }));
        }
        met.count(case.call, case.outcome(&expected.answer));
    }
    Ok(met)
}

impl Display for Difference {
    fn fmt(&self, f: &mut Formatter) -> fmt::Result {
        let Difference { seed, number, .. } = self;
        write!(f, "case {number} of seed {seed}: {}", self.case)?;
        writeln!(f, "  expected: {:x?}", self.expected.answer)?;
        writeln!(f, "  answered: {:x?}", self.got.answer)?;
        if let Some((slice, at)) = self.got.other_byte(&self.expected) {
            writeln!(f, "  byte {at} of slice {slice} is not the expected one")?;
        }
        Ok(())
    }
}
