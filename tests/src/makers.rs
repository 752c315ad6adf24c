//! The two calls of the RFC 6962 edition that write: the answer and every byte of the output are
//! held to the model's.

use crate::memory::Memory;
use crate::model::rfc6962::{path, proof};
use crate::ringlog::Count;
use crate::{model, ringlog};

/// The length of the longest consistency proof: 13 digests. A path has 12 at most.
pub const LONGEST: usize = 416;

#[derive(Clone, Copy, Debug, PartialEq, Eq)]
pub enum Maker {
    /// The inclusion path of a value, by its index.
    Path,
    /// The consistency proof from so many values to all.
    Consistency,
}

impl Maker {
    pub const BOTH: [Maker; 2] = [Maker::Path, Maker::Consistency];

    /// What it writes for a list of values and a number from 1 to how many they are.
    pub fn digests(self, values: &[Vec<u8>], number: usize) -> Vec<u8> {
        match self {
            Maker::Path => path(number - 1, values).concat(),
            Maker::Consistency => proof(number, values).concat(),
        }
    }

    /// What the library answers.
    pub fn call(self, log: &[u8], number: usize, output: &mut [u8]) -> Count {
        match self {
            Maker::Path => ringlog::rfc6962_path(log, number, output),
            Maker::Consistency => ringlog::rfc6962_consistency(log, number, output),
        }
    }

    fn by_model(self, log: &[u8], number: usize, output: &mut [u8]) -> Count {
        let answer = match self {
            Maker::Path => model::rfc6962_path(log, number, output),
            Maker::Consistency => model::rfc6962_consistency(log, number, output),
        };
        answer.into()
    }

    /// Calls with an output of so many bytes, which has other bytes around it, and gives back what was
    /// written.
    pub fn make(
        self,
        log: &[u8],
        number: usize,
        len: usize,
        case: impl Fn() -> String,
    ) -> (Count, Vec<u8>) {
        let mut memory = Memory::counting(len);
        let mut expected = memory.clone();
        let answer = self.call(log, number, memory.lent_mut());
        let expected_answer = self.by_model(log, number, expected.lent_mut());
        let shown = || format!("{self:?} of {number} into {len} bytes: {}", case());
        assert_eq!(answer, expected_answer, "{}", shown());
        if let Some(place) = memory.other_byte(&expected) {
            panic!("byte {place} is not the model's; {}", shown());
        }
        (answer, memory.lent()[..answer.value as usize].to_vec())
    }
}
