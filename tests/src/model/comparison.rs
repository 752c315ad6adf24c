//! The value by value comparison of document 01: two lists of values, and nothing else.

#![forbid(unsafe_code)]

#[derive(Clone, Copy, Debug, PartialEq, Eq)]
pub enum Verdict {
    Same,
    FirstShorter,
    SecondShorter,
    DifferAt(usize),
}

impl Verdict {
    /// Of two lists of m1 and m2 values, all those of the shorter one in common.
    pub fn of_lengths(m1: usize, m2: usize) -> Verdict {
        if m1 == m2 {
            Verdict::Same
        } else if m1 < m2 {
            Verdict::FirstShorter
        } else {
            Verdict::SecondShorter
        }
    }

    /// The i that they differ at.
    pub fn place(self) -> Option<usize> {
        match self {
            Verdict::DifferAt(i) => Some(i),
            _ => None,
        }
    }
}

/// How many values are in common, from the first on, and the verdict. k is how many were found
/// equal so far.
pub fn compare<V: AsRef<[u8]>>(first: &[V], second: &[V]) -> (usize, Verdict) {
    let n = first.len().min(second.len());
    let mut k = 0;
    while k < n {
        if first[k].as_ref() != second[k].as_ref() {
            return (k, Verdict::DifferAt(k + 1));
        }
        k += 1;
    }
    (n, Verdict::of_lengths(first.len(), second.len()))
}
