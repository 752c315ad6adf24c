//! Memory that is lent with bytes around it, which are nobody's to read or to change.

/// How many bytes stand before what is lent, and behind it.
const AROUND: usize = 64;

/// What is lent, and the bytes around it.
#[derive(Clone, Debug, PartialEq, Eq)]
pub struct Memory(Vec<u8>);

impl Memory {
    /// Bytes to lend, among bytes that are all this one.
    pub fn among(around: u8, lent: &[u8]) -> Self {
        let around = [around; AROUND];
        Memory([&around, lent, &around].concat())
    }

    /// So many bytes to lend. Each byte, also of those around, is its place in the memory, modulo 256.
    pub fn counting(len: usize) -> Self {
        Memory((0..AROUND + len + AROUND).map(|at| at as u8).collect())
    }

    pub fn lent(&self) -> &[u8] {
        &self.0[AROUND..self.0.len() - AROUND]
    }

    pub fn lent_mut(&mut self) -> &mut [u8] {
        let end = self.0.len() - AROUND;
        &mut self.0[AROUND..end]
    }

    /// The place of the first byte that is another one than expected, from the first that is lent
    /// on. It is below 0 for a byte before that.
    pub fn other_byte(&self, expected: &Memory) -> Option<isize> {
        let at = (0..self.0.len()).find(|&at| self.0[at] != expected.0[at])?;
        Some(at as isize - AROUND as isize)
    }
}

/// Lends every beginning of a log, among bytes that are all one of these, for each of them. All of
/// the memory is held to what it was.
pub fn lend_beginnings(log: &[u8], around: &[u8], call: impl Fn(&[u8], &dyn Fn() -> String)) {
    for len in 0..=log.len() {
        for &around in around {
            let case = || format!("{len} bytes among {around:#04x}");
            let memory = Memory::among(around, &log[..len]);
            let before = memory.clone();
            call(memory.lent(), &case);
            assert!(memory == before, "{}", case());
        }
    }
}

/// Lends every beginning of a log beside the whole of another, in both orders, each among bytes that
/// are all one of these, for each of them. All of the memory is held to what it was.
pub fn lend_beginnings_beside(
    log: &[u8],
    other: &[u8],
    around: &[u8],
    call: impl Fn(&[u8], &[u8], &dyn Fn() -> String),
) {
    for &byte in around {
        let other = Memory::among(byte, other);
        let before = other.clone();
        lend_beginnings(log, &[byte], |log, case| {
            call(log, other.lent(), case);
            call(other.lent(), log, case);
            assert!(other == before, "{}", case());
        });
    }
}
