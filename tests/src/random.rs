//! Random numbers that are the same in every run: splitmix64.

pub struct Random {
    state: u64,
}

impl Random {
    pub fn new(seed: u64) -> Self {
        Random { state: seed }
    }

    /// The numbers of one case of a seed. They rest on the seed and the case's number alone.
    pub fn of_case(seed: u64, number: u64) -> Self {
        let start = Random::new(seed).word().wrapping_add(number);
        Random::new(Random::new(start).word())
    }

    pub fn word(&mut self) -> u64 {
        self.state = self.state.wrapping_add(0x9e3779b97f4a7c15);
        let mut z = self.state;
        z = (z ^ (z >> 30)).wrapping_mul(0xbf58476d1ce4e5b9);
        z = (z ^ (z >> 27)).wrapping_mul(0x94d049bb133111eb);
        z ^ (z >> 31)
    }

    /// A number from 0 to `most`, both included. Some come up more often than others by a share
    /// that is nothing next to 2^64.
    pub fn up_to(&mut self, most: usize) -> usize {
        (self.word() % (most as u64 + 1)) as usize
    }

    /// One of these, of which there is at least one.
    pub fn one_of<'a, T>(&mut self, list: &'a [T]) -> &'a T {
        &list[self.up_to(list.len() - 1)]
    }

    pub fn fill(&mut self, bytes: &mut [u8]) {
        for chunk in bytes.chunks_mut(8) {
            chunk.copy_from_slice(&self.word().to_le_bytes()[..chunk.len()]);
        }
    }

    pub fn bytes(&mut self, len: usize) -> Vec<u8> {
        let mut bytes = vec![0; len];
        self.fill(&mut bytes);
        bytes
    }

    pub fn digest(&mut self) -> [u8; 32] {
        let mut digest = [0; 32];
        self.fill(&mut digest);
        digest
    }
}
