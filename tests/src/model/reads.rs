//! How many entries a search reads, by document 01's formula. The search itself counts them.

#![forbid(unsafe_code)]

/// With j the highest bit where n and i − 1 differ:
/// [j ≠ trailing zeros of n] + j − ones((i − 1) mod 2^j), for 1 ≤ i ≤ n.
pub fn lefts(n: usize, i: usize) -> usize {
    let differ = |j: &u32| n >> j & 1 != (i - 1) >> j & 1;
    let j = (0..usize::BITS).rev().find(differ).expect("i − 1 below n");
    let ones = ((i - 1) % (1 << j)).count_ones() as usize;
    usize::from(j != n.trailing_zeros()) + j as usize - ones
}

/// The reads on a log of m values where the smaller of the two has n: 0 if m = 0; 1 if n = 0 < m;
/// else 1 + lefts(m, n), plus lefts(n, i) where they differ at i.
pub fn reads(m: usize, n: usize, differ_at: Option<usize>) -> usize {
    if m == 0 {
        return 0;
    }
    if n == 0 {
        return 1;
    }
    1 + lefts(m, n) + differ_at.map_or(0, |i| lefts(n, i))
}
