//! Vectors of one bit for each rotation, held by value in W words.

pub const WORD_BITS: usize = u64::BITS as usize;
/// Words of a vector for the longest ring, which has 256 edges.
pub const MOST_WORDS: usize = 256 / WORD_BITS;

/// The first m bits set: an empty stretch is the beginning of every rotation.
pub fn first_bits<const W: usize>(m: usize) -> [u64; W] {
    std::array::from_fn(|w| match m.saturating_sub(w * WORD_BITS) {
        left if left < WORD_BITS => (1 << left) - 1,
        _ => u64::MAX,
    })
}

/// The held vector grown by one edge: rotated within m bits, AND the edge's occurrence vector.
#[inline(always)]
pub fn grown<const W: usize>(held: [u64; W], occurs: &[u64], m: usize) -> [u64; W] {
    let first = (held[0] & 1) << ((m + WORD_BITS - 1) % WORD_BITS);
    std::array::from_fn(|w| {
        let carry = if w + 1 < W { held[w + 1] << (WORD_BITS - 1) } else { first };
        ((held[w] >> 1) | carry) & occurs[w]
    })
}

/// All words are joined before the one test, so that a caller has one branch.
#[inline(always)]
pub fn no_bit<const W: usize>(held: [u64; W]) -> bool {
    held.iter().fold(0, |joined, word| joined | word) == 0
}

/// The ring's occurrence vectors, one for each byte; that of the mark is empty.
pub fn occurrences<const W: usize>(ring: &[u8]) -> [[u64; W]; 256] {
    let mut table = [[0; W]; 256];
    for (r, &code) in ring.iter().enumerate() {
        table[code as usize][r / WORD_BITS] |= 1 << (r % WORD_BITS);
    }
    table
}
