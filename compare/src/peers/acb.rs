//! ACB, source document 003: Algorithm 2 with its shift made a rotation of m bits, and arrays of words where m is above a
//! word. It reads windows as the quick scan does, marks included, and counts no looks.
use super::filter::{by_width, sift};
use super::vectors::{first_bits, grown, no_bit, occurrences};
use super::MARK;

/// How many edges are read, from the last towards the first, and whether they have at most k breaks and no mark. The ring
/// has m edges.
#[inline(always)]
pub fn read<const W: usize>(table: &[[u64; W]; 256], edges: &[u8], m: usize, k: usize) -> (usize, bool) {
    let full = first_bits::<W>(m);
    let mut held = full;
    let mut breaks = 0;
    for (before, &edge) in edges.iter().rev().enumerate() {
        held = grown(held, &table[edge as usize], m);
        if no_bit(held) {
            if edge == MARK || breaks == k {
                return (before + 1, false);
            }
            breaks += 1;
            held = full;
        }
    }
    (edges.len(), true)
}

fn search_in<const W: usize>(ring: &[u8], line: &[u8], k: usize, words: &mut [u32]) -> usize {
    let table = occurrences::<W>(ring);
    sift(ring, line, k, words, |window| read(&table, window, ring.len(), k))
}

pub fn search(ring: &[u8], line: &[u8], k: usize, words: &mut [u32]) -> usize {
    by_width!(search_in, ring, line, k, words)
}
