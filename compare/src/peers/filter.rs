//! What ACB and ACBq share: window after window is read, candidates are verified, and the next window starts just past
//! the last edge read.
use super::findings::Findings;
use super::nearest::Rotations;

/// `read` gives how many edges of a window it read, and whether the window is a candidate. A candidate is verified as 003
/// says: by searching it with k mismatches in the ring written twice.
#[inline(always)]
pub fn sift(ring: &[u8], line: &[u8], k: usize, words: &mut [u32], read: impl Fn(&[u8]) -> (usize, bool)) -> usize {
    let m = ring.len();
    let rotations = Rotations::new(ring);
    let mut findings = Findings::new(words);
    let mut start = 0;
    while start + m <= line.len() {
        let window = &line[start..start + m];
        let (edges, candidate) = read(window);
        if candidate {
            if let Some(finding) = rotations.nearest(start, window, k) {
                findings.put(finding);
            }
        }
        start += m - edges + 1;
    }
    findings.found
}

/// A search for as few words as the ring's m bits need.
macro_rules! by_width {
    ($search:ident, $ring:ident, $line:ident, $k:ident, $words:ident) => {
        match $ring.len().div_ceil($crate::peers::vectors::WORD_BITS) {
            1 => $search::<1>($ring, $line, $k, $words),
            2 => $search::<2>($ring, $line, $k, $words),
            3 => $search::<3>($ring, $line, $k, $words),
            _ => $search::<4>($ring, $line, $k, $words),
        }
    };
}
pub(super) use by_width;
