//! The naive search: every start verified, no edge remembered. What one writes first.
use super::findings::Findings;
use super::nearest::Rotations;
use super::MARK;

pub fn search(ring: &[u8], line: &[u8], k: usize, words: &mut [u32]) -> usize {
    let rotations = Rotations::new(ring);
    let mut findings = Findings::new(words);
    let windows = line.windows(ring.len()).enumerate();
    for (start, window) in windows.filter(|(_, window)| !window.contains(&MARK)) {
        if let Some(finding) = rotations.nearest(start, window, k) {
            findings.put(finding);
        }
    }
    findings.found
}
