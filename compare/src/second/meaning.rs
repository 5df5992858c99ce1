//! Rotations, distances and findings, by their meanings.

use super::line::Line;

/// "a finding becomes four words: start, rotation, distance, ties" (ticket 1).
pub const FINDING_WORDS: usize = 4;

/// "Byte 255 is from now on a boundary mark" (ticket 2).
pub const MARK: u8 = 255;

#[derive(Clone, Copy, Debug, PartialEq, Eq)]
pub struct Finding {
    pub start: usize,
    pub rotation: usize,
    pub distance: usize,
    /// How many rotations reach the distance.
    pub ties: usize,
}

impl Finding {
    pub fn words(&self) -> [u32; FINDING_WORDS] {
        [self.start, self.rotation, self.distance, self.ties].map(|number| number as u32)
    }
}

/// Rotation r has at its place q the ring's edge (r + q) mod m.
pub fn rotations(ring: &[u8]) -> Vec<Vec<u8>> {
    let m = ring.len();
    (0..m).map(|r| (0..m).map(|q| ring[(r + q) % m]).collect()).collect()
}

/// Counted in bytes, a part of the window at a time: a wider sum would be too slow on the longest lines.
pub fn distance(window: &[u8], rotation: &[u8]) -> usize {
    const PART: usize = 128;
    let differing =
        |(part, other): (&[u8], &[u8])| -> u8 { part.iter().zip(other).map(|(a, b)| u8::from(a != b)).sum() };
    window.chunks(PART).zip(rotation.chunks(PART)).map(|parts| usize::from(differing(parts))).sum()
}

/// The least distance, the lowest rotation that reaches it and how many reach it, if that makes the start a finding.
/// `distances` has the distance under each rotation.
pub fn judge(start: usize, distances: &[usize], allowance: usize) -> Option<Finding> {
    let least = *distances.iter().min()?;
    if least > allowance {
        return None;
    }
    let rotation = distances.iter().position(|&distance| distance == least)?;
    let ties = distances.iter().filter(|&&distance| distance == least).count();
    Some(Finding { start, rotation, distance: least, ties })
}

/// The least distance of a window over all rotations.
pub fn nearest(window: &[u8], ring: &[u8]) -> usize {
    rotations(ring).iter().map(|rotation| distance(window, rotation)).min().unwrap_or(0)
}

/// "a window holding one isn't a start" (ticket 2).
pub fn holds_mark(window: &[u8]) -> bool {
    window.contains(&MARK)
}

pub fn findings(ring: &[u8], line: Line, allowance: usize) -> Vec<Finding> {
    let (m, turned) = (ring.len(), rotations(ring));
    let windows = (0..line.windows(m)).map(|start| (start, line.window(start, m)));
    let starts = windows.filter(|(_, window)| !holds_mark(window));
    starts
        .filter_map(|(start, window)| {
            let distances: Vec<usize> = turned.iter().map(|rotation| distance(&window, rotation)).collect();
            judge(start, &distances, allowance)
        })
        .collect()
}
