//! Verifying a window without a tally: every rotation in turn, each left at the first edge that makes it too far.
use super::doubled;
use super::findings::Finding;

/// The rotations of a ring.
pub struct Rotations {
    doubled: Vec<u8>,
    m: usize,
    /// The least number of edges by which the ring can be turned into itself. The first `period` rotations all differ, and
    /// the others repeat them, so only the first are tried.
    period: usize,
}

/// The window's distance under one rotation, unless it is above `most`.
fn distance_within(window: &[u8], rotation: &[u8], most: usize) -> Option<usize> {
    let mut distance = 0;
    for (edge, other) in window.iter().zip(rotation) {
        if edge != other {
            if distance == most {
                return None;
            }
            distance += 1;
        }
    }
    Some(distance)
}

impl Rotations {
    pub fn new(ring: &[u8]) -> Self {
        let m = ring.len();
        let doubled = doubled(ring);
        let period = (1..m).find(|&turn| doubled[turn..turn + m] == *ring).unwrap_or(m);
        Rotations { doubled, m, period }
    }

    /// The finding at a start, unless its least distance is above k. A later rotation has to come as near as the best before
    /// it, so its limit falls. The rotations tried all differ, so at most one of them has distance 0, and 0 ends the search.
    pub fn nearest(&self, start: usize, window: &[u8], k: usize) -> Option<Finding> {
        let alike = self.m / self.period;
        let mut best: Option<Finding> = None;
        let mut most = k;
        for (rotation, edges) in self.doubled.windows(self.m).take(self.period).enumerate() {
            let Some(distance) = distance_within(window, edges, most) else { continue };
            match &mut best {
                Some(best) if best.distance == distance => best.ties += alike,
                _ => best = Some(Finding { start, rotation, distance, ties: alike }),
            }
            if distance == 0 {
                break;
            }
            most = distance;
        }
        best
    }
}
