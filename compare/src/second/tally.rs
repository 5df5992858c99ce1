//! The tally of rule 5: one count per rotation, each comparison counted as it is made.

use super::line::Line;
use super::meaning::{judge, Finding};

pub struct Tally {
    pub start: usize,
    differing: Vec<usize>,
}

impl Tally {
    pub fn afresh(rotations: &[Vec<u8>], line: Line, start: usize, looks: &mut u64) -> Tally {
        let m = rotations.len();
        let window = line.window(start, m);
        let mut differing = vec![0; m];
        for (count, rotation) in differing.iter_mut().zip(rotations) {
            for place in 0..m {
                *looks += 1;
                if window[place] != rotation[place] {
                    *count += 1;
                }
            }
        }
        Tally { start, differing }
    }

    /// The edges that stay in the window lie one place further left, hence under the next rotation on the same ring
    /// edges as before: so the counts turn along with the start.
    pub fn step(&mut self, rotations: &[Vec<u8>], line: Line, looks: &mut u64) {
        let m = rotations.len();
        let (leaving, entering) = (line.edge(self.start), line.edge(self.start + m));
        let mut moved = vec![0; m];
        for (r, &before) in self.differing.iter().enumerate() {
            let next = (r + 1) % m;
            let mut count = before;
            *looks += 1;
            if leaving != rotations[r][0] {
                count -= 1;
            }
            *looks += 1;
            if entering != rotations[next][m - 1] {
                count += 1;
            }
            moved[next] = count;
        }
        self.differing = moved;
        self.start += 1;
    }

    pub fn verdict(&self, allowance: usize) -> Option<Finding> {
        judge(self.start, &self.differing, allowance)
    }
}
