//! Rule 5: the tally of one count for each rotation, counted afresh or moved along the line. It is changed in place.
use crate::peers::findings::Finding;
use crate::peers::MARK;

/// "Ring: m edges, 1 to 256." A count is at most that, which eight bits do not hold.
pub const MOST_RING: usize = 256;

pub struct Tally {
    counts: [u16; MOST_RING],
    /// The line place just past the last mark among the edges counted, or 0: the window reached holds no mark if it begins
    /// there or later.
    pub past_mark: usize,
}

/// The start that a tally has reached, the least of its counts, and the looks that it took.
pub struct Reached {
    pub start: usize,
    pub least: u16,
    pub looks: usize,
}

/// One window edge against every rotation's edge over it.
fn count_edge(counts: &mut [u16], over: &[u8], edge: u8) -> usize {
    let mut looks = 0;
    for (count, &other) in counts.iter_mut().zip(over) {
        *count += (edge != other) as u16;
        looks += 1; // one look
    }
    looks
}

/// The leaving and the entering edge, each against every ring edge: rotation r at this start and the next rotation at the
/// next start both meet the ring's edge at r.
fn change(counts: &mut [u16], ring: &[u8], leaving: u8, entering: u8) -> (u16, usize) {
    let mut least = u16::MAX;
    let mut looks = 0;
    for (count, &edge) in counts.iter_mut().zip(ring) {
        let lost = (leaving != edge) as u16;
        looks += 1; // one look, at the leaving edge
        let won = (entering != edge) as u16;
        looks += 1; // one look, at the entering edge
        *count = *count - lost + won;
        least = least.min(*count);
    }
    (least, looks)
}

/// Each count moves on to the next rotation's number, from the last down so that none is overwritten before it is moved.
fn renumber(counts: &mut [u16]) {
    let last = counts[counts.len() - 1];
    for r in (1..counts.len()).rev() {
        counts[r] = counts[r - 1];
    }
    counts[0] = last;
}

impl Tally {
    pub fn new() -> Self {
        Tally { counts: [0; MOST_RING], past_mark: 0 }
    }

    /// Every rotation counted afresh: m edges, each against m ring edges.
    pub fn count_afresh(&mut self, doubled: &[u8], m: usize, line: &[u8], start: usize) -> Reached {
        let counts = &mut self.counts[..m];
        counts.fill(0);
        self.past_mark = 0;
        let mut looks = 0;
        for (q, &edge) in line[start..start + m].iter().enumerate() {
            looks += count_edge(counts, &doubled[q..q + m], edge);
            if edge == MARK {
                self.past_mark = start + q + 1;
            }
        }
        let least = counts.iter().copied().min().unwrap_or(0);
        Reached { start, least, looks }
    }

    /// Moves the tally `steps` steps along the line, or only to the first start on the way whose least count is below
    /// `below`. A window with a mark is no start.
    pub fn move_along(&mut self, ring: &[u8], line: &[u8], from: usize, steps: usize, below: usize) -> Reached {
        let m = ring.len();
        let counts = &mut self.counts[..m];
        let mut reached = Reached { start: from, least: 0, looks: 0 };
        while reached.start < from + steps {
            let (leaving, entering) = (line[reached.start], line[reached.start + m]);
            let (least, looks) = change(counts, ring, leaving, entering);
            renumber(counts);
            if entering == MARK {
                self.past_mark = reached.start + m + 1;
            }
            reached = Reached { start: reached.start + 1, least, looks: reached.looks + looks };
            if (least as usize) < below && self.past_mark <= reached.start {
                break;
            }
        }
        reached
    }

    /// The lowest rotation whose count is the least.
    fn lowest_rotation(&self, m: usize, least: u16) -> usize {
        self.counts[..m].iter().position(|&count| count == least).unwrap_or(m)
    }

    /// How many rotations have the least count. Summed in the width of a count, so that the compiler can use vectors.
    fn ties(&self, m: usize, least: u16) -> usize {
        self.counts[..m].iter().map(|&count| (count == least) as u16).sum::<u16>() as usize
    }

    /// The finding at the start that the tally has reached.
    pub fn finding_at(&self, m: usize, reached: &Reached) -> Finding {
        let Reached { start, least, .. } = *reached;
        let rotation = self.lowest_rotation(m, least);
        Finding { start, rotation, distance: least as usize, ties: self.ties(m, least) }
    }
}
