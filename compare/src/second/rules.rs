//! The quick scan by rules 1 to 5, and the plain survey. Both ask the line for its windows, open or closed: "For n ≥ m an
//! accepted call's findings and looks are those that the meanings and rules give for the line followed by its first m−1
//! edges" (ticket 3), and that line has n windows.

use super::line::Line;
use super::meaning::{holds_mark, rotations, Finding, MARK};
use super::tally::Tally;

#[derive(Default)]
pub struct Searched {
    pub findings: Vec<Finding>,
    pub candidates: usize,
    pub looks: u64,
    pub marks: Marks,
}

/// What a search met of marks. No call returns it: the comparison adds it up, to show that its cases have marks in them.
#[derive(Clone, Copy, Debug, Default, PartialEq, Eq)]
pub struct Marks {
    /// Windows that the quick scan left at a mark.
    pub left: u64,
    /// Of these, those left after k breaks, with k above 0.
    pub after_breaks: u64,
    /// Of these, those whose mark is their first edge, which is read last, with m above 1.
    pub at_first: u64,
    /// Windows with a mark that the survey moved its tally through.
    pub passed: u64,
}

/// "A stretch of at most m edges fits the ring if it is the beginning of some rotation."
fn fits(stretch: &[u8], rotations: &[Vec<u8>]) -> bool {
    rotations.iter().any(|rotation| rotation.starts_with(stretch))
}

/// The stretch of rule 2, kept as the rotations that it begins: trying every rotation again at each edge would be too slow
/// for long rings.
pub struct Stretch {
    /// By rotation; behind the last one rotation 0 comes again.
    begins: Vec<bool>,
}

impl Stretch {
    /// The empty stretch begins every rotation.
    pub fn empty(m: usize) -> Stretch {
        Stretch { begins: vec![true; m + 1] }
    }

    /// Grows to the left by an edge and returns whether it still fits. It then begins rotation r exactly when that edge is
    /// rotation r's first one, which is the ring's edge r, and what was held begins rotation r + 1.
    pub fn grow(&mut self, ring: &[u8], edge: u8) -> bool {
        let m = ring.len();
        let begins = &mut self.begins[..m + 1];
        let mut fits = false;
        for r in 0..m {
            begins[r] = begins[r + 1] & (ring[r] == edge);
            fits |= begins[r];
        }
        begins[m] = begins[0];
        fits
    }

    pub fn clear(&mut self) {
        self.begins.fill(true);
    }
}

/// On rings up to this length each fit is also decided by its definition.
const SHORT_RING: usize = 16;

/// How a window was read: the edges read, the breaks, and whether the last edge read is a mark.
struct Read {
    edges: usize,
    breaks: usize,
    at_mark: bool,
}

/// Rules 1 to 3 on one window. "On reading a mark the quick scan leaves the window [..]; that read is one look and no break"
/// (ticket 2).
fn read_window(window: &[u8], rotations: &[Vec<u8>], allowance: usize, looks: &mut u64) -> Read {
    let ring = &rotations[0];
    let mut stretch = Stretch::empty(ring.len());
    let (mut edges, mut breaks, mut held) = (0, 0, 0);
    for (place, &edge) in window.iter().enumerate().rev() {
        *looks += 1;
        edges += 1;
        if edge == MARK {
            return Read { edges, breaks, at_mark: true };
        }
        held += 1;
        let fitting = stretch.grow(ring, edge);
        let checked = ring.len() > SHORT_RING || fitting == fits(&window[place..place + held], rotations);
        assert!(checked, "the rotations that a stretch begins are not those held");
        if !fitting {
            breaks += 1;
            held = 0;
            stretch.clear();
        }
        if breaks == allowance + 1 {
            break;
        }
    }
    Read { edges, breaks, at_mark: false }
}

/// The breaks of a window that is read to its first edge or to a mark, however many they are.
pub fn breaks(window: &[u8], ring: &[u8]) -> usize {
    read_window(window, &rotations(ring), ring.len(), &mut 0).breaks
}

impl Marks {
    fn leave(&mut self, read: &Read, m: usize, allowance: usize) {
        self.left += 1;
        self.after_breaks += u64::from(allowance > 0 && read.breaks == allowance);
        self.at_first += u64::from(m > 1 && read.edges == m);
    }
}

/// Rule 5: only the way since the last verified start decides, whatever windows were left in between.
pub fn verify(last: Option<Tally>, start: usize, rotations: &[Vec<u8>], line: Line, looks: &mut u64) -> Tally {
    match last {
        Some(mut tally) if 2 * (start - tally.start) <= rotations.len() => {
            while tally.start < start {
                tally.step(rotations, line, looks);
            }
            tally
        }
        _ => Tally::afresh(rotations, line, start, looks),
    }
}

pub fn quick_scan(ring: &[u8], line: Line, allowance: usize) -> Searched {
    let m = ring.len();
    let rotations = rotations(ring);
    let mut searched = Searched::default();
    let mut last: Option<Tally> = None;
    let mut start = 0;
    while start < line.windows(m) {
        let window = line.window(start, m);
        let read = read_window(&window, &rotations, allowance, &mut searched.looks);
        if read.at_mark {
            searched.marks.leave(&read, m, allowance);
        } else if read.edges == m && read.breaks <= allowance {
            searched.candidates += 1;
            let tally = verify(last.take(), start, &rotations, line, &mut searched.looks);
            searched.findings.extend(tally.verdict(allowance));
            last = Some(tally);
        }
        // Rule 3. The last edge read is at start + m − j, so this is also "just past the mark" (ticket 2).
        start += m - read.edges + 1;
    }
    searched
}

impl Searched {
    /// The survey's verdict where its tally stands. A window with a mark is no start.
    fn judge(&mut self, tally: &Tally, window: &[u8], allowance: usize) {
        if holds_mark(window) {
            self.marks.passed += 1;
        } else {
            self.findings.extend(tally.verdict(allowance));
        }
    }
}

/// "Plain survey: same findings, and its looks stay" (ticket 2): the tally also moves through windows with marks.
pub fn plain_survey(ring: &[u8], line: Line, allowance: usize) -> Searched {
    let m = ring.len();
    let mut searched = Searched::default();
    if line.windows(m) == 0 {
        return searched;
    }
    let rotations = rotations(ring);
    let mut tally = Tally::afresh(&rotations, line, 0, &mut searched.looks);
    searched.judge(&tally, &line.window(0, m), allowance);
    while tally.start + 1 < line.windows(m) {
        tally.step(&rotations, line, &mut searched.looks);
        searched.judge(&tally, &line.window(tally.start, m), allowance);
    }
    searched
}
