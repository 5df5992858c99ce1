//! Closed lines counted by hand. Document 02 prints no sample of closed mode, so these were worked out from its sentences,
//! apart from this program. `|` stands for the mark.

use super::calls::{Outcome, Search};
use super::line::Line;
use super::meaning::{FINDING_WORDS, MARK};
use super::rules::{plain_survey, quick_scan};

/// Start, rotation, distance, ties.
type Counted = [u32; FINDING_WORDS];

pub struct ByHand {
    pub ring: &'static str,
    pub line: &'static str,
    pub allowance: usize,
    /// The findings and the quick scan's looks, the line closed.
    pub closed: (&'static [Counted], u64),
    /// The same, the line open.
    pub open: (&'static [Counted], u64),
}

const fn by_hand(
    (ring, line, allowance): (&'static str, &'static str, usize),
    closed: (&'static [Counted], u64),
    open: (&'static [Counted], u64),
) -> ByHand {
    ByHand { ring, line, allowance, closed, open }
}

pub const BY_HAND: [ByHand; 14] = [
    // n = m: 3 edges and 9 afresh, then twice 3 edges and a step of 6. This is the look bound with n + m − 1 = 5 in place of n.
    by_hand(("abc", "bca", 0), (&[[0, 1, 0, 1], [1, 2, 0, 1], [2, 0, 0, 1]], 30), (&[[0, 1, 0, 1]], 12)),
    by_hand(("ab", "ab", 0), (&[[0, 0, 0, 1], [1, 1, 0, 1]], 12), (&[[0, 0, 0, 1]], 6)),
    // P6's line aaa comes of aa.
    by_hand(("aa", "aa", 0), (&[[0, 0, 0, 2], [1, 0, 0, 2]], 12), (&[[0, 0, 0, 2]], 6)),
    // n = m + 1: `bz` is left at z, and the next window would begin past z, behind the line's last place.
    by_hand(("ab", "abz", 0), (&[[0, 0, 0, 1]], 7), (&[[0, 0, 0, 1]], 7)),
    // n = m + 1: `bb` is left at its first edge, and `ba` across the seam is two places on, so it is counted afresh.
    by_hand(("ab", "abb", 0), (&[[0, 0, 0, 1], [2, 1, 0, 1]], 6 + 2 + 6), (&[[0, 0, 0, 1]], 6 + 2)),
    // The copy crosses: `bz` is left at its last edge, `za` at its first, and `ab` at place 3 ends with the line's first edge.
    by_hand(("ab", "bzza", 0), (&[[3, 0, 0, 1]], 1 + 2 + 6), (&[], 1 + 2)),
    // Each of the four turns has the one edge that differs.
    by_hand(
        ("abcd", "cdzb", 1),
        (&[[0, 2, 1, 1], [1, 3, 1, 1], [2, 0, 1, 1], [3, 1, 1, 1]], 56),
        (&[[0, 2, 1, 1]], 20),
    ),
    // m = 1: no window crosses, and the closed line is the open one (P5).
    by_hand(("a", "ba", 0), (&[[1, 0, 0, 1]], 3), (&[[1, 0, 0, 1]], 3)),
    // n < m: no start and no look (P8).
    by_hand(("abc", "ab", 0), (&[], 0), (&[], 0)),
    by_hand(("ab", "", 1), (&[], 0), (&[], 0)),
    // A mark in the middle: the copy across the seam is whole.
    by_hand(("ab", "b|a", 0), (&[[2, 0, 0, 1]], 7), (&[], 1)),
    // A mark at the last place, at the first, and at both: nothing is found across the seam.
    by_hand(("ab", "ab|", 0), (&[[0, 0, 0, 1]], 7), (&[[0, 0, 0, 1]], 7)),
    by_hand(("ab", "|ab", 0), (&[[1, 0, 0, 1]], 9), (&[[1, 0, 0, 1]], 8)),
    by_hand(("ab", "|ab|", 0), (&[[1, 0, 0, 1]], 9), (&[[1, 0, 0, 1]], 9)),
];

pub fn edges(text: &str) -> Vec<u8> {
    text.bytes().map(|byte| if byte == b'|' { MARK } else { byte }).collect()
}

/// The survey's looks: 2·m·n − m·m for the n edges that its windows lie in, or none.
fn survey_looks(m: usize, n: usize) -> u64 {
    if n < m {
        0
    } else {
        (2 * m * n - m * m) as u64
    }
}

fn gives(outcome: Outcome<u32>, findings: &[Counted], looks: u64) -> bool {
    outcome.is_ok_and(|given| (given.written, given.looks) == (findings.concat(), looks))
}

impl ByHand {
    fn holds(&self) -> bool {
        let (ring, line) = (edges(self.ring), edges(self.line));
        let (m, n) = (ring.len(), line.len());
        let whole = if n < m { n } else { n + m - 1 };
        let closed = Search::closed(&ring, &line, self.allowance, FINDING_WORDS * n, 2 * m);
        let open = Search::new(&ring, &line, self.allowance, FINDING_WORDS * n);
        gives(closed.scan(), self.closed.0, self.closed.1)
            && gives(closed.survey(), self.closed.0, survey_looks(m, whole))
            && gives(open.scan(), self.open.0, self.open.1)
            && gives(open.survey(), self.open.0, survey_looks(m, n))
    }
}

/// Lengths of ring and line for which the closed line is compared with the longer one; the last has 65,791 edges.
const LENGTHENED: [(usize, usize); 4] = [(1, 9), (3, 3), (17, 40), (256, 65_536)];

/// "the line followed by its first m−1 edges, also where that is longer than 65,536": the closed line, read by its places, and
/// that line itself lead to the same findings and looks.
fn lengthened_holds((m, n): (usize, usize)) -> bool {
    let codes = |length: usize| -> Vec<u8> { (0..length).map(|place| (place * place / 7 % 3) as u8).collect() };
    let (ring, line) = (codes(m), codes(n));
    let longer = [&line[..], &line[..m - 1]].concat();
    [quick_scan, plain_survey].into_iter().all(|search| {
        let [closed, open] = [Line::closed(&line), Line::open(&longer)].map(|line| search(&ring, line, m / 3));
        (closed.findings, closed.looks) == (open.findings, open.looks)
    })
}

pub const COUNT: usize = BY_HAND.len() + LENGTHENED.len();

/// Whether the second program gives what was counted by hand, and the same on the longer line.
pub fn holds(index: usize) -> bool {
    match index.checked_sub(BY_HAND.len()) {
        None => BY_HAND[index].holds(),
        Some(lengths) => lengthened_holds(LENGTHENED[lengths]),
    }
}
