//! Long rings and lines: survey, scan and report of the same search.
//!
//! How the searches are spread:
//! - the ring's length: in half of them near the bounds of machine words, else anything from 1 to 256;
//! - the line's length: in 4 of 24 below the ring's, equal or a little more, in 14 up to 4,000 edges more, in 4 anything up
//!   to 65,536, in 2 65,535 or 65,536; every fiftieth search has the longest ring and the longest line;
//! - the codes: 1 to 255 of them;
//! - the allowance: often small, at times anything below m, at times just what some window needs to be a candidate or a
//!   finding, so that some of its neighbours are and some are not;
//! - the line: edges of the ring's codes, or the ring over and over, and copies of rotations from one end to the other;
//! - marks: in a third of the lines, all over them and at the seams of the copies.
//!
//! The second program's time sets the shares: on average it takes some 60 ms for a search, and 0.8 s for the longest with
//! every window a candidate.

use super::call::{cell_and_ring, Call, Search};
use super::draw::{Draw, CODES};
use super::marks::{mark_seams, strew};
use super::searches::{repeated, ABOUT_WORDS};
use super::silences::{book_of, ceiling_about, silences};
use crate::second::book::Silence;
use crate::second::meaning::nearest;
use crate::second::refusals::{LONGEST_LINE, LONGEST_RING};
use crate::second::rules::breaks;

/// Every fiftieth search has the longest ring and the longest line.
const LONGEST_EVERY: u64 = 50;

fn lengths(index: u64, draw: &mut Draw) -> (usize, usize) {
    if index % LONGEST_EVERY == 0 {
        return (LONGEST_RING, LONGEST_LINE);
    }
    let m = if draw.chance(2) { draw.one(&ABOUT_WORDS) } else { draw.between(1, LONGEST_RING) };
    let n = match draw.below(24) {
        0 => draw.below(m),
        1 => m + draw.below(2),
        2 | 3 => m + draw.below(3 * m),
        4..=17 => m + draw.below(4_000),
        18..=21 => draw.below(LONGEST_LINE + 1),
        _ => LONGEST_LINE - draw.below(2),
    };
    (m, n)
}

fn codes(draw: &mut Draw) -> Vec<u8> {
    let any = draw.between(1, CODES);
    let count = draw.one(&[1, 2, 3, 4, 26, CODES, any, any]);
    draw.alphabet(count)
}

/// Edges of the codes; now and then each code at most once, which for 255 codes and edges leaves no code out.
fn ring_of(draw: &mut Draw, codes: &[u8], m: usize) -> Vec<u8> {
    if codes.len() < m || draw.chance(2) {
        return draw.edges(codes, m);
    }
    draw.places(codes.len(), m).into_iter().map(|place| codes[place]).collect()
}

/// Edges of the ring's codes; or the ring over and over, where every start is a finding but for a few edits.
fn line_for(draw: &mut Draw, codes: &[u8], ring: &[u8], n: usize) -> Vec<u8> {
    if !draw.chance(6) {
        return draw.edges(codes, n);
    }
    let mut line = repeated(ring, draw.below(ring.len()), n);
    for _ in 0..draw.below(n / 100 + 2).min(n) {
        let place = draw.below(n);
        line[place] = draw.one(codes);
    }
    line
}

/// An allowance below m. At times it is the breaks or the distance of some window, so that neighbouring windows fall on
/// either side of it.
fn allowance(draw: &mut Draw, ring: &[u8], line: &[u8]) -> usize {
    let m = ring.len();
    let windows = (line.len() + 1).saturating_sub(m);
    let start = if windows > 0 { draw.below(windows) } else { 0 };
    let window = &line[start..line.len().min(start + m)];
    let k = match draw.below(12) {
        0 => 0,
        1..=5 => draw.below(8),
        6 | 7 => draw.below(m),
        8 => m - 1,
        9 | 10 => breaks(window, ring).saturating_sub(draw.below(2)),
        _ => nearest(window, ring),
    };
    k.min(m - 1)
}

struct Copies<'a> {
    ring: &'a [u8],
    allowance: usize,
    /// A code that the ring does not have, if there is one: an edge with it is a break wherever it is read.
    foreign: u8,
    /// Whether copies have marks at their seams.
    marked: bool,
}

impl Copies<'_> {
    /// Plants a copy of some rotation with up to k + 1 edits, each at a place of its own. Where k edits and the edge in front
    /// of the copy have the foreign code, a window that reads them all meets break k + 1 just in front of the copy, and the
    /// scan's next window starts exactly at the copy.
    fn plant(&self, draw: &mut Draw, line: &mut [u8], start: usize) {
        let (m, k) = (self.ring.len(), self.allowance);
        let copy = repeated(self.ring, draw.below(m), m);
        line[start..start + m].copy_from_slice(&copy);
        let any = draw.below(k + 2);
        let edits = draw.one(&[0, k, k, k + 1, any]).min(m);
        let all_foreign = draw.chance(2);
        for place in draw.places(m, edits) {
            let other = draw.other(copy[place]);
            line[start + place] = if all_foreign { self.foreign } else { other };
        }
        if start > 0 && draw.chance(2) {
            line[start - 1] = self.foreign;
        }
        if self.marked && draw.chance(2) {
            mark_seams(draw, line, start, m);
        }
    }

    /// Copies from end to end of the line: overlapping, side by side, a few edges apart or far; and in the first and the
    /// last window. Returns where they begin.
    fn plant_all(&self, draw: &mut Draw, line: &mut [u8]) -> Vec<usize> {
        let m = self.ring.len();
        let Some(last) = line.len().checked_sub(m) else { return Vec::new() };
        let far = draw.one(&[1, 4, 40]) * m;
        let mut starts = Vec::new();
        let mut start = draw.below(far + 1);
        while start <= last {
            self.plant(draw, line, start);
            starts.push(start);
            let overlapping = draw.between(1, m);
            let (near, away) = (m + draw.below(self.allowance + 3), m + draw.below(far + 1));
            start += draw.one(&[overlapping, m, m + 1, near, away, away]);
        }
        for start in [0, last] {
            // Not always: it may spoil a copy planted there before.
            if draw.chance(2) {
                self.plant(draw, line, start);
                starts.push(start);
            }
        }
        starts
    }
}

/// A book of some of the starts at which copies were planted, of the starts beside them, and of strays. A copy has up to k + 1
/// edits, and its ceiling lies about one of these distances.
fn book(draw: &mut Draw, (cell, ring_number): (u32, u16), planted: &[usize], k: usize, n: usize) -> Vec<u8> {
    let mut named = Vec::new();
    if !planted.is_empty() {
        for _ in 0..draw.one(&[0, 3, 30, 300]) {
            let start = draw.one(planted) + draw.one(&[0, 0, 0, 1]);
            let any = draw.below(k + 1);
            let distance = draw.one(&[0, k, k, any]);
            let ceiling = ceiling_about(draw, distance);
            named.push(Silence { cell, ring_number, start: start as u32, ceiling });
        }
    }
    let strays = draw.one(&[0, 1, 10, 100]);
    named.extend(silences(draw, cell, ring_number, n, strays));
    book_of(named)
}

pub fn long(index: u64, draw: &mut Draw) -> [Call; 3] {
    let (m, n) = lengths(index, draw);
    let codes = codes(draw);
    let ring = ring_of(draw, &codes, m);
    let mut line = line_for(draw, &codes, &ring, n);
    let marked = draw.chance(3);
    if marked {
        strew(draw, &mut line, m);
    }
    let allowance = allowance(draw, &ring, &line);
    let any = draw.alphabet(CODES);
    let foreign = any.iter().copied().find(|code| !ring.contains(code)).unwrap_or(any[0]);
    let planted = Copies { ring: &ring, allowance, foreign, marked }.plant_all(draw, &mut line);
    let (cell, ring_number) = cell_and_ring(draw);
    let book = book(draw, (cell, ring_number), &planted, allowance, n);
    let mut search = Search::new(ring, line, allowance);
    search.room += draw.one(&[0, 0, 1, 9]);
    [Call::Survey(search.clone()), Call::Scan(search.clone()), Call::Report { cell, ring_number, search, book }]
}
