//! Survey and scan with marks or with the windows of a closed line misread. The comparison must tell their answers from the
//! right ones.

use crate::cases::call::Search;
use crate::second::meaning::{distance, holds_mark, judge, rotations, Finding, MARK};
use crate::second::rules::{Searched, Stretch};
use std::borrow::Cow;

/// What a scan does on reading a mark; all but the first are wrong.
#[derive(Clone, Copy, PartialEq, Eq)]
pub enum AtMark {
    /// Leaves the window and begins the next one just past the mark.
    Leave,
    /// Counts a break and reads on.
    Break,
    /// Counts nothing and reads on, with an empty stretch.
    StepOver,
    /// Leaves the window, but begins the next one on the mark. Where the mark is the window's own start, that window would
    /// be read for ever, so there the next one begins past it.
    BeginOnIt,
}

struct Read {
    edges: usize,
    breaks: usize,
    /// The window was left at a mark.
    left: bool,
}

/// A ring, an allowance, how many windows there are and each of them. Distances are counted afresh in the window at hand;
/// looks are counted as rule 5 counts them for a tally that moves.
pub struct Misread<'a> {
    ring: &'a [u8],
    allowance: usize,
    rotations: Vec<Vec<u8>>,
    windows: usize,
    window: Box<dyn Fn(usize) -> Cow<'a, [u8]> + 'a>,
}

impl<'a> Misread<'a> {
    /// The search with its own windows, for the ways that misread only marks.
    pub fn new(search: &'a Search) -> Misread<'a> {
        let (m, line) = (search.ring.len(), search.line());
        Misread::with(search, line.windows(m), move |start| line.window(start, m))
    }

    /// The search with other windows.
    pub fn with(search: &'a Search, windows: usize, window: impl Fn(usize) -> Cow<'a, [u8]> + 'a) -> Misread<'a> {
        let Search { ring, allowance, .. } = search;
        Misread { ring, allowance: *allowance, rotations: rotations(ring), windows, window: Box::new(window) }
    }

    fn read(&self, window: &[u8], at_mark: AtMark) -> Read {
        let mut stretch = Stretch::empty(self.ring.len());
        let mut read = Read { edges: 0, breaks: 0, left: false };
        for &edge in window.iter().rev() {
            read.edges += 1;
            if edge == MARK && matches!(at_mark, AtMark::Leave | AtMark::BeginOnIt) {
                return Read { left: true, ..read };
            }
            if !stretch.grow(self.ring, edge) {
                read.breaks += usize::from(edge != MARK || at_mark == AtMark::Break);
                stretch.clear();
            }
            if read.breaks > self.allowance {
                break;
            }
        }
        read
    }

    fn verdict(&self, start: usize, window: &[u8]) -> Option<Finding> {
        let distances: Vec<usize> = self.rotations.iter().map(|rotation| distance(window, rotation)).collect();
        judge(start, &distances, self.allowance)
    }

    pub fn scan(&self, at_mark: AtMark) -> Searched {
        let m = self.ring.len();
        let mut searched = Searched::default();
        let mut last: Option<usize> = None;
        let mut start = 0;
        while start < self.windows {
            let window = (self.window)(start);
            let read = self.read(&window, at_mark);
            searched.looks += read.edges as u64;
            if !read.left && read.breaks <= self.allowance {
                let steps = last.map(|last| start - last).filter(|s| 2 * s <= m);
                searched.looks += steps.map_or(m * m, |s| 2 * m * s) as u64;
                searched.findings.extend(self.verdict(start, &window));
                last = Some(start);
            }
            let just_past = m - read.edges + 1;
            let on_it = read.left && at_mark == AtMark::BeginOnIt;
            start += if on_it { (just_past - 1).max(1) } else { just_past };
        }
        searched
    }

    /// The survey, with windows that hold marks reported like any others or left out.
    pub fn survey(&self, with_marks: bool) -> Searched {
        let m = self.ring.len() as u64;
        let mut searched = Searched::default();
        for start in 0..self.windows {
            let window = (self.window)(start);
            searched.looks += if start == 0 { m * m } else { 2 * m };
            if with_marks || !holds_mark(&window) {
                searched.findings.extend(self.verdict(start, &window));
            }
        }
        searched
    }
}
