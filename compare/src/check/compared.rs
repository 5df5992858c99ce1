//! What a call of the library left behind, beside what the second program says.

use crate::cases::call::{Call, Search};
use crate::memory::WORD;
use crate::second::ceilings::Ceilings;
use crate::second::meaning::FINDING_WORDS;
use crate::second::rules::Marks;
use crate::second::samples::bound;
use crate::second::seam::Seam;
use outlines::raw::Answer;
use std::fmt::Debug;

/// A lent area with the canaries about it, and where the area begins in them.
#[derive(Clone, Debug, PartialEq, Eq)]
pub struct Side {
    pub bytes: Vec<u8>,
    pub front: usize,
}

impl Side {
    /// Writes bytes at the area's beginning.
    pub fn write(&mut self, written: &[u8]) {
        self.bytes[self.front..self.front + written.len()].copy_from_slice(written);
    }

    pub fn word(&self, place: usize) -> u32 {
        let at = self.front + WORD * place;
        u32::from_ne_bytes(self.bytes[at..at + WORD].try_into().expect("the bytes of a word"))
    }

    /// The first byte that is unlike the one expected, by its place in the area.
    fn difference(&self, expected: &Side, name: &str) -> Option<String> {
        let at = (0..self.bytes.len()).find(|&at| self.bytes[at] != expected.bytes[at])?;
        let (place, value, due) = (at as isize - self.front as isize, self.bytes[at], expected.bytes[at]);
        Some(format!("byte {place} of the {name} is {value:02x}, expected {due:02x}"))
    }
}

/// The areas lent for writing: that of the words, or of the bytes that the packer writes, and the join area. A call that is
/// lent no join area has an empty one.
#[derive(Clone, Debug, PartialEq, Eq)]
pub struct Lent {
    pub words: Side,
    pub join: Side,
}

/// All that a call leaves behind: its answer, the lent areas, and whether the inputs with their canaries are as they were.
#[derive(Clone, Debug, PartialEq, Eq)]
pub struct Left<A = Answer> {
    pub answer: A,
    pub lent: Lent,
    pub inputs_kept: bool,
}

impl Left {
    /// How many findings an accepted search shows.
    pub fn shown(&self, call: &Call) -> usize {
        let accepted = call.search().is_some() && self.answer.refusal == 0;
        if accepted {
            (self.answer.found - self.answer.hidden) as usize
        } else {
            0
        }
    }
}

impl<A: Debug + PartialEq> Left<A> {
    /// The first difference from what is expected: the answer, a byte of the lent areas, or an input that was written to.
    pub(super) fn unlike(&self, expected: &Left<A>) -> Option<String> {
        if self.answer != expected.answer {
            return Some(format!("answer {:?}, expected {:?}", self.answer, expected.answer));
        }
        let words = self.lent.words.difference(&expected.lent.words, "lent area");
        let areas = words.or_else(|| self.lent.join.difference(&expected.lent.join, "join area"));
        areas.or_else(|| (!self.inputs_kept).then(|| "an input was written to".to_string()))
    }
}

/// The places of a finding's words behind its start.
pub const ROTATION: usize = 1;
pub const DISTANCE: usize = 2;
pub const TIES: usize = 3;

#[derive(Clone)]
pub struct Compared {
    pub expected: Left,
    pub given: Left,
    /// The lent areas before the call.
    pub before: Lent,
    /// What the library's open call left on the line followed by its first m − 1 edges, if the call is closed and accepted and
    /// the open one takes that line.
    pub opened: Option<Left>,
    /// What the second program met of marks in this call, at the seam of a closed line, and of ceilings.
    pub marks: Marks,
    pub seam: Seam,
    pub ceilings: Ceilings,
}

/// The library's looks compared with document 01's own formulas. For a closed line they read "with n + m − 1 in place of n"
/// (ticket 3).
fn looks_out_of_bounds(call: &Call, answer: &Answer) -> Option<String> {
    let search = call.search()?;
    let (m, whole) = (search.ring.len() as u64, search.whole() as u64);
    if answer.refusal != 0 || whole < m {
        return (answer.looks != 0).then(|| format!("{} looks where there must be none", answer.looks));
    }
    let surveyed = matches!(call, Call::Survey(_)) && answer.looks != 2 * m * whole - m * m;
    let beyond = answer.looks > bound(m, whole);
    (surveyed || beyond).then(|| format!("{} looks, against the formula of document 01", answer.looks))
}

impl Compared {
    /// How many shown findings several rotations reach, and how many of those are at a distance above 0.
    pub fn tied(&self, call: &Call) -> [u64; 2] {
        let word = |finding, which| self.expected.lent.words.word(FINDING_WORDS * finding + which);
        let tied: Vec<usize> = (0..self.expected.shown(call)).filter(|&finding| word(finding, TIES) > 1).collect();
        let apart = tied.iter().filter(|&&finding| word(finding, DISTANCE) > 0);
        [tied.len() as u64, apart.count() as u64]
    }

    /// Answer and words of a closed call against those of the open call on the longer line.
    fn unlike_opened(&self) -> Option<String> {
        let opened = self.opened.as_ref()?;
        if opened.answer != self.given.answer {
            return Some(format!("answer {:?}, open on the longer line {:?}", self.given.answer, opened.answer));
        }
        self.given.lent.words.difference(&opened.lent.words, "lent area, against the open call on the longer line,")
    }
}

/// What a call left behind beside what is right, whatever kind of call it is.
pub trait Judged<C>: Clone {
    /// The first difference from what is right, if there is one.
    fn difference(&self, call: &C) -> Option<String>;
}

impl Judged<Call> for Compared {
    fn difference(&self, call: &Call) -> Option<String> {
        let left = self.given.unlike(&self.expected);
        left.or_else(|| looks_out_of_bounds(call, &self.given.answer)).or_else(|| self.unlike_opened())
    }
}

/// The search of a closed call.
pub fn closed(call: &Call) -> Option<&Search> {
    call.search().filter(|search| search.is_closed())
}
