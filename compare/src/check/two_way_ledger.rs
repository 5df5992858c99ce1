//! What was compared of the two-way scan.

use super::compared::ROTATION;
use super::two_way::{passes, Compared};
use crate::cases::call::{two_way_room, Search};
use crate::second::meaning::{holds_mark, FINDING_WORDS};
use crate::second::refusals::{LONGEST_LINE, LONGEST_RING};
use crate::second::reversed::NO_EDGE;
use crate::second::samples::bound;
use outlines::raw::TwoWay;
use outlines::Refusal;
use std::collections::{BTreeMap, BTreeSet};

/// The refusals of the two-way scan, in their order.
const REFUSALS: [u32; 6] = [1, 12, 2, 14, 3, 4];

/// Sums over the accepted calls, then over the refused ones.
#[derive(Clone, Copy)]
enum Sum {
    ForwardOnly,
    BackwardOnly,
    Both,
    SameStart,
    Rotated,
    OtherLooks,
    ForwardAtBound,
    BackwardAtBound,
    Marked,
    LeftForward,
    LeftBackward,
    NoEdges,
    LengthOfRing,
    NoStart,
    OneEdge,
    Longest,
    Exact,
    Spare,
    FirstPlace,
    LastPlace,
    TwoCodes,
    CodeAndMark,
    CodeAndAllowance,
    CodeAndLine,
    CodeAndRoom,
    CodeWithoutStart,
    OnePass,
    OneShort,
}

/// A name for each sum. A run with every kind of case fails if one of them is 0.
const SUMS: [&str; 28] = [
    "two-way scans with forward findings only",
    "two-way scans with backward findings only",
    "two-way scans with findings of both passes",
    "starts found in both passes",
    "backward rotations above 0",
    "two-way scans whose passes differ in looks",
    "forward passes at the look bound",
    "backward passes at the look bound",
    "two-way scans of lines with marks, with findings",
    "windows of forward passes left at a mark",
    "windows of backward passes left at a mark",
    "two-way scans of lines with codes 248 to 254, with findings",
    "two-way scans with n = m",
    "two-way scans with n < m and no words",
    "two-way scans with m = 1",
    "two-way scans with the longest ring in the longest line",
    "two-way scans with exactly the room required",
    "two-way scans with words to spare",
    "refusals 14 at the first place",
    "refusals 14 at the last place of several",
    "refusals 14 with another such code behind",
    "refusals 12 of rings with codes 248 to 254",
    "refusals 2 of rings with codes 248 to 254",
    "refusals 14 with a line above 65,536",
    "refusals 14 with too little room",
    "refusals 14 with n < m",
    "refusals 4 with room for one pass",
    "refusals 4 by one word",
];

#[derive(Default)]
pub struct TwoWays {
    sums: [u64; SUMS.len()],
    /// How often each refusal came back, 0 for accepted.
    answers: BTreeMap<u32, u64>,
}

/// The codes of the ring that refusal 14 is given for; 255 is refusal 12.
fn no_edges(codes: &[u8]) -> usize {
    codes.iter().filter(|&&code| code >= NO_EDGE && !holds_mark(&[code])).count()
}

/// How many starts both passes find, and how many backward findings have a rotation above 0.
fn same_and_rotated([forward, backward]: [Vec<u32>; 2]) -> [u64; 2] {
    let starts = |words: &[u32]| -> BTreeSet<u32> { words.chunks(FINDING_WORDS).map(|finding| finding[0]).collect() };
    let same = starts(&forward).intersection(&starts(&backward)).count();
    let rotated = backward.chunks(FINDING_WORDS).filter(|finding| finding[ROTATION] > 0).count();
    [same as u64, rotated as u64]
}

impl TwoWays {
    fn add(&mut self, sum: Sum, more: u64) {
        self.sums[sum as usize] += more;
    }

    fn add_if(&mut self, pairs: &[(Sum, bool)]) {
        pairs.iter().for_each(|&(sum, occurred)| self.add(sum, u64::from(occurred)));
    }

    pub fn add_call(&mut self, search: &Search, compared: &Compared) {
        let answer = &compared.given.answer;
        *self.answers.entry(answer.refusal).or_default() += 1;
        match Refusal::numbered(answer.refusal) {
            None => {
                self.add_findings(search, compared);
                self.add_lengths(search, answer);
            }
            Some(refusal) => self.add_refused(search, refusal, answer.place as usize),
        }
    }

    fn add_findings(&mut self, search: &Search, compared: &Compared) {
        let [forward, backward] = passes(&compared.given.answer);
        let [same, rotated] = same_and_rotated(compared.expected_words());
        self.add(Sum::SameStart, same);
        self.add(Sum::Rotated, rotated);
        self.add(Sum::LeftForward, compared.marks[0].left);
        self.add(Sum::LeftBackward, compared.marks[1].left);
        let found = forward.found + backward.found > 0;
        self.add_if(&[
            (Sum::ForwardOnly, found && backward.found == 0),
            (Sum::BackwardOnly, found && forward.found == 0),
            (Sum::Both, forward.found > 0 && backward.found > 0),
            (Sum::OtherLooks, forward.looks != backward.looks),
            (Sum::Marked, found && holds_mark(&search.line)),
            (Sum::NoEdges, found && no_edges(&search.line) > 0),
        ]);
    }

    fn add_lengths(&mut self, search: &Search, answer: &TwoWay) {
        let (m, n, required) = (search.ring.len(), search.line.len(), required(search));
        let at_bound = |looks: u64| n >= m && looks == bound(m as u64, n as u64);
        self.add_if(&[
            (Sum::ForwardAtBound, at_bound(answer.forward_looks)),
            (Sum::BackwardAtBound, at_bound(answer.backward_looks)),
            (Sum::LengthOfRing, n == m),
            (Sum::NoStart, n < m && search.room == 0),
            (Sum::OneEdge, m == 1),
            (Sum::Longest, m == LONGEST_RING && n == LONGEST_LINE),
            (Sum::Exact, n >= m && search.room == required),
            (Sum::Spare, n >= m && search.room > required),
        ]);
    }

    fn add_refused(&mut self, search: &Search, refusal: Refusal, place: usize) {
        let (m, n, room) = (search.ring.len(), search.line.len(), search.room);
        let (codes, required) = (no_edges(&search.ring), required(search));
        match refusal {
            Refusal::CodeInRing => self.add_if(&[
                (Sum::FirstPlace, place == 0),
                (Sum::LastPlace, m > 1 && place + 1 == m),
                (Sum::TwoCodes, codes > 1),
                (Sum::CodeAndLine, n > LONGEST_LINE),
                (Sum::CodeAndRoom, n >= m && room < required),
                (Sum::CodeWithoutStart, n < m),
            ]),
            Refusal::MarkInRing => self.add_if(&[(Sum::CodeAndMark, codes > 0)]),
            Refusal::Allowance => self.add_if(&[(Sum::CodeAndAllowance, codes > 0)]),
            Refusal::RoomForFindings => {
                self.add_if(&[(Sum::OnePass, 2 * room == required), (Sum::OneShort, room + 1 == required)]);
            }
            _ => {}
        }
    }

    pub fn join(&mut self, other: TwoWays) {
        self.sums.iter_mut().zip(other.sums).for_each(|(sum, more)| *sum += more);
        other.answers.into_iter().for_each(|(number, count)| *self.answers.entry(number).or_default() += count);
    }

    pub fn print(&self) {
        let of = |sum: Sum| self.sums[sum as usize];
        let [forward, backward, both] = [Sum::ForwardOnly, Sum::BackwardOnly, Sum::Both].map(of);
        println!("two-way scans with forward findings only: {forward}, backward only: {backward}, both: {both}");
        let [same, rotated, other] = [Sum::SameStart, Sum::Rotated, Sum::OtherLooks].map(of);
        println!("starts found in both passes: {same}; backward findings with a rotation above 0: {rotated}");
        let [at_forward, at_backward] = [Sum::ForwardAtBound, Sum::BackwardAtBound].map(of);
        println!("passes at the look bound: {at_forward} forward, {at_backward} backward; scans whose passes differ in looks: {other}");
        let [marked, codes] = [Sum::Marked, Sum::NoEdges].map(of);
        println!("two-way scans that find in lines with marks: {marked}, with codes 248 to 254: {codes}");
        let [left, left_backward] = [Sum::LeftForward, Sum::LeftBackward].map(of);
        println!("windows of two-way scans left at a mark: {left} forward, {left_backward} backward");
        let all: Vec<String> = REFUSALS.iter().map(|number| format!("{number}: {}", self.refused(*number))).collect();
        println!("two-way scans by refusal: {}", all.join(", "));
        let [first, last, two] = [Sum::FirstPlace, Sum::LastPlace, Sum::TwoCodes].map(of);
        println!("refusals 14 at place 0: {first}, at the last place: {last}, with another such code behind: {two}");
    }

    fn refused(&self, number: u32) -> u64 {
        self.answers.get(&number).copied().unwrap_or(0)
    }

    /// What no case led to: sums that are 0, and refusals that no two-way scan gave.
    pub fn missing(&self) -> Vec<String> {
        let sums = SUMS.iter().zip(self.sums).filter(|(_, sum)| *sum == 0).map(|(name, _)| name.to_string());
        let absent = REFUSALS.into_iter().filter(|&number| self.refused(number) == 0);
        sums.chain(absent.map(|number| format!("refusal {number} of a two-way scan"))).collect()
    }
}

/// The words that refusal 4 requires for this search.
fn required(search: &Search) -> usize {
    two_way_room(search.ring.len(), search.line.len())
}
