//! What was compared: counts for each kind, and the first differences in words.

use super::book_ledger::Books;
use super::closed_ledger::Closed;
use super::compared::Compared;
use super::trips::Trip;
use super::two_way;
use super::two_way_ledger::TwoWays;
use super::vertices_ledger::Imports;
use crate::cases::call::{Call, Search};
use crate::cases::chains::Chain;
use crate::cases::{Bound, Case, Kind};
use crate::memory::Placement;
use crate::second::meaning::holds_mark;
use crate::second::refusals::{LONGEST_LINE, LONGEST_RING};
use crate::second::samples::bound;
use outlines::raw::Answer;
use outlines::Refusal;
use std::collections::BTreeMap;

/// Differences that are printed in full; further ones are only counted.
const TOLD: usize = 20;

/// The refusals that the report program gives.
const OF_PROGRAM: [u32; 7] = [11, 1, 12, 2, 5, 6, 7];

/// How often each refusal came back, 0 for accepted.
type Answers = BTreeMap<u32, u64>;

/// Sums over the library's answers, and over the ties and marks that the second program meets; they show that the cases have
/// something to compare.
#[derive(Clone, Copy)]
enum Sum {
    Behind,
    Before,
    Null,
    Found,
    Hidden,
    Tied,
    TiedApart,
    AtBound,
    Longest,
    LongestMarked,
    Marked,
    MarkedFound,
    Left,
    LeftAfterBreaks,
    LeftAtFirst,
    Passed,
}

/// A name for each sum. A run with every kind of case fails if one of them is 0.
const SUMS: [&str; 16] = [
    "calls with a guard page behind",
    "calls with a guard page before",
    "calls with null pointers",
    "findings",
    "hidden findings",
    "ties",
    "ties at a distance",
    "scans at the look bound",
    "the longest ring in the longest line",
    "the same with marks",
    "lines with marks",
    "findings in lines with marks",
    "windows left at a mark",
    "windows left at a mark after k breaks",
    "windows left at a mark on their first edge",
    "windows with marks that a survey passes",
];

/// What was compared of a kind: cases, the library's calls and the program's runs in them, and the cases that differ.
#[derive(Clone, Copy, Default)]
struct Counts {
    cases: u64,
    calls: u64,
    runs: u64,
    differing: u64,
}

impl Counts {
    fn and(self, other: Counts) -> Counts {
        Counts {
            cases: self.cases + other.cases,
            calls: self.calls + other.calls,
            runs: self.runs + other.runs,
            differing: self.differing + other.differing,
        }
    }

    fn print(&self, name: &str) {
        let Counts { cases, calls, runs, differing } = self;
        println!("{name:<52} {cases:>8} {calls:>8} {runs:>8} {differing:>8}");
    }
}

#[derive(Default)]
pub struct Ledger {
    /// For each kind, by its place.
    kinds: BTreeMap<usize, Counts>,
    sums: [u64; SUMS.len()],
    closed: Closed,
    books: Books,
    two_ways: TwoWays,
    imports: Imports,
    answers: Answers,
    outputs: Answers,
    told: Vec<String>,
}

pub(super) fn at_bound(call: &Call, answer: &Answer) -> bool {
    let (Call::Scan(search) | Call::Report { search, .. }) = call else { return false };
    let (m, whole) = (search.ring.len() as u64, search.whole() as u64);
    answer.refusal == 0 && whole >= m && answer.looks == bound(m, whole)
}

/// The longest ring in the longest line.
fn longest(call: &Call) -> bool {
    call.search().is_some_and(|search| search.ring.len() == LONGEST_RING && search.line.len() == LONGEST_LINE)
}

impl Ledger {
    fn add(&mut self, sum: Sum, more: u64) {
        self.sums[sum as usize] += more;
    }

    fn add_answer(&mut self, placement: Placement, refusal: u32) {
        *self.answers.entry(refusal).or_default() += 1;
        self.add(Sum::Behind, u64::from(placement == Placement::Behind));
        self.add(Sum::Before, u64::from(placement == Placement::Before));
        self.add(Sum::Null, u64::from(placement == Placement::Null));
    }

    pub fn add_two_way(&mut self, search: &Search, placement: Placement, compared: &two_way::Compared) {
        self.add_answer(placement, compared.given.answer.refusal);
        self.two_ways.add_call(search, compared);
    }

    pub fn add_bound(&mut self, bound: &Bound, compared: &[Compared; 2]) {
        self.imports.add_bound(bound, compared);
    }

    pub fn add_chain(&mut self, chain: &Chain, compared: &two_way::Compared) {
        self.imports.add_chain(chain, compared);
    }

    pub fn add_call(&mut self, call: &Call, placement: Placement, compared: &Compared) {
        let answer = &compared.given.answer;
        self.add_answer(placement, answer.refusal);
        self.add(Sum::AtBound, u64::from(at_bound(call, answer)));
        self.add(Sum::Longest, u64::from(longest(call) && answer.refusal == 0));
        self.closed.add_call(call, compared);
        self.books.add_call(call, compared);
        self.imports.add_call(call, compared);
        if let Some(search) = call.search() {
            self.add(Sum::Found, answer.found);
            self.add(Sum::Hidden, answer.hidden);
            let [tied, apart] = compared.tied(call);
            self.add(Sum::Tied, tied);
            self.add(Sum::TiedApart, apart);
            if answer.refusal == 0 && holds_mark(&search.line) {
                self.add_marked(call, compared);
            }
        }
    }

    /// An accepted search of a line with marks.
    fn add_marked(&mut self, call: &Call, compared: &Compared) {
        self.add(Sum::Marked, 1);
        self.add(Sum::MarkedFound, compared.given.answer.found);
        self.add(Sum::LongestMarked, u64::from(longest(call)));
        self.add(Sum::Left, compared.marks.left);
        self.add(Sum::LeftAfterBreaks, compared.marks.after_breaks);
        self.add(Sum::LeftAtFirst, compared.marks.at_first);
        self.add(Sum::Passed, compared.marks.passed);
    }

    pub fn add_trip(&mut self, trip: Trip) {
        self.books.add_trip(trip);
    }

    pub fn add_output(&mut self, text: &[u8]) {
        let text = String::from_utf8_lossy(text);
        let number = text.strip_prefix("refused ").and_then(|rest| rest.split(' ').next()?.parse().ok());
        *self.outputs.entry(number.unwrap_or(0)).or_default() += 1;
    }

    pub fn judge(&mut self, kind: usize, case: &Case, difference: Option<String>) {
        let (calls, runs) = case.calls_and_runs();
        let judged = Counts { cases: 1, calls, runs, differing: u64::from(difference.is_some()) };
        self.join_kind(kind, judged);
        self.told.extend(difference.filter(|_| self.told.len() < TOLD));
    }

    fn join_kind(&mut self, kind: usize, more: Counts) {
        let counts = self.kinds.entry(kind).or_default();
        *counts = counts.and(more);
    }

    pub fn join(&mut self, other: Ledger) {
        other.kinds.into_iter().for_each(|(kind, counts)| self.join_kind(kind, counts));
        self.sums.iter_mut().zip(other.sums).for_each(|(sum, more)| *sum += more);
        self.closed.join(other.closed);
        self.books.join(other.books);
        self.two_ways.join(other.two_ways);
        self.imports.join(other.imports);
        for (mine, others) in [(&mut self.answers, other.answers), (&mut self.outputs, other.outputs)] {
            others.into_iter().for_each(|(number, count)| *mine.entry(number).or_default() += count);
        }
        self.told.extend(other.told);
        self.told.truncate(TOLD);
    }

    fn total(&self) -> Counts {
        self.kinds.values().fold(Counts::default(), |sum, &counts| sum.and(counts))
    }

    pub fn compared(&self) -> u64 {
        self.total().cases
    }

    pub fn differing(&self) -> u64 {
        self.total().differing
    }

    pub fn print(&self, kinds: &[&Kind]) {
        println!("{:<52} {:>8} {:>8} {:>8} {:>8}", "compared", "cases", "calls", "runs", "differ");
        for (place, kind) in kinds.iter().enumerate() {
            self.kinds.get(&place).copied().unwrap_or_default().print(kind.name);
        }
        self.total().print("in all");
        self.print_sums();
        for (whose, answers) in [("library", &self.answers), ("program", &self.outputs)] {
            let listed: Vec<String> = answers.iter().map(|(number, count)| format!("{number}: {count}")).collect();
            println!("answers of the {whose} by refusal, 0 accepted: {}", listed.join(", "));
        }
        self.told.iter().for_each(|told| println!("DIFFERENCE {told}"));
        let untold = self.differing() - self.told.len() as u64;
        if untold > 0 {
            println!("and {untold} more differences");
        }
    }

    fn print_sums(&self) {
        let [behind, before, null, found, hidden, tied, apart, at_bound, longest, ..] = self.sums;
        let [.., longest_marked, marked, marked_found, left, after_breaks, at_first, passed] = self.sums;
        println!("calls flush against an inaccessible page, inputs read-only: {behind} behind, {before} before");
        println!("calls with null pointers for empty slices: {null}; all other open sides have canaries");
        println!("findings: {found}, of them hidden: {hidden}; scans that reach the look bound: {at_bound}");
        println!("shown findings that several rotations reach: {tied}, of them at a distance above 0: {apart}");
        println!("accepted calls with 256 edges in a line of 65,536: {longest}, of them with marks: {longest_marked}");
        println!("accepted searches of lines with marks: {marked}; findings in them: {marked_found}");
        println!(
            "windows left at a mark: {left}, of them after k > 0 breaks: {after_breaks}, at j = m > 1: {at_first}"
        );
        println!("windows with a mark that surveys moved through: {passed}");
        self.books.print();
        self.closed.print();
        self.two_ways.print();
        self.imports.print();
    }

    /// What no case led to, hence what was not compared: refusals of the library and of the program, and sums that are 0.
    pub fn missing(&self, with_program: bool) -> Vec<String> {
        let library =
            Refusal::ALL.iter().copied().filter(|&refusal| refusal != Refusal::ProgramInput).map(Refusal::number);
        let library = library.filter(|number| !self.answers.contains_key(number));
        let program = OF_PROGRAM.into_iter().filter(|number| with_program && !self.outputs.contains_key(number));
        let sums = SUMS.iter().zip(self.sums).filter(|(_, sum)| *sum == 0);
        let refusals = library.map(|number| format!("refusal {number}"));
        let of_program = program.map(|number| format!("refusal {number} of the program"));
        let sums = sums.map(|(name, _)| name.to_string());
        let of_calls =
            [self.books.missing(), self.closed.missing(), self.two_ways.missing(), self.imports.missing()].concat();
        refusals.chain(of_program).chain(sums).chain(of_calls).collect()
    }
}
