//! What was compared of the closed calls.

use super::compared::{closed, Compared};
use super::ledger::at_bound;
use crate::cases::call::{join_bytes, Call};
use crate::second::refusals::LONGEST_LINE;
use std::collections::BTreeMap;

/// The refusals that the closed calls give, in their order.
const REFUSALS: [u32; 9] = [1, 12, 2, 3, 4, 10, 5, 6, 7];

/// Sums over the accepted calls, and over the findings and marks that the second program meets at the seam.
#[derive(Clone, Copy)]
enum Sum {
    Opened,
    Longer,
    AtBound,
    LengthOfRing,
    OneMore,
    Found,
    Last,
    Hidden,
    Above,
    Marked,
    MarkedBehind,
    Exact,
    Spare,
    OneEdge,
    NoStart,
}

/// A name for each sum. A run with every kind of case fails if one of them is 0.
const SUMS: [&str; 15] = [
    "closed calls compared with the open call on the longer line",
    "closed calls whose longer line is above 65,536",
    "closed scans at the look bound",
    "closed lines of m edges",
    "closed lines of m + 1 edges",
    "findings across the seam",
    "findings at the last place",
    "hidden findings across the seam",
    "findings across the seam shown above their ceiling",
    "windows with marks across the seam",
    "windows with marks behind the seam alone",
    "join areas of exactly 2·m − 2 bytes",
    "join areas with bytes to spare",
    "empty join areas for m = 1",
    "join areas kept for n < m",
];

#[derive(Default)]
pub struct Closed {
    sums: [u64; SUMS.len()],
    /// How often each refusal came back, 0 for accepted.
    answers: BTreeMap<u32, u64>,
    /// Of these, those of calls with a join area that must keep its bytes.
    kept: BTreeMap<u32, u64>,
}

impl Closed {
    fn add(&mut self, sum: Sum, more: u64) {
        self.sums[sum as usize] += more;
    }

    pub fn add_call(&mut self, call: &Call, compared: &Compared) {
        let Some(search) = closed(call) else { return };
        let (m, n) = (search.ring.len(), search.line.len());
        let bytes = search.join.as_ref().map_or(0, Vec::len);
        let answer = &compared.given.answer;
        *self.answers.entry(answer.refusal).or_default() += 1;
        *self.kept.entry(answer.refusal).or_default() += u64::from(answer.refusal != 0 && bytes > 0);
        if answer.refusal != 0 {
            return;
        }
        let seam = compared.seam;
        for (sum, more) in [
            (Sum::Opened, u64::from(compared.opened.is_some())),
            (Sum::Longer, u64::from(search.whole() > LONGEST_LINE)),
            (Sum::AtBound, u64::from(at_bound(call, answer))),
            (Sum::LengthOfRing, u64::from(n == m)),
            (Sum::OneMore, u64::from(n == m + 1)),
            (Sum::Found, seam.found),
            (Sum::Last, seam.last),
            (Sum::Hidden, seam.hidden),
            (Sum::Above, seam.above),
            (Sum::Marked, seam.marked),
            (Sum::MarkedBehind, seam.marked_behind),
            (Sum::Exact, u64::from(n >= m && m > 1 && bytes == join_bytes(m))),
            (Sum::Spare, u64::from(n >= m && bytes > join_bytes(m))),
            (Sum::OneEdge, u64::from(n >= m && m == 1 && bytes == 0)),
            (Sum::NoStart, u64::from(n < m && bytes > 0)),
        ] {
            self.add(sum, more);
        }
    }

    pub fn join(&mut self, other: Closed) {
        self.sums.iter_mut().zip(other.sums).for_each(|(sum, more)| *sum += more);
        for (mine, others) in [(&mut self.answers, other.answers), (&mut self.kept, other.kept)] {
            others.into_iter().for_each(|(number, count)| *mine.entry(number).or_default() += count);
        }
    }

    pub fn print(&self) {
        let [opened, longer, at_bound, length_of_ring, one_more, found, last, hidden, above, ..] = self.sums;
        let [.., marked, marked_behind, exact, spare, one_edge, no_start] = self.sums;
        println!(
            "closed calls compared with the open call on the longer line: {opened}; with one above 65,536: {longer}"
        );
        println!(
            "closed lines with n = m: {length_of_ring}, n = m + 1: {one_more}; scans at their look bound: {at_bound}"
        );
        println!(
            "findings across the seam: {found}, of them at the last place: {last}, hidden: {hidden}, shown above a ceiling: {above}"
        );
        println!("windows with a mark across the seam: {marked}, of them with marks behind it alone: {marked_behind}");
        println!("join areas of accepted calls: exact {exact}, longer {spare}, empty for m = 1 {one_edge}, kept for n < m {no_start}");
        let listed = |answers: &BTreeMap<u32, u64>| {
            let of = |number: &u32| answers.get(number).copied().unwrap_or(0);
            let all: Vec<String> = REFUSALS.iter().map(|number| format!("{number}: {}", of(number))).collect();
            all.join(", ")
        };
        println!("closed calls by refusal: {}", listed(&self.answers));
        println!("of them with a join area that keeps its bytes: {}", listed(&self.kept));
    }

    /// What no case led to: sums that are 0, refusals that no closed call gave, or none with a join area to keep.
    pub fn missing(&self) -> Vec<String> {
        let sums = SUMS.iter().zip(self.sums).filter(|(_, sum)| *sum == 0).map(|(name, _)| name.to_string());
        let absent = |number: &u32| self.kept.get(number).copied().unwrap_or(0) == 0;
        let refusals = REFUSALS.into_iter().filter(absent).map(|number| format!("refusal {number} of a closed call"));
        sums.chain(refusals).collect()
    }
}
