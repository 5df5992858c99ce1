//! Ways to spoil an answer by misreading marks: what a library that takes ticket 2 wrongly would return and write. A way has
//! something to spoil only where that differs from the right answer.

use super::compared::Compared;
use super::misread::{AtMark, Misread};
use super::spoil::{set_word, way, Way};
use crate::cases::call::{Call, Search};
use crate::second::meaning::{holds_mark, Finding, MARK};
use crate::second::refusals::{self, Refused};
use crate::second::rules::{plain_survey, quick_scan, Searched};
use outlines::raw::Answer;
use outlines::Refusal;

pub static OF_MARKS: &[Way] = &[
    way("a mark taken as a break", |call, spoilt| scanned(call, spoilt, AtMark::Break)),
    way("a mark stepped over, the window read on", |call, spoilt| scanned(call, spoilt, AtMark::StepOver)),
    way("the next window on the mark", |call, spoilt| scanned(call, spoilt, AtMark::BeginOnIt)),
    way("a survey that reports windows with marks", surveyed),
    way("a survey that leaves windows with marks out", survey_looks),
    way("refusal 12 after 2", twelve_after_two),
    way("a ring with a mark let through", let_through),
];

/// Puts another answer in the place of the library's, with the words that go with it; returns whether it is another.
pub(super) fn put(spoilt: &mut Compared, searched: Searched) -> bool {
    let right = spoilt.given.clone();
    let Searched { findings, looks, .. } = searched;
    spoilt.given.answer = Answer { found: findings.len() as u64, looks, ..Answer::default() };
    spoilt.given.lent.words = spoilt.before.words.clone();
    let words = findings.iter().flat_map(Finding::words);
    words.enumerate().for_each(|(place, word)| assert!(set_word(spoilt, place, word), "room for every finding"));
    spoilt.given != right
}

fn scanned(call: &Call, spoilt: &mut Compared, at_mark: AtMark) -> bool {
    let Call::Scan(search) = call else { return false };
    spoilt.given.answer.refusal == 0 && put(spoilt, Misread::new(search).scan(at_mark))
}

fn surveyed(call: &Call, spoilt: &mut Compared) -> bool {
    let Call::Survey(search) = call else { return false };
    spoilt.given.answer.refusal == 0 && put(spoilt, Misread::new(search).survey(true))
}

/// A step less for each window with a mark behind the first.
fn survey_looks(call: &Call, spoilt: &mut Compared) -> bool {
    let Call::Survey(search) = call else { return false };
    if spoilt.given.answer.refusal != 0 {
        return false;
    }
    let (m, line) = (search.ring.len(), search.line());
    let marked = (1..line.windows(m)).filter(|&start| holds_mark(&line.window(start, m))).count();
    spoilt.given.answer.looks -= (2 * m * marked) as u64;
    marked > 0
}

/// The search of a call that is refused by 12.
fn refused_by_twelve<'a>(call: &'a Call, spoilt: &Compared) -> Option<&'a Search> {
    call.search().filter(|_| spoilt.given.answer.refusal == Refusal::MarkInRing.number())
}

fn twelve_after_two(call: &Call, spoilt: &mut Compared) -> bool {
    let search = refused_by_twelve(call, spoilt).filter(|search| search.allowance >= search.ring.len());
    if search.is_some() {
        spoilt.given.answer.refusal = Refusal::Allowance.number();
    }
    search.is_some()
}

/// The refusals of this search with another ring.
fn refused(search: &Search, ring: &[u8]) -> Result<(), Refused> {
    let Search { line, allowance, room, join, .. } = search;
    match join {
        Some(join) => refusals::closed_search(ring, line, *allowance, *room, join.len()),
        None => refusals::search(ring, line, *allowance, *room),
    }
}

/// The answer without refusal 12: another refusal, or what survey and scan find.
fn let_through(call: &Call, spoilt: &mut Compared) -> bool {
    let Some(search) = refused_by_twelve(call, spoilt) else { return false };
    let unmarked: Vec<u8> = search.ring.iter().map(|&edge| edge.min(MARK - 1)).collect();
    if let Err(refused) = refused(search, &unmarked) {
        spoilt.given.answer.refusal = refused.number;
        return true;
    }
    match call {
        Call::Survey(_) => put(spoilt, plain_survey(&search.ring, search.line(), search.allowance)),
        Call::Scan(_) => put(spoilt, quick_scan(&search.ring, search.line(), search.allowance)),
        _ => false,
    }
}
