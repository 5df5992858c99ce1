//! One call of the library compared with the second program.

use super::areas::{Areas, Parts};
use super::compared::{Compared, Left, Lent};
use crate::cases::call::{Call, Search};
use crate::library::{ask, Request};
use crate::memory::{bytes_of, Placement};
use crate::second::book::{FIELD, OLD_FIELD, SILENCE_WORDS};
use crate::second::calls::{self, Answered, Outcome};
use crate::second::ceilings::Ceilings;
use crate::second::meaning::{FINDING_WORDS, MARK};
use crate::second::refusals::{self, LONGEST_LINE};
use crate::second::reversed::NO_EDGE;
use crate::second::rules::Marks;
use crate::second::seam::Seam;
use crate::second::vertices;
use outlines::raw::Answer;

// The numbers that the crate `outlines` names to its users are those of the second program.
const _: () = assert!(outlines::FINDING_WORDS == FINDING_WORDS && outlines::SILENCE_WORDS == SILENCE_WORDS);
const _: () = assert!(outlines::MARK == MARK && outlines::MOST_CODE + 1 == NO_EDGE && outlines::SILENCE_BYTES == FIELD);
const _: () = assert!(outlines::MOST_RING == refusals::LONGEST_RING && outlines::MOST_LINE == LONGEST_LINE);
const _: () = assert!(outlines::MOST_BOOK == refusals::LONGEST_BOOK);
const _: () = assert!(outlines::MOST_RECORDS == refusals::LONGEST_BOOK / OLD_FIELD);
const _: () = assert!(outlines::MOST_SILENCES * SILENCE_WORDS == refusals::MOST_WORDS_TO_PACK);
const _: () = assert!(outlines::FEWEST_VERTICES == refusals::FEWEST_VERTICES);
const _: () = assert!(outlines::MOST_VERTICES == refusals::MOST_VERTICES);

fn request<'a>(call: &Call, areas: &'a mut Areas) -> Request<'a> {
    let Areas { ring, line, book, lent, join } = areas;
    let search =
        |search: &Search| outlines::Search { ring: ring.bytes(), line: line.bytes(), allowance: search.allowance };
    match call {
        Call::Survey(given) if given.is_closed() => {
            Request::SurveyClosed(search(given), join.bytes_mut(), lent.words_mut())
        }
        Call::Scan(given) if given.is_closed() => {
            Request::ScanClosed(search(given), join.bytes_mut(), lent.words_mut())
        }
        Call::Report { cell, ring_number, search: given, .. } if given.is_closed() => {
            let (join, words) = (join.bytes_mut(), lent.words_mut());
            Request::ReportClosed(*cell, *ring_number, search(given), book.bytes(), join, words)
        }
        Call::Survey(given) => Request::Survey(search(given), lent.words_mut()),
        Call::Scan(given) => Request::Scan(search(given), lent.words_mut()),
        Call::Report { cell, ring_number, search: given, .. } => {
            Request::Report(*cell, *ring_number, search(given), book.bytes(), lent.words_mut())
        }
        Call::Pack { .. } => Request::Pack(book.words(), lent.bytes_mut()),
        Call::Unpack { .. } => Request::Unpack(book.bytes(), lent.words_mut()),
        Call::Import { .. } => Request::ImportVertices(book.numbers(), lent.bytes_mut()),
    }
}

/// What the call left behind, and the lent areas before it.
pub(super) fn ask_library(call: &Call, placement: Placement, areas: &mut Areas) -> (Left, Lent) {
    areas.call(&Parts::of(call), placement, |areas, empty| ask(request(call, areas), empty))
}

/// The open call on "the line followed by its first m−1 edges" that a closed call must agree with, where the open call accepts
/// that line. For n < m the line stays as it is.
fn opened(call: &Call) -> Option<Call> {
    let closed = call.search().filter(|search| search.is_closed() && search.whole() <= LONGEST_LINE)?;
    let mut search = closed.clone();
    search.line.extend_from_within(..closed.whole() - closed.line.len());
    search.join = None;
    Some(match call {
        Call::Survey(_) => Call::Survey(search),
        Call::Scan(_) => Call::Scan(search),
        Call::Report { cell, ring_number, book, .. } => {
            Call::Report { cell: *cell, ring_number: *ring_number, search, book: book.clone() }
        }
        Call::Pack { .. } | Call::Unpack { .. } | Call::Import { .. } => return None,
    })
}

fn answer_of<T>(outcome: &Outcome<T>) -> Answer {
    match outcome {
        Err(refused) => Answer { refusal: refused.number, place: refused.place as u32, ..Answer::default() },
        Ok(answered) => Answer {
            found: answered.found as u64,
            hidden: answered.hidden as u64,
            looks: answered.looks,
            ..Answer::default()
        },
    }
}

/// The second program's answer, the bytes that it writes at the beginning of the lent area and of the join area, and what it
/// met of marks, at the seam and of ceilings.
#[derive(Default)]
struct Second {
    answer: Answer,
    written: Vec<u8>,
    joined: Vec<u8>,
    marks: Marks,
    seam: Seam,
    ceilings: Ceilings,
}

fn of_outcome<T>(outcome: Outcome<T>, bytes: impl Fn(Vec<T>) -> Vec<u8>) -> Second {
    let answer = answer_of(&outcome);
    let Ok(Answered { written, joined, marks, seam, ceilings, .. }) = outcome else {
        return Second { answer, ..Second::default() };
    };
    Second { answer, written: bytes(written), joined, marks, seam, ceilings }
}

fn of_words(outcome: Outcome<u32>) -> Second {
    of_outcome(outcome, |words| bytes_of(&words))
}

fn search(call: &Call) -> Option<calls::Search<'_>> {
    let Search { ring, line, allowance, room, join } = call.search()?;
    Some(match join {
        Some(join) => calls::Search::closed(ring, line, *allowance, *room, join.len()),
        None => calls::Search::new(ring, line, *allowance, *room),
    })
}

fn ask_second(call: &Call, search: Option<&calls::Search>) -> Second {
    match (call, search) {
        (Call::Survey(_), Some(search)) => of_words(search.survey()),
        (Call::Scan(_), Some(search)) => of_words(search.scan()),
        (Call::Report { cell, ring_number, book, .. }, Some(search)) => {
            of_words(search.report(*cell, *ring_number, book))
        }
        (Call::Pack { words, room }, _) => of_outcome(calls::pack(words, *room), |bytes| bytes),
        (Call::Unpack { book, room }, _) => of_words(calls::unpack(book, *room)),
        (Call::Import { numbers, room }, _) => of_outcome(vertices::import(numbers, *room), |bytes| bytes),
        (_, None) => unreachable!("survey, scan and report have a search"),
    }
}

fn compare_with(search: Option<&calls::Search>, call: &Call, placement: Placement, areas: &mut Areas) -> Compared {
    let (given, before) = ask_library(call, placement, areas);
    let Second { answer, written, joined, marks, seam, ceilings } = ask_second(call, search);
    let mut lent = before.clone();
    lent.words.write(&written);
    lent.join.write(&joined);
    // Only an accepted call is compared with the open one, whose refusals are others.
    let open = if answer.refusal == 0 { opened(call) } else { None };
    let opened = open.map(|open| ask_library(&open, placement, areas).0);
    Compared { expected: Left { answer, lent, inputs_kept: true }, given, before, opened, marks, seam, ceilings }
}

pub fn compare(call: &Call, placement: Placement, areas: &mut Areas) -> Compared {
    compare_with(search(call).as_ref(), call, placement, areas)
}

/// Survey, scan and report of one search, which the second program computes once.
pub fn compare_three(calls: &[Call; 3], placement: Placement, areas: &mut Areas) -> [Compared; 3] {
    let search = search(&calls[0]);
    calls.each_ref().map(|call| compare_with(search.as_ref(), call, placement, areas))
}
