//! The library's calls as contenders. No other file of the benchmark names the library.
use crate::library::{ask, Empty, Request};
use crate::peers::{Answer, Question, Rules};
use outlines::{raw, Search};

pub const OURS: Rules = Rules { scan, survey, report, scan_closed, survey_closed };

/// The join bytes of the longest ring.
const MOST_JOIN: usize = 2 * 256 - 2;

fn answer(given: raw::Answer) -> Answer {
    Answer {
        refusal: given.refusal as usize,
        place: given.place as usize,
        found: given.found as usize,
        hidden: given.hidden as usize,
        looks: given.looks as usize,
    }
}

fn scan(ring: &[u8], line: &[u8], allowance: usize, words: &mut [u32]) -> Answer {
    answer(ask(Request::Scan(Search { ring, line, allowance }, words), Empty::AsLent))
}

fn survey(ring: &[u8], line: &[u8], allowance: usize, words: &mut [u32]) -> Answer {
    answer(ask(Request::Survey(Search { ring, line, allowance }, words), Empty::AsLent))
}

fn scan_closed(ring: &[u8], line: &[u8], allowance: usize, words: &mut [u32]) -> Answer {
    let mut join = [0; MOST_JOIN];
    answer(ask(Request::ScanClosed(Search { ring, line, allowance }, &mut join, words), Empty::AsLent))
}

fn survey_closed(ring: &[u8], line: &[u8], allowance: usize, words: &mut [u32]) -> Answer {
    let mut join = [0; MOST_JOIN];
    answer(ask(Request::SurveyClosed(Search { ring, line, allowance }, &mut join, words), Empty::AsLent))
}

fn report(q: &Question, words: &mut [u32]) -> Answer {
    let search = Search { ring: q.ring, line: q.line, allowance: q.k };
    answer(ask(Request::Report(q.cell, q.ring_number, search, q.book, words), Empty::AsLent))
}
