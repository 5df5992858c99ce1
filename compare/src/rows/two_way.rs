//! The lines of the two-way scan, of reversed codes and of reversed rings. The last two are functions of the library that its C
//! interface does not have.

use super::given::edges;
use super::lines::{checksum, end, room, MOST_SHOWN};
use super::table::Row;
use crate::second::calls::Answered;
use crate::second::meaning::FINDING_WORDS;
use crate::second::refusals::LONGEST_RING;
use crate::second::reversed::{reversed, reversed_code};
use crate::second::two_way::scan_two_way;

pub fn scanned(row: &Row) -> String {
    scan(&edges(row.text("ring")), &edges(row.text("line")), row)
}

/// The number, the place, found and looks of each pass, and the words of both.
pub fn scan(ring: &[u8], line: &[u8], row: &Row) -> String {
    let k = row.number("k").expect("a search has an allowance");
    let outcome = scan_two_way(ring, line, k, room(row));
    let (number, place) = outcome.as_ref().err().map_or((0, 0), |refused| (refused.number, refused.place));
    let passes = outcome.unwrap_or_default();
    let pass = |name: &str, pass: &Answered<u32>| format!(" {name} {} looks {}", pass.found, pass.looks);
    let (forward, backward) = (pass("forward", &passes.forward), pass("backward", &passes.backward));
    let written = end("written", &passes.written(), FINDING_WORDS);
    format!(" number {number} place {place}{forward}{backward}{written}")
}

/// Each number behind a space.
fn numbers(codes: impl IntoIterator<Item = u8>) -> String {
    codes.into_iter().map(|code| format!(" {code}")).collect()
}

/// What each of the codes is reversed to.
pub fn codes(row: &Row) -> String {
    numbers(edges(row.text("codes")).into_iter().map(reversed_code))
}

/// The reversed ring as it stands in 256 bytes: of a longer ring the first 256 edges, and behind those of a shorter one zeros.
pub fn ring(row: &Row) -> String {
    let mut ring = reversed(&edges(row.text("ring")));
    ring.truncate(LONGEST_RING);
    let edges = ring.len();
    let shown = if edges <= MOST_SHOWN {
        numbers(ring)
    } else {
        let words: Vec<u32> = ring.into_iter().map(u32::from).collect();
        format!(" checksum {}", checksum(&words))
    };
    format!(" edges {edges}{shown} behind zero")
}
