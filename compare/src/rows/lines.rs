//! The line of a row: the answer's numbers with their names, then what the call wrote.

use super::given::{address, book, edges, how_many, words};
use super::table::Row;
use super::{two_way, vertices};
use crate::second::book::{read, Address, Silence, SILENCE_WORDS};
use crate::second::calls::{pack, unpack, Answered, Outcome, Search};
use crate::second::meaning::FINDING_WORDS;
use crate::second::program::output;

/// The most bytes or words that are shown one by one; for more a checksum is shown.
pub const MOST_SHOWN: usize = 26;

/// "If a room is left out, it is more than any call requires." So is the join area of a closed call.
pub fn room(row: &Row) -> usize {
    row.number("room").unwrap_or(usize::MAX)
}

fn join(row: &Row) -> usize {
    row.number("join").unwrap_or(usize::MAX)
}

/// A byte or a word that a call wrote.
pub trait Written {
    fn shown(&self) -> String;
    /// What the checksum is taken of: a byte counts as the word of four such bytes.
    fn as_word(&self) -> u32;
}

impl Written for u8 {
    fn shown(&self) -> String {
        format!("{self:02x}")
    }

    fn as_word(&self) -> u32 {
        u32::from_ne_bytes([*self; 4])
    }
}

impl Written for u32 {
    fn shown(&self) -> String {
        self.to_string()
    }

    fn as_word(&self) -> u32 {
        *self
    }
}

/// Those that belong together, with commas between them.
fn group<T: Written>(together: &[T]) -> String {
    let shown: Vec<String> = together.iter().map(T::shown).collect();
    format!(" {}", shown.join(","))
}

/// Word by word: 31 times the checksum so far, plus the word, mod 1,000,003.
pub fn checksum(words: &[u32]) -> u64 {
    words.iter().fold(0, |sum, &word| (31 * sum + u64::from(word)) % 1_000_003)
}

/// What was written, in groups of `each`, behind the word for it; the second program writes nothing behind it.
pub fn end<T: Written>(word: &str, written: &[T], each: usize) -> String {
    let shown = if written.len() <= MOST_SHOWN {
        written.chunks(each).map(group).collect()
    } else {
        let words: Vec<u32> = written.iter().map(T::as_word).collect();
        format!(" checksum {}", checksum(&words))
    };
    format!(" {word} {}{shown} behind kept", written.len())
}

/// The number, the place, the counts that this call returns, and what it wrote, in groups of `each`.
pub fn line<T: Written + Default>(outcome: Outcome<T>, each: usize, counts: fn(&Answered<T>) -> String) -> String {
    let (number, place) = outcome.as_ref().err().map_or((0, 0), |refused| (refused.number, refused.place));
    let answered = outcome.unwrap_or_default();
    format!(" number {number} place {place}{}{}", counts(&answered), end("written", &answered.written, each))
}

fn records<T>(answered: &Answered<T>) -> String {
    format!(" records {}", answered.found)
}

fn found_and_looks<T>(answered: &Answered<T>) -> String {
    format!(" found {} looks {}", answered.found, answered.looks)
}

fn found_hidden_looks<T>(answered: &Answered<T>) -> String {
    format!(" found {} hidden {} looks {}", answered.found, answered.hidden, answered.looks)
}

fn packed(row: &Row) -> String {
    let words = words(row);
    line(pack(&words[..how_many(row, words.len())], room(row)), 1, records)
}

/// Reading is lent no room, so nothing is written.
fn has_read(row: &Row) -> String {
    let records_of = |records: Vec<Silence>| Answered::<u32> { found: records.len(), ..Answered::default() };
    line(read(&book(row)).map(records_of), SILENCE_WORDS, records)
}

/// The first field at or behind the offset that is not below the address, and the offset behind it. Document 01 has no such
/// call: the report uses it to search the book.
fn sought(book: &[u8], from: usize, address: Address) -> Option<(Silence, usize)> {
    let (found, length) = Silence::first_of(book.get(from..)?)?;
    if found.address() < address {
        return sought(book, from + length, address);
    }
    Some((found, from + length))
}

fn seek(row: &Row) -> String {
    let from = row.number("from").expect("a seek has an offset");
    let found = match sought(&book(row), from, address(row)) {
        None => "nothing".to_string(),
        Some((silence, next)) => {
            let [cell, ring_number, start, ceiling] = silence.words();
            format!("cell {cell} ring number {ring_number} start {start} ceiling {ceiling} next {next}")
        }
    };
    format!(" from {from} {found}")
}

/// The counts of a search and what it wrote; a closed call's line goes on with the bytes of the join area.
fn found(outcome: Outcome<u32>, counts: fn(&Answered<u32>) -> String, closed: bool) -> String {
    let joined = outcome.as_ref().map_or(Vec::new(), |answered| answered.joined.clone());
    let text = line(outcome, FINDING_WORDS, counts);
    if closed {
        text + &end("joined", &joined, 1)
    } else {
        text
    }
}

fn searched(call: &str, row: &Row) -> String {
    let (ring, line_edges) = (edges(row.text("ring")), edges(row.text("line")));
    let (k, room) = (row.number("k").expect("a search has an allowance"), room(row));
    let open = call.trim_end_matches("_closed");
    let closed = open != call;
    let search = if closed {
        Search::closed(&ring, &line_edges, k, room, join(row))
    } else {
        Search::new(&ring, &line_edges, k, room)
    };
    match open {
        "scan" => found(search.scan(), found_and_looks, closed),
        "survey" => found(search.survey(), found_and_looks, closed),
        _ => {
            let cell = row.number("cell").unwrap_or(0) as u32;
            let ring_number = row.number("ring number").unwrap_or(0) as u16;
            found(search.report(cell, ring_number, &book(row)), found_hidden_looks, closed)
        }
    }
}

/// The program's whole text, behind the row's own line. Bytes behind those given are 0.
fn answered(row: &Row) -> String {
    let mut input = edges(row.text("the first bytes"));
    let count = row.number("how many bytes there are").unwrap_or(input.len());
    input.resize(count, 0);
    format!("\n{}", output(&input).trim_end_matches('\n'))
}

/// What stands behind a row's name.
pub fn answer(call: &str, row: &Row) -> String {
    match call {
        "pack" => packed(row),
        "read" => has_read(row),
        "unpack" => line(unpack(&book(row), room(row)), SILENCE_WORDS, records),
        "seek" => seek(row),
        "scan" | "survey" | "report" | "scan_closed" | "survey_closed" | "report_closed" => searched(call, row),
        "answer" => answered(row),
        "scan_two_way" => two_way::scanned(row),
        "reversed_code" => two_way::codes(row),
        "reversed" => two_way::ring(row),
        "import_vertices" => vertices::imported(row),
        "scan_vertices" => vertices::scanned(row),
        _ => panic!("the table names a call {call}"),
    }
}
