//! What a row gives to its call: edges, words and books.

use super::table::{number, Row};
use crate::second::book::{Address, Silence, SILENCE_WORDS};

/// "In a ring or a line, letters stand for their codes; `#` begins a list of codes; `*` begins three numbers: the first
/// code, the last code and how many edges there are. The codes then rise by one from the first to the last and begin
/// again at 0."
pub fn edges(text: &str) -> Vec<u8> {
    let numbers = |list: &str| -> Vec<usize> { list.split(' ').map(number).collect() };
    if let Some(list) = text.strip_prefix('#') {
        return numbers(list).into_iter().map(|code| code as u8).collect();
    }
    let Some(rising) = text.strip_prefix('*') else { return text.bytes().collect() };
    let [first, last, count] = numbers(rising)[..] else { panic!("{text}: not three numbers") };
    let next = |&code: &usize| Some(if code < last { code + 1 } else { 0 });
    std::iter::successors(Some(first), next).map(|code| code as u8).take(count).collect()
}

/// The records for which `*` and `-` stand: cell 7, ring number 2 and the starts 0, 1, 2 and so on.
fn records(count: u32, ceiling: impl Fn(u32) -> Option<u16>) -> Vec<Silence> {
    (0..count).map(|start| Silence { cell: 7, ring_number: 2, start, ceiling: ceiling(start) }).collect()
}

fn of_tag_22() -> Vec<Silence> {
    records(1_001, |start| Some(start as u16))
}

fn of_tag_21() -> Vec<Silence> {
    records(1_154, |_| None)
}

/// "In words to pack, `*` stands for 1,001 records of cell 7, ring number 2, the starts 0, 1, 2 and so on, and for each its start
/// as the ceiling."
pub fn words(row: &Row) -> Vec<u32> {
    if row.text("words") == "*" {
        return of_tag_22().iter().flat_map(Silence::words).collect();
    }
    row.numbers("words").into_iter().map(|word| word as u32).collect()
}

/// "In a list of vertices, each vertex is two whole numbers, north before east, with a minus sign if negative; `*` stands for
/// 4,098 vertices, of which vertex i has north i and east i times i, i from 0 on."
pub fn vertices(text: &str) -> Vec<i32> {
    if text == "*" {
        return (0..4_098).flat_map(|i| [i, i * i]).collect();
    }
    let numbers = text.split(' ').filter(|part| !part.is_empty());
    numbers.map(|part| part.parse().expect("a number of 32 bits")).collect()
}

/// How many of the row's words or numbers are passed; all of them if the row does not say it.
pub fn how_many(row: &Row, all: usize) -> usize {
    row.number("how many of them").unwrap_or(all)
}

pub fn address(row: &Row) -> Address {
    let [cell, ring_number, start] = row.numbers("address")[..] else { panic!("an address of three numbers") };
    (cell as u32, ring_number as u16, start as u32)
}

/// Records of four numbers each, or of three without a ceiling.
fn listed(list: &str, each: usize) -> Vec<Silence> {
    let numbers: Vec<usize> = list.split(' ').map(number).collect();
    assert!(numbers.len() % each == 0, "{list}: not {each} numbers a record");
    let record = |numbers: &[usize]| Silence {
        cell: numbers[0] as u32,
        ring_number: numbers[1] as u16,
        start: numbers[2] as u32,
        ceiling: numbers.get(3).map(|&ceiling| ceiling as u16),
    };
    numbers.chunks(each).map(record).collect()
}

/// "In a book, numbers are records of four words each, laid out under tag 22, and `*` stands for the records above; `-` begins
/// records of three words each, laid out under tag 21, and alone it stands for 1,154 records of cell 7, ring number 2 and the
/// starts 0, 1, 2 and so on; `#` begins a list of the book's bytes."
fn layout(text: &str) -> Vec<u8> {
    let records = match (text, text.strip_prefix('-')) {
        ("", _) => Vec::new(),
        ("*", _) => of_tag_22(),
        ("-", _) => of_tag_21(),
        (_, Some(list)) => listed(list, SILENCE_WORDS - 1),
        _ if text.starts_with('#') => return edges(text),
        _ => listed(text, SILENCE_WORDS),
    };
    records.iter().flat_map(Silence::field).collect()
}

/// The first bytes of the layout, as many as the row says, with one of them changed where the row gives a fault. A book that is
/// left out is empty.
pub fn book(row: &Row) -> Vec<u8> {
    let length = row.number("bytes of their layout").unwrap_or(0);
    let mut book = layout(row.text("words"));
    assert!(length <= book.len(), "a book of {length} bytes has more than its layout");
    book.truncate(length);
    if let (Some(offset), Some(byte)) = (row.number("offset of a fault"), row.number("its byte")) {
        book[offset] = byte as u8;
    }
    book
}
