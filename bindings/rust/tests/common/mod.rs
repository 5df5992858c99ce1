//! The seven searching calls under one signature, and silences written as words and bytes.

// Each test file is a program of its own and uses its part of this.
#![allow(dead_code)]

use outlines::*;

/// A search, the book (for the reports alone), the join area (for the closed calls alone) and the words.
type Call = fn(Search, &[u8], &mut [u8], &mut [u32]) -> Option<Refused>;

pub struct Searching {
    pub name: &'static str,
    pub call: Call,
    /// The words that it needs.
    pub room: fn(&Search) -> usize,
    /// The bytes of the join area that it needs.
    pub room_join: fn(&Search) -> usize,
    /// The numbers of its refusals, in the order of its documentation.
    pub order: &'static [u32],
}

const fn open(name: &'static str, call: Call, order: &'static [u32]) -> Searching {
    Searching { name, call, room: |search| search.room(), room_join: |_| 0, order }
}

const fn closed(name: &'static str, call: Call, order: &'static [u32]) -> Searching {
    Searching { name, call, room: |search| search.room_closed(), room_join: |search| search.room_join(), order }
}

pub const SEARCHES: [Searching; 7] = [
    open("survey", |search, _, _, words| survey(search, words).err(), &[1, 12, 2, 3, 4]),
    open("scan", |search, _, _, words| scan(search, words).err(), &[1, 12, 2, 3, 4]),
    open("report", |search, book, _, words| report(7, 2, search, book, words).err(), &[1, 12, 2, 3, 4, 5, 6, 7]),
    closed("survey_closed", |search, _, join, words| survey_closed(search, join, words).err(), &[1, 12, 2, 3, 4, 10]),
    closed("scan_closed", |search, _, join, words| scan_closed(search, join, words).err(), &[1, 12, 2, 3, 4, 10]),
    closed(
        "report_closed",
        |search, book, join, words| report_closed(7, 2, search, book, join, words).err(),
        &[1, 12, 2, 3, 4, 10, 5, 6, 7],
    ),
    Searching {
        room: |search| search.room_two_way(),
        ..open("scan_two_way", |search, _, _, words| scan_two_way(search, words).err(), &[1, 12, 2, 14, 3, 4])
    },
];

impl Searching {
    /// Calls it with areas of these lengths. If it is refused, both areas must be as they were.
    pub fn refused_with(&self, search: Search, book: &[u8], join: usize, words: usize) -> Option<Refused> {
        let (mut join, mut words) = (watched(join), watched(words));
        let refused = (self.call)(search, book, &mut join, &mut words);
        if refused.is_some() {
            assert!(kept(&join) && kept(&words), "{} wrote, though it is refused", self.name);
        }
        refused
    }

    /// Calls it with an empty book and exactly the room that it needs.
    pub fn refused(&self, search: Search) -> Option<Refused> {
        self.refused_with(search, &[], (self.room_join)(&search), (self.room)(&search))
    }
}

/// An area whose elements are told apart from their neighbours and from what a call writes there in these tests.
pub fn watched<T: From<u8>>(length: usize) -> Vec<T> {
    (0..length).map(|place| T::from(200 + (place % 47) as u8)).collect()
}

pub fn kept<T: From<u8> + PartialEq>(area: &[T]) -> bool {
    area == watched::<T>(area.len())
}

pub fn refused(refusal: Refusal, place: u32) -> Refused {
    Refused { refusal, place }
}

/// A record of tag 21, which has no ceiling.
pub fn old_field(start: u32) -> Vec<u8> {
    [&[0x21, 0x00, 0x0A, 0, 0, 0, 7, 0, 2], &start.to_be_bytes()[..]].concat()
}

/// A record of tag 22.
pub fn field(start: u32, ceiling: u16) -> Vec<u8> {
    [&[0x22, 0x00, 0x0C, 0, 0, 0, 7, 0, 2], &start.to_be_bytes()[..], &ceiling.to_be_bytes()].concat()
}
