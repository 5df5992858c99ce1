//! Reports with ceilings, worked out by hand. Document 02 prints no sample of ticket 4, so these come from its sentences,
//! apart from this program.

use super::book::Silence;
use super::calls::Search;
use super::meaning::FINDING_WORDS;

/// A silence of cell 7, ring number 2: its start, and its ceiling if it is of tag 22.
type Named = (u32, Option<u16>);
/// Start, rotation, distance, ties.
type Counted = [u32; FINDING_WORDS];

pub const CELL: u32 = 7;
pub const RING_NUMBER: u16 = 2;

pub struct ByHand {
    pub ring: &'static str,
    pub line: &'static str,
    pub allowance: usize,
    pub closed: bool,
    named: &'static [Named],
    shown: &'static [Counted],
    hidden: usize,
}

const fn by_hand(
    (ring, line, allowance): (&'static str, &'static str, usize),
    named: &'static [Named],
    shown: &'static [Counted],
    hidden: usize,
) -> ByHand {
    ByHand { ring, line, allowance, closed: false, named, shown, hidden }
}

const fn closed(row: ByHand) -> ByHand {
    ByHand { closed: true, ..row }
}

const P2: (&str, &str, usize) = ("GGGTCTA", "GATACGATACCTAGGGTGATAGAATAG", 1);
/// Each edge of the ring is another, so that a window of it with some edges changed is at that distance under one rotation.
const ACCEPTED: (&str, &str, usize) = ("abcdefgh", "abzzefgh", 5);
const WORSE: (&str, &str, usize) = ("abcdefgh", "azzzzzgh", 5);
const EXACT: (&str, &str, usize) = ("abcdefgh", "abcdefgh", 5);
/// A closed line of one edge that differs, and of two.
const AROUND: (&str, &str, usize) = ("abcd", "cdzb", 2);
const AROUND_WORSE: (&str, &str, usize) = ("abcd", "cdzz", 2);
const FOUR: &[Named] = &[(0, None), (1, Some(0)), (2, Some(1)), (3, Some(65_535))];

pub const BY_HAND: [ByHand; 16] = [
    // "A reviewer accepts two differing edges; an edit later makes it five."
    by_hand(ACCEPTED, &[(0, Some(2))], &[], 1),
    by_hand(WORSE, &[(0, Some(2))], &[[0, 0, 5, 1]], 0),
    by_hand(WORSE, &[(0, Some(4))], &[[0, 0, 5, 1]], 0),
    by_hand(WORSE, &[(0, Some(5))], &[], 1),
    by_hand(WORSE, &[(0, Some(256))], &[], 1),
    by_hand(WORSE, &[(0, Some(65_535))], &[], 1),
    by_hand(ACCEPTED, &[(0, Some(1))], &[[0, 0, 2, 1]], 0),
    by_hand(ACCEPTED, &[(0, Some(0))], &[[0, 0, 2, 1]], 0),
    // Tag 21 hides exact copies alone, as does the ceiling 0.
    by_hand(ACCEPTED, &[(0, None)], &[[0, 0, 2, 1]], 0),
    by_hand(EXACT, &[(0, None)], &[], 1),
    by_hand(EXACT, &[(0, Some(0))], &[], 1),
    // Both tags in one book: P2 finds (9,3,1) (10,4,0) (11,5,1).
    by_hand(P2, &[(9, None), (10, None), (11, None)], &[[9, 3, 1, 1], [11, 5, 1, 1]], 1),
    by_hand(P2, &[(9, Some(1)), (10, None), (11, Some(0))], &[[11, 5, 1, 1]], 2),
    by_hand(P2, &[(8, Some(9)), (9, None), (10, Some(0)), (11, Some(256))], &[[9, 3, 1, 1]], 2),
    // Every place is a finding at distance 1, and after one more edit at 2; place 1 and those behind it cross the seam.
    closed(by_hand(AROUND, FOUR, &[[0, 2, 1, 1], [1, 3, 1, 1]], 2)),
    closed(by_hand(AROUND_WORSE, FOUR, &[[0, 2, 2, 1], [1, 3, 2, 1], [2, 0, 2, 1]], 1)),
];

impl ByHand {
    pub fn book(&self) -> Vec<u8> {
        let silence = |&(start, ceiling)| Silence { cell: CELL, ring_number: RING_NUMBER, start, ceiling };
        self.named.iter().flat_map(|named| silence(named).field()).collect()
    }

    fn holds(&self) -> bool {
        let (ring, line) = (self.ring.as_bytes(), self.line.as_bytes());
        let room = FINDING_WORDS * line.len();
        let search = if self.closed {
            Search::closed(ring, line, self.allowance, room, 2 * ring.len())
        } else {
            Search::new(ring, line, self.allowance, room)
        };
        let given = search.report(CELL, RING_NUMBER, &self.book()).expect("a row by hand is accepted");
        given.written == self.shown.concat()
            && given.hidden == self.hidden
            && given.found == self.shown.len() + self.hidden
            && search.scan().is_ok_and(|scan| scan.looks == given.looks)
    }
}

/// A silence with its field, byte by byte as ticket 4 lays it down.
const LAID_OUT: [(Silence, &[u8]); 4] = [
    (
        Silence { cell: 7, ring_number: 2, start: 10, ceiling: Some(1) },
        &[0x22, 0, 12, 0, 0, 0, 7, 0, 2, 0, 0, 0, 10, 0, 1],
    ),
    (Silence { cell: 7, ring_number: 2, start: 10, ceiling: None }, &[0x21, 0, 10, 0, 0, 0, 7, 0, 2, 0, 0, 0, 10]),
    (
        Silence { cell: 0x0102_0304, ring_number: 0x0506, start: 0x0708_090A, ceiling: Some(0x0B0C) },
        &[0x22, 0, 12, 1, 2, 3, 4, 5, 6, 7, 8, 9, 10, 11, 12],
    ),
    (
        Silence { cell: u32::MAX, ring_number: u16::MAX, start: u32::MAX, ceiling: Some(u16::MAX) },
        &[0x22, 0, 12, 255, 255, 255, 255, 255, 255, 255, 255, 255, 255, 255, 255],
    ),
];

fn laid_out((silence, bytes): &(Silence, &[u8])) -> bool {
    silence.field() == *bytes && Silence::first_of(bytes) == Some((*silence, bytes.len()))
}

pub const COUNT: usize = BY_HAND.len() + LAID_OUT.len();

/// Whether the second program gives what was worked out by hand.
pub fn holds(index: usize) -> bool {
    match index.checked_sub(BY_HAND.len()) {
        None => BY_HAND[index].holds(),
        Some(field) => laid_out(&LAID_OUT[field]),
    }
}
