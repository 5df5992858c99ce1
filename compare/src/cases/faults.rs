//! Every refusal alone and every two at once, for each call.

use super::call::{cell_and_ring, room, Call, Search};
use super::draw::Draw;
use super::marks::mark_ring;
use super::searches::ring_and_line;
use super::silences::{rising, rising_words, silences};
use crate::second::book::{self, Silence, FIELD, OLD_FIELD, SILENCE_WORDS};
use crate::second::meaning::FINDING_WORDS;

const OF_SEARCH: [u32; 5] = [1, 12, 2, 3, 4];
pub const OF_BOOK: [u32; 3] = [5, 6, 7];
const OF_REPORT: [u32; 8] = [1, 12, 2, 3, 4, 5, 6, 7];
const OF_UNPACK: [u32; 4] = [5, 6, 7, 10];
const OF_PACK: [u32; 4] = [8, 9, 7, 10];

/// The pair that an index stands for; both the same means one refusal alone.
pub fn pair(numbers: &[u32], index: u64) -> [u32; 2] {
    let count = numbers.len() as u64;
    [numbers[(index % count) as usize], numbers[(index / count % count) as usize]]
}

pub fn faulty_search(draw: &mut Draw, faults: [u32; 2]) -> Search {
    let m = if faults.contains(&1) { draw.one(&[0, 257, 258, 300, 1_000]) } else { draw.between(1, 20) };
    let near = draw.below(60);
    let n = if faults.contains(&3) { draw.one(&[65_537, 65_538, 70_000]) } else { m + near };
    let (mut ring, line) = ring_and_line(draw, &[3], m, n);
    if faults.contains(&12) {
        mark_ring(draw, &mut ring);
    }
    let mut search = Search::new(ring, line, 0);
    if m > 0 {
        search.allowance = draw.allowance(m);
    }
    if faults.contains(&2) {
        search.allowance = draw.one(&[m, m + 1, m + 256, usize::MAX]);
    }
    if faults.contains(&4) {
        let needed = room(m, n);
        let (few, starts) = (draw.between(2, FINDING_WORDS), needed / FINDING_WORDS);
        // A word less for each start is the room for every finding without its ties.
        search.room = draw.one(&[needed - 1, needed - few, needed - starts, needed / 2, 0]);
    }
    search
}

/// A field that is neither 13 bytes beginning 21 00 0A nor 15 bytes beginning 22 00 0C.
fn spoil_field(draw: &mut Draw, fields: &mut Vec<Vec<u8>>) {
    let at = draw.below(fields.len());
    let field = &mut fields[at];
    let length = field.len();
    match draw.below(7) {
        0 => field[0] ^= 1 << draw.below(8),
        1 => field[1] = draw.between(1, 255) as u8,
        2 => field[2] = draw.one(&[0, 9, 11, 13, 10 + 13, 255]),
        // The other tag with this tag's length, and this tag with the other's.
        3 => field[0] ^= 0x21 ^ 0x22,
        4 => field[2] ^= 10 ^ 12,
        5 => {
            field.truncate(draw.between(1, length - 1));
            fields.truncate(at + 1);
        }
        _ => drop(field.remove(draw.below(length))),
    }
}

/// Two neighbours that do not rise: the wrong way round, or at one address, equal or of another tag or ceiling.
fn spoil_order(draw: &mut Draw, records: &mut [Silence]) {
    let later = draw.between(1, records.len() - 1);
    let before = records[later - 1];
    let ceiling = before.ceiling();
    let (higher, lower) = (ceiling.saturating_add(1), ceiling.saturating_sub(1));
    let other = draw.one(&[before.ceiling, None, Some(ceiling), Some(higher), Some(lower), Some(65_535)]);
    if draw.chance(3) {
        records.swap(later - 1, later);
    } else {
        records[later] = Silence { ceiling: other, ..before };
    }
}

/// A book of several records with the faults 5, 6 and 7 among those named.
pub fn faulty_book(draw: &mut Draw, faults: [u32; 2], cell: u32, ring_number: u16) -> Vec<u8> {
    let count = if faults.contains(&5) { 1_300 } else { draw.between(8, 20) };
    let mut records = rising(silences(draw, cell, ring_number, 100_000, count));
    if faults.contains(&7) {
        spoil_order(draw, &mut records);
    }
    let mut fields: Vec<Vec<u8>> = records.iter().map(Silence::field).collect();
    if faults.contains(&6) {
        spoil_field(draw, &mut fields);
    }
    let mut book = fields.concat();
    if faults.contains(&5) {
        book.resize(draw.one(&[15_001, 15_002, 15_012, 15_013, 15_015, 15_030]), 0);
    }
    book
}

pub fn of_search(index: u64, draw: &mut Draw) -> Call {
    let search = faulty_search(draw, pair(&OF_SEARCH, index / 2));
    if index % 2 == 0 {
        Call::Survey(search)
    } else {
        Call::Scan(search)
    }
}

pub fn of_report(index: u64, draw: &mut Draw) -> Call {
    let faults = pair(&OF_REPORT, index);
    let search = faulty_search(draw, faults);
    let (cell, ring_number) = cell_and_ring(draw);
    let book = faulty_book(draw, faults, cell, ring_number);
    Call::Report { cell, ring_number, search, book }
}

/// With a line shorter than the ring the book is read all the same.
pub fn of_report_without_start(index: u64, draw: &mut Draw) -> Call {
    let faults = pair(&OF_BOOK, index);
    let m = draw.between(2, 256);
    let n = draw.below(m);
    let search = Search::new(vec![1; m], vec![1; n], draw.below(m));
    Call::Report { cell: 7, ring_number: 2, search, book: faulty_book(draw, faults, 7, 2) }
}

pub fn of_unpack(index: u64, draw: &mut Draw) -> Call {
    let faults = pair(&OF_UNPACK, index);
    let book = faulty_book(draw, faults, 7, 2);
    let records = book::read(&book).map_or(book.len().div_ceil(OLD_FIELD), |records| records.len());
    let needed = SILENCE_WORDS * records;
    let one_short = needed - SILENCE_WORDS;
    let room = if faults.contains(&10) { draw.one(&[needed - 1, one_short, 2, 0]) } else { needed };
    Call::Unpack { book, room }
}

/// Changes words that rise so that one record is not above the one before it: it has the same address or a lower start, and
/// any ceiling.
fn spoil_word_order(draw: &mut Draw, words: &mut [u32]) {
    let later = SILENCE_WORDS * draw.below(words.len() / SILENCE_WORDS);
    if later == 0 {
        return;
    }
    words.copy_within(later - SILENCE_WORDS..later, later);
    words[later + 2] -= draw.below(2).min(words[later + 2] as usize) as u32;
    let ceiling = words[later + 3];
    words[later + 3] = draw.one(&[ceiling, ceiling + 1, ceiling.saturating_sub(1), 0, 65_535]).min(65_535);
}

pub fn of_pack(index: u64, draw: &mut Draw) -> Call {
    let faults = pair(&OF_PACK, index);
    let count = draw.between(5, 12);
    let mut words = rising_words(silences(draw, 7, 2, 100_000, count));
    let records = words.len() / SILENCE_WORDS;
    if faults.contains(&7) {
        spoil_word_order(draw, &mut words);
    }
    if faults.contains(&9) {
        // The ring number, the ceiling, or both.
        let record = SILENCE_WORDS * draw.below(records);
        for &place in draw.one(&[&[1][..], &[3], &[1, 3]]) {
            words[record + place] = draw.one(&[65_536, 65_537, 65_538, 131_072 + 2, u32::MAX]);
        }
    }
    let needed = FIELD * records;
    if faults.contains(&8) {
        let length = words.len();
        words.resize(draw.one(&[length - 1, length - 2, length - 3, length + 1, 4_001, 4_004, 5_000]), 5);
    }
    let room = if faults.contains(&10) { draw.one(&[needed - 1, needed - FIELD, 14, 0]) } else { FIELD * words.len() };
    Call::Pack { words, room }
}
