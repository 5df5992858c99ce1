//! Books: damaged at each byte, cut at each length, up to the longest; and what the report hides by them.

use super::call::{cell_and_ring, Call, Search};
use super::draw::Draw;
use super::marks::strew;
use super::searches::ring_and_line;
use super::silences::{any_ceiling, book_of, ceiling_about, laid_out, rising, silences};
use crate::second::book::{Silence, FIELD, SILENCE_WORDS};
use crate::second::line::Line;
use crate::second::meaning::{findings, holds_mark};

const SMALL_BOOK: usize = 4;
/// The ceilings of small books: of tag 22 alone, of tag 21 alone, and of both.
const SMALL_BOOKS: [[Option<u16>; SMALL_BOOK]; 5] = [
    [Some(0), Some(1), Some(255), Some(256)],
    [None; SMALL_BOOK],
    [None, Some(1), None, Some(0)],
    [Some(65_535), None, None, Some(2)],
    [Some(1), Some(0), None, None],
];
/// The bytes of the longest of them. The others have some of their places more than once.
const SMALL_BYTES: u64 = (SMALL_BOOK * FIELD) as u64;
const VALUES: u64 = 10;

/// Each of a few small books, each byte changed to several values, unpacked and reported.
pub const DAMAGED: u64 = 2 * SMALL_BYTES * VALUES * SMALL_BOOKS.len() as u64;
/// Each of them cut at each length.
pub const CUT: u64 = 2 * (SMALL_BYTES + 1) * SMALL_BOOKS.len() as u64;

/// Small books of which records differ by cell, by ring number, by start, or by all.
fn small_book(number: u64) -> Vec<u8> {
    let record = |step: usize| {
        let (ceiling, step) = (SMALL_BOOKS[number as usize][step], step as u32);
        let (cell, ring_number, start) = match number {
            0 => (7, 2, step),
            1 => (7, step, 1),
            2 => (step, 2, 3 - step),
            3 => (step << 24, 0xFFFF, 0xFFFF_FFFF - step),
            _ => (6 + step / 2, 2 + step % 2 * 256, 256 * step),
        };
        Silence { cell, ring_number: ring_number as u16, start, ceiling }
    };
    book_of((0..SMALL_BOOK).map(record).collect())
}

/// A report in which every start from 0 to 4 is a finding, 1 and 2 at distance 1, or the unpacking of the same book.
pub fn read_both_ways(index: u64, book: Vec<u8>) -> Call {
    if index % 2 == 0 {
        return Call::Unpack { room: SILENCE_WORDS * SMALL_BOOK, book };
    }
    Call::Report { cell: 7, ring_number: 2, search: Search::new(vec![1; 2], vec![1, 1, 9, 1, 1, 1], 1), book }
}

pub fn damaged(index: u64, draw: &mut Draw) -> Call {
    let mut number = index / 2;
    let place = (number % SMALL_BYTES) as usize;
    number /= SMALL_BYTES;
    let mut book = small_book(number / VALUES);
    let place = place % book.len();
    let before = book[place];
    let any = draw.below(256) as u8;
    let values = [0, 1, 0x0A, 0x0C, 0x21, 0x22, 0xFF, before.wrapping_add(1), before.wrapping_sub(1), any];
    book[place] = values[(number % VALUES) as usize];
    read_both_ways(index, book)
}

pub fn cut(index: u64, _: &mut Draw) -> Call {
    let number = index / 2;
    let mut book = small_book(number / (SMALL_BYTES + 1));
    book.truncate((number % (SMALL_BYTES + 1)) as usize);
    read_both_ways(index, book)
}

/// A book of `old` records of tag 21 and `new` ones of tag 22, the tags in any order.
pub fn mixed_book(draw: &mut Draw, old: usize, new: usize) -> Vec<u8> {
    let count = old + new;
    let mut records: Vec<Silence> = Vec::new();
    while records.len() < count {
        records.extend(silences(draw, 7, 2, 4_000, 2 * count));
        records = rising(records);
    }
    while records.len() > count {
        records.remove(draw.below(records.len()));
    }
    records.iter_mut().for_each(|record| record.ceiling = Some(record.ceiling()));
    draw.places(count, old).into_iter().for_each(|place| records[place].ceiling = None);
    laid_out(&records)
}

/// Records of tag 21 and of tag 22: few, and about the longest book. The last three books have both tags and 14,999, 15,000 and
/// 15,001 bytes.
const WHOLE: [(usize, usize); 14] = [
    (0, 0),
    (1, 0),
    (0, 1),
    (1, 1),
    (500, 300),
    (0, 999),
    (0, 1_000),
    (0, 1_001),
    (1_152, 0),
    (1_153, 0),
    (1_154, 0),
    (8, 993),
    (15, 987),
    (7, 994),
];

/// Whole books up to the longest and beyond, the room exact or near it.
pub fn whole(index: u64, draw: &mut Draw) -> Call {
    let few = (draw.below(40), draw.below(40));
    let (old, new) = WHOLE.get((index / 2) as usize % 20).copied().unwrap_or(few);
    let book = mixed_book(draw, old, new);
    if index % 2 == 1 {
        let n = draw.between(2, 400);
        // Two edges in three are those of the ring, so that there are findings at distance 0 and 1, and windows at 2.
        let search = Search::new(vec![3; 2], draw.edges(&[3, 3, 9], n), 1);
        return Call::Report { cell: 7, ring_number: 2, search, book };
    }
    let needed = SILENCE_WORDS * (old + new);
    let room = draw.one(&[needed, needed, needed + 1, needed + 40, needed.saturating_sub(1), 0]);
    Call::Unpack { book, room }
}

/// Books that name findings and starts that are none, for this cell and ring and for others, and zeros. Their ceilings lie on
/// either side of the distance.
pub fn hiding(_: u64, draw: &mut Draw) -> Call {
    let m = draw.between(1, 8);
    let n = m + draw.below(60);
    let (ring, line) = ring_and_line(draw, &[2], m, n);
    let allowance = draw.allowance(m);
    let (cell, ring_number) = cell_and_ring(draw);
    let mut named = Vec::new();
    for finding in findings(&ring, Line::open(&line), allowance) {
        let start = finding.start as u32;
        let (no_cell, no_ring) = (cell ^ 1 << draw.below(32), ring_number ^ 1 << draw.below(16));
        let ceiling = ceiling_about(draw, finding.distance);
        match draw.below(6) {
            0 | 1 => named.push(Silence { cell, ring_number, start, ceiling }),
            2 => named.push(Silence { cell: no_cell, ring_number, start, ceiling }),
            3 => named.push(Silence { cell, ring_number: no_ring, start, ceiling }),
            4 => named.push(Silence { cell: 0, ring_number: 0, start: 0, ceiling }),
            _ => {}
        }
    }
    let strays = draw.below(6);
    named.extend(silences(draw, cell, ring_number, n + 5, strays));
    let search = Search::new(ring, line, allowance);
    Call::Report { cell, ring_number, search, book: book_of(named) }
}

/// Books that name three in four of the windows with a mark, and one in four of the others. Only the latter can be findings.
pub fn hiding_nothing(_: u64, draw: &mut Draw) -> Call {
    let m = draw.between(1, 8);
    let n = m + draw.below(60);
    let (ring, mut line) = ring_and_line(draw, &[1, 2], m, n);
    strew(draw, &mut line, m);
    let (cell, ring_number) = cell_and_ring(draw);
    let mut named = Vec::new();
    for (start, window) in line.windows(m).enumerate() {
        if draw.chance(4) != holds_mark(window) {
            named.push(Silence { cell, ring_number, start: start as u32, ceiling: any_ceiling(draw) });
        }
    }
    let book = book_of(named);
    let allowance = draw.allowance(m);
    Call::Report { cell, ring_number, search: Search::new(ring, line, allowance), book }
}
