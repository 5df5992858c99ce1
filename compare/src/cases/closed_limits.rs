//! Limits of the closed calls: lengths, room and join area; the longest lines; long rings and lines.

use super::call::{closed_room, join_bytes, Call, Search};
use super::closed::{closed, crossing, in_turn_naming, join_area, plant};
use super::draw::{Draw, CODES};
use super::long;
use super::marks::put;
use super::searches::{repeated, ring_and_line};
use super::silences::{any_ceiling, book_of, ceiling_about};
use crate::second::book::{self, Silence};
use crate::second::refusals::{LONGEST_LINE, LONGEST_RING};

const RINGS: [usize; 6] = [1, 2, 3, 255, 256, 257];
const LINES: usize = 6;
pub const LIMITS: u64 = 3 * (RINGS.len() * LINES * 3 * 3) as u64;

/// m up to 257, n about m, 65,536 and 65,537, the room and the join area exact and one to either side. One edge code throughout:
/// every place is a finding. Where that takes the second program long, the line has 700 edges; `longest` has the longest.
pub fn limits(index: u64, draw: &mut Draw) -> Call {
    let mut number = (index / 3) as usize;
    let mut digit = |base: usize| {
        let digit = number % base;
        number /= base;
        digit
    };
    let (ring, line, room, join) = (digit(RINGS.len()), digit(LINES), digit(3), digit(3));
    let m = RINGS[ring];
    let mut n = [m - 1, m, m + 1, 2 * m, LONGEST_LINE, LONGEST_LINE + 1][line];
    if m > 3 && n <= LONGEST_LINE && room > 0 && join > 0 {
        n = n.min(700);
    }
    let length = (join_bytes(m) + join).saturating_sub(1);
    let area = join_area(draw, &[7], length);
    let mut search = Search::new(vec![7; m], vec![7; n], m - 1).closed(area);
    search.room = (search.room + room).saturating_sub(1);
    in_turn_naming(index, draw, search, &[0, n.saturating_sub(1), n])
}

/// Survey, scan and report of one closed search.
fn three(search: Search, (cell, ring_number): (u32, u16), book: Vec<u8>) -> [Call; 3] {
    [Call::Survey(search.clone()), Call::Scan(search.clone()), Call::Report { cell, ring_number, search, book }]
}

pub const LONGEST: u64 = 6;

/// The longest lines, which with the first m − 1 edges behind them are longer than 65,536: of one code, of the ring over and
/// over, and drawn. Each has a copy across the seam, half on either side or with its first edge alone before it. In the second
/// case a mark stands shortly before that copy, where other windows across the seam have it.
pub fn longest(index: u64, draw: &mut Draw) -> [Call; 3] {
    let m = [LONGEST_RING, 2, LONGEST_RING - 1, LONGEST_RING, 64, LONGEST_RING][index as usize];
    let n = LONGEST_LINE;
    let letters = [1, 2, 4, 26, 4, CODES][index as usize];
    let codes = draw.alphabet(letters);
    let ring = draw.edges(&codes, m);
    let mut line = if index % 3 == 1 { repeated(&ring, draw.below(m), n) } else { draw.edges(&codes, n) };
    let allowance = draw.below(4).min(m - 1);
    let starts = [1_000, if index % 2 == 0 { n - m / 2 } else { n - 1 }];
    for start in starts {
        plant(draw, &ring, &mut line, start, allowance);
    }
    if index % 2 == 1 {
        put(&mut line, [n - m / 4 - 2, 40_000]);
    }
    let search = Search::new(ring, line, allowance).closed(join_area(draw, &codes, join_bytes(m)));
    let silence = |start: usize| Silence {
        cell: 7,
        ring_number: 2,
        start: start as u32,
        ceiling: ceiling_about(draw, allowance),
    };
    let book = book_of(starts.map(silence).to_vec());
    three(search, (7, 2), book)
}

/// The long searches of open mode, each line closed and with a copy across its seam, which the book may hide.
pub fn long(index: u64, draw: &mut Draw) -> [Call; 3] {
    let [.., Call::Report { cell, ring_number, mut search, book }] = long::long(index, draw) else {
        unreachable!("the third call is a report")
    };
    let (m, n) = (search.ring.len(), search.line.len());
    let mut named = book::read(&book).expect("a whole book");
    if n >= m {
        let (start, edits) = (crossing(draw, m, n), draw.below(search.allowance + 2));
        plant(draw, &search.ring, &mut search.line, start, edits);
        if draw.chance(2) {
            named.push(Silence { cell, ring_number, start: start as u32, ceiling: any_ceiling(draw) });
        }
    }
    let search = closed(draw, search);
    three(search, (cell, ring_number), book_of(named))
}

/// Room for findings about what the open line requires, which is too little for m > 1, and about what the closed one requires.
pub fn rooms(index: u64, draw: &mut Draw) -> Call {
    let m = draw.between(2, 20);
    let n = m + draw.below(30);
    let (ring, line) = ring_and_line(draw, &[1, 2], m, n);
    let allowance = draw.allowance(m);
    let open = Search::new(ring, line, allowance);
    let (least, most) = (open.room, closed_room(m, n));
    let mut search = closed(draw, open);
    let between = draw.between(least, most);
    search.room = draw.one(&[least, least, least - 1, most - 1, most - 4, most, between]);
    in_turn_naming(index, draw, search, &[n - 1])
}
