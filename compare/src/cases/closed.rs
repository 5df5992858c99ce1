//! Closed lines: the open cases with their line closed, rows counted by hand, copies across the seam, every small line.

use super::call::{cell_and_ring, join_bytes, Call, Search};
use super::draw::{Draw, CODES};
use super::mark_places::{small_lines, small_rings, small_search};
use super::marks::put;
use super::searches::{repeated, ring_and_line, ABOUT_WORDS};
use super::silences::{any_ceiling, book_of, silences};
use crate::second::book::{self, Silence};
use crate::second::by_hand::{edges, ByHand, BY_HAND};
use crate::second::meaning::MARK;

/// What a join area of this length holds before the call: any bytes; one byte over and over, which may be the mark; or edges of
/// the ring, which would be findings if they were read before they are overwritten.
pub fn join_area(draw: &mut Draw, ring: &[u8], length: usize) -> Vec<u8> {
    match draw.below(4) {
        0 => vec![draw.one(&[0, MARK]); length],
        1 if !ring.is_empty() => repeated(ring, draw.below(ring.len()), length),
        _ => (0..length).map(|_| draw.below(256) as u8).collect(),
    }
}

/// The same search in closed mode. The join area is exact or longer, and for n < m of any length. Now and then there is more
/// room for findings than is required.
pub fn closed(draw: &mut Draw, search: Search) -> Search {
    let (m, n) = (search.ring.len(), search.line.len());
    let needed = join_bytes(m);
    let more = needed + draw.between(1, 40);
    let (any, few) = (draw.below(2 * m + 2), draw.between(1, 9));
    let length = if n < m { draw.one(&[0, needed, any, more]) } else { draw.one(&[needed, needed, needed + 1, more]) };
    let join = join_area(draw, &search.ring, length);
    let mut search = search.closed(join);
    search.room += if draw.chance(3) { few } else { 0 };
    search
}

/// The call of an open case with its line closed. To the silences of a report some are added that name places up to the last.
pub fn close(draw: &mut Draw, call: Call) -> Call {
    match call {
        Call::Survey(search) => Call::Survey(closed(draw, search)),
        Call::Scan(search) => Call::Scan(closed(draw, search)),
        Call::Report { cell, ring_number, search, book } => {
            let mut named = book::read(&book).expect("a whole book");
            let count = draw.one(&[0, 1, 3, 10, 40]);
            named.extend(silences(draw, cell, ring_number, search.line.len(), count));
            let search = closed(draw, search);
            Call::Report { cell, ring_number, search, book: book_of(named) }
        }
        other => other,
    }
}

/// Survey, scan or report in turn. One report in two has silences of these places.
pub fn in_turn_naming(index: u64, draw: &mut Draw, search: Search, places: &[usize]) -> Call {
    match index % 3 {
        0 => Call::Survey(search),
        1 => Call::Scan(search),
        _ => {
            let (cell, ring_number) = cell_and_ring(draw);
            let count = draw.one(&[0, 1, 3, 10]);
            let mut named = silences(draw, cell, ring_number, search.line.len(), count);
            if draw.chance(2) {
                let silence =
                    |&place: &usize| Silence { cell, ring_number, start: place as u32, ceiling: any_ceiling(draw) };
                named.extend(places.iter().map(silence));
            }
            Call::Report { cell, ring_number, search, book: book_of(named) }
        }
    }
}

/// Each row counted by hand as survey, scan and report, closed and open.
pub const LIBRARY_BY_HAND: u64 = 6 * BY_HAND.len() as u64;

pub fn by_hand(index: u64, draw: &mut Draw) -> Call {
    let ByHand { ring, line, allowance, .. } = &BY_HAND[(index / 6) as usize];
    let search = Search::new(edges(ring), edges(line), *allowance);
    if index / 3 % 2 == 0 {
        let search = closed(draw, search);
        return in_turn_naming(index, draw, search, &[0]);
    }
    in_turn_naming(index, draw, search, &[0])
}

/// A rotated copy of the ring in a closed line, from any place on, with a number of edges changed. It overwrites what an earlier
/// copy left there.
pub fn plant(draw: &mut Draw, ring: &[u8], line: &mut [u8], start: usize, edits: usize) {
    let (m, n, r) = (ring.len(), line.len(), draw.below(ring.len()));
    for q in 0..m {
        line[(start + q) % n] = ring[(r + q) % m];
    }
    for _ in 0..edits.min(m) {
        let place = (start + draw.below(m)) % n;
        line[place] = draw.other(line[place]);
    }
}

/// A place whose window crosses the seam; for m = 1, where none does, the last place.
pub fn crossing(draw: &mut Draw, m: usize, n: usize) -> usize {
    n - draw.between(1, (m - 1).max(1))
}

/// One or two copies across the seam. In a third of the lines a mark stands just before a copy, just behind it, on both sides,
/// or within it, and in a few on one or both sides of the seam.
pub fn across_seam(index: u64, draw: &mut Draw) -> Call {
    let (any, about_words) = (draw.between(1, 24), draw.one(&ABOUT_WORDS));
    let m = draw.one(&[any, any, any, any, any, about_words]);
    let n = m + draw.one(&[0, 1, any, m, 3 * m]);
    let (ring, mut line) = ring_and_line(draw, &[2, 4, 26, CODES], m, n);
    let allowance = draw.allowance(m);
    let mut starts = Vec::new();
    for _ in 0..draw.between(1, 2) {
        let (start, edits) = (crossing(draw, m, n), draw.below(allowance + 3));
        plant(draw, &ring, &mut line, start, edits);
        starts.push(start);
    }
    if draw.chance(3) {
        let (before, behind, within) = (starts[0] + n - 1, starts[0] + m, starts[0] + draw.below(m));
        let marks = [[before; 2], [behind; 2], [before, behind], [within; 2], [0; 2], [n - 1; 2], [0, n - 1]];
        put(&mut line, draw.one(&marks).map(|place| place % n));
    }
    let search = closed(draw, Search::new(ring, line, allowance));
    in_turn_naming(index, draw, search, &starts)
}

const SMALL_LINES: u64 = small_lines(6);
pub const EVERY_SMALL: u64 = 3 * SMALL_LINES * small_rings(4);

/// Every line of up to 6 edges over two letters and the mark, with every ring of up to 4 edges and every allowance.
pub fn every_small(index: u64, draw: &mut Draw) -> Call {
    let open = small_search(draw, index / 3, SMALL_LINES);
    let search = closed(draw, open);
    let last = search.line.len().saturating_sub(1);
    in_turn_naming(index, draw, search, &[last])
}
