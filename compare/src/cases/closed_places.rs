//! Closed lines with each place in turn marked or silenced, and join areas of each length.

use super::call::{join_bytes, Call, Search};
use super::closed::{closed, in_turn_naming, join_area};
use super::draw::Draw;
use super::searches::ring_and_line;
use super::silences::{any_ceiling, book_of};
use crate::second::book::Silence;
use crate::second::meaning::MARK;

const RINGS: [usize; 6] = [1, 2, 3, 4, 7, 12];
const LONGEST: usize = 3 * RINGS[RINGS.len() - 1];
const SHAPES: usize = 4;

/// For each ring length four line lengths, each with room for a place of the longest of them.
const PLACES: u64 = (RINGS.len() * SHAPES * LONGEST) as u64;
pub const MARKED: u64 = 3 * PLACES * 3;
pub const SILENCED: u64 = PLACES * 2;

/// The lengths of ring and line that a number below `PLACES` stands for, and a place of the line or just behind it. Short lines
/// have each place more than once.
fn lengths_and_place(number: u64) -> (usize, usize, usize) {
    let (place, number) = (number as usize % LONGEST, number as usize / LONGEST);
    let m = RINGS[number % RINGS.len()];
    let n = [m, m + 1, 2 * m, 3 * m][number / RINGS.len() % SHAPES];
    (m, n, place % (n + 1))
}

/// A copy that lies half before the seam and half behind it, and a mark at each place. At the place behind the last one there
/// is no mark.
pub fn marked(index: u64, draw: &mut Draw) -> Call {
    let (m, n, place) = lengths_and_place(index / 3 % PLACES);
    let (ring, mut line) = ring_and_line(draw, &[3], m, n);
    let (start, turn) = (n - m.div_ceil(2), draw.below(m));
    for q in 0..m {
        line[(start + q) % n] = ring[(turn + q) % m];
    }
    if place < n {
        line[place] = MARK;
    }
    let allowance = draw.allowance(m);
    let search = closed(draw, Search::new(ring, line, allowance));
    in_turn_naming(index, draw, search, &[start])
}

/// Every place is an exact copy, which each silence of it hides. The book names one place, or all but one. Places from n on
/// name nothing.
pub fn silenced(index: u64, draw: &mut Draw) -> Call {
    let (m, n, place) = lengths_and_place(index / 2 % PLACES);
    let past = draw.below(m);
    let place = if place == n { n + past } else { place };
    let named = |start: &usize| if index % 2 == 0 { *start == place } else { *start != place };
    let silence = |start| Silence { cell: 7, ring_number: 2, start: start as u32, ceiling: any_ceiling(draw) };
    let book = book_of((0..n + m).filter(named).map(silence).collect());
    let allowance = draw.allowance(m);
    let search = closed(draw, Search::new(vec![9; m], vec![9; n], allowance));
    Call::Report { cell: 7, ring_number: 2, search, book }
}

const JOIN_RINGS: usize = 7;
const JOIN_LINES: usize = 5;
/// From none to two bytes more than the longest of these rings requires.
const JOIN_LENGTHS: usize = 2 * JOIN_RINGS + 1;
const TIMES: u64 = 4;
pub const JOINS: u64 = 3 * (JOIN_RINGS * JOIN_LINES * JOIN_LENGTHS) as u64 * TIMES;

/// Join areas of 0 to 14 bytes for rings of 1 to 7 edges, with lines of no edge, of m − 1, m, m + 1 and 3·m.
pub fn joins(index: u64, draw: &mut Draw) -> Call {
    let number = (index / 3 / TIMES) as usize;
    let (m, length) = (1 + number % JOIN_RINGS, number / JOIN_RINGS % JOIN_LENGTHS);
    let n = [0, m - 1, m, m + 1, 3 * m][number / JOIN_RINGS / JOIN_LENGTHS];
    let (ring, line) = ring_and_line(draw, &[1, 3], m, n);
    let join = join_area(draw, &ring, length);
    let allowance = draw.allowance(m);
    let mut search = Search::new(ring, line, allowance).closed(join);
    // Refusal 4 comes before 10, and not for n < m.
    if draw.chance(6) {
        search.room = search.room.saturating_sub(1);
    }
    in_turn_naming(index, draw, search, &[n.saturating_sub(1)])
}

/// Slices of the closed survey, scan and report: ring, line, words, join area, book.
const SLICES: [u64; 3] = [4, 4, 5];
/// One for each call and each choice of slices that are empty.
pub const NULLS: u64 = 16 + 16 + 32;

/// Each closed call with each choice of its slices empty. An empty slice is passed as a null pointer.
pub fn nulls(index: u64, draw: &mut Draw) -> Call {
    let (mut choice, mut which) = (index % NULLS, 0);
    while choice >= 1 << SLICES[which] {
        choice -= 1 << SLICES[which];
        which += 1;
    }
    let full = |slice: u64, length: usize| if choice >> slice & 1 == 1 { 0 } else { length };
    let any = draw.between(1, 9);
    // A ring of one edge requires no join byte, so that the empty area is accepted.
    let m = draw.one(&[1, 1, any]);
    let n = m + draw.below(12);
    let (ring, line) = (vec![4; full(0, m)], vec![4; full(1, n)]);
    let join = join_area(draw, &[4], full(3, join_bytes(m).max(1)));
    let allowance = draw.below(m);
    let mut search = Search::new(ring, line, allowance).closed(join);
    search.room = full(2, search.room.max(1));
    let book = Silence { cell: 7, ring_number: 2, start: n as u32 - 1, ceiling: any_ceiling(draw) }.field();
    match which {
        0 => Call::Survey(search),
        1 => Call::Scan(search),
        _ => Call::Report { cell: 7, ring_number: 2, search, book: book[..full(4, book.len())].to_vec() },
    }
}
