//! Limits of the two-way scan: lengths and room; the longest lines; long rings and lines.

use super::call::{room, two_way_room, Call, Search};
use super::draw::Draw;
use super::long;
use super::marks::put;
use super::searches::{plant, repeated};
use super::two_way::{edge_codes, lent, no_edge};
use crate::second::meaning::MARK;
use crate::second::refusals::{LONGEST_LINE, LONGEST_RING};
use crate::second::reversed::{reversed, NO_EDGE, OCTANTS};

const RINGS: [usize; 6] = [1, 2, 3, 255, 256, 257];
const LINES: usize = 6;
const ROOMS: usize = 4;
pub const LIMITS: u64 = 2 * (RINGS.len() * LINES * ROOMS) as u64;

/// m up to 257, n about m, 65,536 and 65,537; room for one pass, one word short, exact, and one word more. The ring goes out and
/// back, as does the line, so that for even m every start is found in both passes. In half of the cases the ring's last code is no
/// edge. Where every start is found and that takes the second program long, the line has 700 edges; `longest` has the longest.
pub fn limits(index: u64, draw: &mut Draw) -> Search {
    let mut number = index as usize;
    let mut digit = |base: usize| {
        let digit = number % base;
        number /= base;
        digit
    };
    let (ring, line, words, spoilt) = (digit(RINGS.len()), digit(LINES), digit(ROOMS), digit(2) == 1);
    let m = RINGS[ring];
    let mut n = [m - 1, m, m + 1, 2 * m, LONGEST_LINE, LONGEST_LINE + 1][line];
    if m > 3 && n == LONGEST_LINE && words > 1 {
        n = 700;
    }
    let mut ring = repeated(&[7, 3], 0, m);
    if spoilt {
        ring[m - 1] = no_edge(draw);
    }
    let mut search = Search::new(ring, repeated(&[7, 3], 0, n), m - 1).two_way();
    search.room = [room(m, n), search.room.saturating_sub(1), search.room, search.room + 1][words];
    search
}

/// Room from that of one pass to that of both.
pub fn rooms(_: u64, draw: &mut Draw) -> Search {
    let m = draw.between(1, 20);
    let n = m + draw.below(30);
    let codes = edge_codes(draw);
    let (ring, line) = (draw.edges(&codes, m), draw.edges(&codes, n));
    let (one, both) = (room(m, n), two_way_room(m, n));
    let between = draw.between(one, both);
    let allowance = draw.allowance(m);
    let mut search = Search::new(ring, line, allowance);
    search.room = draw.one(&[one, one - 1, one + 1, both - 1, both - 4, both, both + 1, between, 0]);
    search
}

pub const LONGEST: u64 = 6;

/// The longest lines: of the ring over and over, of its reverse over and over, and drawn, with a mark, with a code above 247, and
/// with copies both ways at both ends.
pub fn longest(index: u64, draw: &mut Draw) -> Search {
    let m = [LONGEST_RING, LONGEST_RING, 64, LONGEST_RING - 1, 2, LONGEST_RING][index as usize];
    let n = LONGEST_LINE;
    let codes = edge_codes(draw);
    let ring = draw.edges(&codes, m);
    let other = reversed(&ring);
    let mut line = match index % 3 {
        0 => repeated(&ring, draw.below(m), n),
        1 => repeated(&other, draw.below(m), n),
        _ => draw.edges(&codes, n),
    };
    let allowance = draw.below(4).min(m - 1);
    let copies = [(0, &other), (m, &ring), (20_000, &other), (n - 2 * m, &other), (n - m, &ring)];
    for (start, copied) in copies {
        plant(draw, copied, &mut line, start, allowance);
    }
    put(&mut line, [40_000]);
    line[50_000] = no_edge(draw);
    lent(draw, ring, line, allowance)
}

/// An edge for each code but the mark: those from 248 on lose a class.
fn as_edge(code: u8) -> u8 {
    if (NO_EDGE..MARK).contains(&code) {
        code - OCTANTS
    } else {
        code
    }
}

/// The long searches of the plain calls, as edges, with copies of the reversed ring over the line in three of four.
pub fn long(index: u64, draw: &mut Draw) -> Search {
    let [.., Call::Scan(mut search), _] = long::long(index, draw) else { unreachable!("the second call is a scan") };
    [&mut search.ring, &mut search.line].into_iter().flatten().for_each(|code| *code = as_edge(*code));
    let (m, n, k) = (search.ring.len(), search.line.len(), search.allowance);
    let copied = reversed(&search.ring);
    let copies = if n < m { 0 } else { draw.one(&[0, 1, 4, 40]) };
    for _ in 0..copies {
        let (start, edits) = (draw.below(n - m + 1), draw.below(k + 2));
        plant(draw, &copied, &mut search.line, start, edits);
    }
    lent(draw, search.ring, search.line, k)
}
