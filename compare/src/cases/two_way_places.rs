//! The two-way scan with each code, each place of a ring and each place of a line in turn.

use super::call::{two_way_room, Search};
use super::draw::Draw;
use super::mark_places::{places, ring_and_place};
use super::searches::repeated;
use super::two_way::{edge_codes, lent, no_edge};
use crate::second::meaning::MARK;
use crate::second::reversed::reversed;

/// Each code as the only edge of a ring, four times.
pub const ONE_EDGE: u64 = 4 * 256;

/// A ring of one edge in the line of all 256 codes, in order or not: forward it is found at its own place, backward at that of its
/// reverse. From 248 on it is refused.
pub fn one_edge(index: u64, draw: &mut Draw) -> Search {
    let rising: Vec<u8> = (0..=255).collect();
    let line = if index < 256 { rising } else { draw.places(256, 256).into_iter().map(|code| code as u8).collect() };
    lent(draw, vec![index as u8], line, 0)
}

const SEVEN: usize = 7;
pub const EACH_CODE: u64 = 256 * SEVEN as u64;

/// Each code at each place of a ring of 7 edges. The line holds the ring and then its reverse, each from any edge on.
pub fn each_code(index: u64, draw: &mut Draw) -> Search {
    let (code, place) = ((index / SEVEN as u64) as u8, (index % SEVEN as u64) as usize);
    let codes = edge_codes(draw);
    let mut ring = draw.edges(&codes, SEVEN);
    ring[place] = code;
    let copy = |draw: &mut Draw, ring: &[u8]| repeated(ring, draw.below(SEVEN), SEVEN);
    let line = [copy(draw, &ring), draw.edges(&codes, 2), copy(draw, &reversed(&ring))].concat();
    let allowance = draw.allowance(SEVEN);
    lent(draw, ring, line, allowance)
}

const RINGS: [usize; 8] = [1, 2, 3, 7, 64, 65, 255, 256];
const RING_PLACES: u64 = places(&RINGS, 1);
const SHAPES: u64 = 4;
pub const NO_EDGES: u64 = SHAPES * RING_PLACES;

/// A code from 248 to 254 at each place of a ring: alone; with another one behind it; with one before it, at place 0; with a mark
/// at any place, which may be its own. The allowance may be m, and there may be no word lent.
pub fn no_edges(index: u64, draw: &mut Draw) -> Search {
    let (m, place) = ring_and_place(&RINGS, 1, index / SHAPES);
    let codes = edge_codes(draw);
    let mut ring = draw.edges(&codes, m);
    ring[place] = no_edge(draw);
    let (any, behind) = (draw.below(m), draw.between(place, m - 1));
    match index % SHAPES {
        0 => {}
        1 => ring[behind] = no_edge(draw),
        2 => ring[0] = no_edge(draw),
        _ => ring[any] = MARK,
    }
    let n = draw.below(3 * m + 2);
    let line = draw.edges(&codes, n);
    let few = draw.allowance(m);
    let allowance = draw.one(&[few, few, few, m]);
    let mut search = lent(draw, ring, line, allowance);
    search.room = if draw.chance(4) { 0 } else { search.room };
    search
}

const COPIED: [usize; 7] = [1, 2, 3, 4, 7, 12, 17];
/// A line of m edges and one of 3·m.
const TIMES: usize = 4;
const COPY_PLACES: u64 = places(&COPIED, TIMES);
pub const ABOUT_COPY: u64 = 4 * COPY_PLACES;

/// A line that is a copy of the ring or of its reverse, or such a copy with m edges on either side, and a mark or a code from 248
/// to 254 at each place of it.
pub fn about_copy(index: u64, draw: &mut Draw) -> Search {
    let (m, place) = ring_and_place(&COPIED, TIMES, index / 4);
    let (n, place) = if place < m { (m, place) } else { (3 * m, place - m) };
    let codes = edge_codes(draw);
    let ring = draw.edges(&codes, m);
    let mut line = draw.edges(&codes, n);
    let copied = if index % 2 == 1 { ring.clone() } else { reversed(&ring) };
    let start = (n - m) / 2;
    line[start..start + m].copy_from_slice(&repeated(&copied, draw.below(m), m));
    line[place] = if index % 4 < 2 { MARK } else { no_edge(draw) };
    let allowance = draw.allowance(m);
    lent(draw, ring, line, allowance)
}

/// Each choice of ring, line and words empty.
pub const NULLS: u64 = 8;

/// An empty slice is passed as a null pointer.
pub fn nulls(index: u64, draw: &mut Draw) -> Search {
    let full = |slice: u64, length: usize| if index >> slice & 1 == 1 { 0 } else { length };
    let (m, n) = (draw.between(1, 9), draw.between(1, 20));
    let (ring, line) = (vec![4; full(0, m)], vec![4; full(1, n)]);
    let needed = two_way_room(ring.len(), line.len()).max(1);
    Search { room: full(2, needed), ring, line, allowance: draw.below(m), join: None }
}
