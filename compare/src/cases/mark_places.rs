//! Marks at each place in turn: of small lines, of a line about a copy, of the longest lines, and of rings.

use super::call::{in_turn, in_turn_as_it_is, Call, Search};
use super::draw::Draw;
use super::searches::{repeated, ring_and_line, two_letters};
use crate::second::meaning::MARK;

/// Lines of 0 to `longest` edges over three codes.
pub const fn small_lines(longest: u32) -> u64 {
    (3u64.pow(longest + 1) - 1) / 2
}

/// Rings of m edges over two letters that begin with the first letter, each with the allowances 0 to m − 1.
const fn rings_of(m: u32) -> u64 {
    (1 << (m - 1)) * m as u64
}

/// The same of 1 to `longest` edges.
pub const fn small_rings(longest: u32) -> u64 {
    let (mut rings, mut m) = (0, 1);
    while m <= longest {
        rings += rings_of(m);
        m += 1;
    }
    rings
}

const SMALL_LINES: u64 = small_lines(7);
pub const EVERY_SMALL: u64 = 3 * SMALL_LINES * small_rings(3);

/// The line of this number over the codes: first the empty one, then those of one edge, of two, and so on.
fn line_of(mut number: u64, codes: [u8; 3]) -> Vec<u8> {
    let mut n = 0;
    while number >= 3u64.pow(n) {
        number -= 3u64.pow(n);
        n += 1;
    }
    (0..n).map(|place| codes[(number / 3u64.pow(place) % 3) as usize]).collect()
}

/// A line over two letters and the mark, out of the first `lines`, with a ring and an allowance. Either letter is drawn as the
/// first, so every ring may begin with it.
pub fn small_search(draw: &mut Draw, number: u64, lines: u64) -> Search {
    let letters = draw.one(&[[b'a', b'b'], [b'b', b'a'], [0, 254], [254, 0], [254, 253], [1, 0]]);
    small_search_over(letters, number, lines)
}

/// The same over these letters. Every ring begins with the first of them.
pub fn small_search_over([a, b]: [u8; 2], number: u64, lines: u64) -> Search {
    let line = line_of(number % lines, [a, b, MARK]);
    let (mut number, mut m) = (number / lines, 1);
    while number >= rings_of(m) {
        number -= rings_of(m);
        m += 1;
    }
    let allowance = (number % u64::from(m)) as usize;
    let ring = two_letters(2 * (number / u64::from(m)), m as usize, [a, b]);
    Search::new(ring, line, allowance)
}

pub fn every_small(index: u64, draw: &mut Draw) -> Call {
    let search = small_search(draw, index / 3, SMALL_LINES);
    in_turn(index, draw, search)
}

/// How many places the rings have, each ring `times` times.
pub const fn places(rings: &[usize], times: usize) -> u64 {
    let (mut places, mut at) = (0, 0);
    while at < rings.len() {
        places += times * rings[at];
        at += 1;
    }
    places as u64
}

/// The ring that a number below `places` stands for, and the place.
pub fn ring_and_place(rings: &[usize], times: usize, number: u64) -> (usize, usize) {
    let mut place = number as usize;
    for &m in rings {
        if place < times * m {
            return (m, place);
        }
        place -= times * m;
    }
    unreachable!("the number is below the count of places")
}

const COPIED: [usize; 7] = [1, 2, 3, 4, 7, 12, 17];
/// A line of m edges and one of 3·m.
const TIMES: usize = 4;
const COPY_PLACES: u64 = places(&COPIED, TIMES);
pub const ABOUT_COPY: u64 = 3 * COPY_PLACES * 8;

/// A line that is a copy, or a copy with m edges on either side, and one mark at each place of it.
pub fn about_copy(index: u64, draw: &mut Draw) -> Call {
    let (m, place) = ring_and_place(&COPIED, TIMES, index / 3 % COPY_PLACES);
    let (n, place) = if place < m { (m, place) } else { (3 * m, place - m) };
    let alphabet = draw.alphabet(3);
    let ring = draw.edges(&alphabet, m);
    let mut line = draw.edges(&alphabet, n);
    let start = (n - m) / 2;
    line[start..start + m].copy_from_slice(&repeated(&ring, draw.below(m), m));
    line[place] = MARK;
    let allowance = draw.allowance(m);
    in_turn(index, draw, Search::new(ring, line, allowance))
}

const LIMIT_RINGS: [usize; 4] = [1, 2, 255, 256];
const LIMIT_LINES: usize = 4;
const SHAPES: usize = 6;
pub const LIMITS: u64 = 3 * (LIMIT_RINGS.len() * LIMIT_LINES * SHAPES) as u64;

/// The longest rings and lines, of one code and marks: marks alone; m edges between marks; m − 1 edges between marks; a mark
/// at both ends; in the middle; just before the last window. With one mark or two nearly every start is a finding, which
/// takes the second program long, so there the line has at most 1,000 edges if the ring is long.
pub fn limits(index: u64, draw: &mut Draw) -> Call {
    let number = (index / 3) as usize;
    let (m, shape) = (LIMIT_RINGS[number % LIMIT_RINGS.len()], number / LIMIT_RINGS.len() % SHAPES);
    let mut n = [m, m + 1, 65_535, 65_536][number / LIMIT_RINGS.len() / SHAPES];
    if shape > 2 && m > 2 {
        n = n.min(1_000);
    }
    let marked = |place: usize| match shape {
        0 => true,
        1 => place % (m + 1) == m,
        2 => place % m == m - 1,
        3 => place == 0 || place == n - 1,
        4 => place == n / 2,
        _ => place + m + 1 == n,
    };
    let line = (0..n).map(|place| if marked(place) { MARK } else { 7 }).collect();
    let allowance = draw.one(&[0, m / 2, m - 1]);
    in_turn_as_it_is(index, draw, Search::new(vec![7; m], line, allowance))
}

const MARKED_RINGS: [usize; 7] = [1, 2, 3, 64, 65, 255, 256];
pub const OF_RINGS: u64 = 3 * places(&MARKED_RINGS, 1);

/// A ring with the mark at each of its places. The allowance may be m: refusal 12 comes before 2.
pub fn of_rings(index: u64, draw: &mut Draw) -> Call {
    let (m, place) = ring_and_place(&MARKED_RINGS, 1, index / 3);
    let n = draw.below(3 * m + 2);
    let (mut ring, line) = ring_and_line(draw, &[1, 2, 255], m, n);
    ring[place] = MARK;
    let few = draw.allowance(m);
    let allowance = draw.one(&[few, few, m]);
    in_turn(index, draw, Search::new(ring, line, allowance))
}
