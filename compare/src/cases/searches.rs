//! Rings and lines for survey, scan and report.

use super::call::{in_turn, Call, Search};
use super::draw::{Draw, CODES};
use super::marks::{mark_seams, strew};

const ALPHABETS: [usize; 5] = [1, 2, 4, 26, CODES];

/// Ring lengths about the bounds of machine words, and the least and greatest.
pub const ABOUT_WORDS: [usize; 13] = [1, 2, 63, 64, 65, 127, 128, 129, 191, 192, 193, 255, 256];

const SMALL_RING: usize = 5;
const SMALL_LINE: usize = 8;
const SMALL_LINES: u64 = (1 << (SMALL_LINE + 1)) - 1;

/// Rings of m edges over two letters, each with the allowances 0 to m.
const fn small_rings(m: usize) -> u64 {
    (1 << m) * (m as u64 + 1)
}

pub const EVERY_SMALL: u64 = {
    let (mut rings, mut m) = (0, 1);
    while m <= SMALL_RING {
        rings += small_rings(m);
        m += 1;
    }
    3 * SMALL_LINES * rings
};

pub fn two_letters(pattern: u64, length: usize, letters: [u8; 2]) -> Vec<u8> {
    (0..length).map(|place| letters[(pattern >> place & 1) as usize]).collect()
}

pub fn every_small(index: u64, draw: &mut Draw) -> Call {
    let letters = draw.one(&[[b'a', b'b'], [0, 254], [254, 253], [0, 1]]);
    // A leading 1 above the pattern carries the line's length.
    let line_number = index / 3 % SMALL_LINES + 1;
    let line = two_letters(line_number, line_number.ilog2() as usize, letters);
    let (mut number, mut m) = (index / 3 / SMALL_LINES, 1);
    while number >= small_rings(m) {
        number -= small_rings(m);
        m += 1;
    }
    let allowance = (number % (m as u64 + 1)) as usize;
    let ring = two_letters(number / (m as u64 + 1), m, letters);
    in_turn(index, draw, Search::new(ring, line, allowance))
}

/// A ring and a line over one alphabet, of one of these sizes. One line in three has marks.
pub fn ring_and_line(draw: &mut Draw, alphabets: &[usize], m: usize, n: usize) -> (Vec<u8>, Vec<u8>) {
    let letters = draw.one(alphabets);
    let alphabet = draw.alphabet(letters);
    let (ring, mut line) = (draw.edges(&alphabet, m), draw.edges(&alphabet, n));
    if draw.chance(3) {
        strew(draw, &mut line, m);
    }
    (ring, line)
}

pub fn random(index: u64, draw: &mut Draw) -> Call {
    let (m, n) = (draw.between(1, 40), draw.below(200));
    let (ring, line) = ring_and_line(draw, &ALPHABETS, m, n);
    let allowance = draw.allowance(m);
    in_turn(index, draw, Search::new(ring, line, allowance))
}

/// The part over and over, from one of its places on.
pub fn repeated(part: &[u8], from: usize, length: usize) -> Vec<u8> {
    part.iter().copied().cycle().skip(from).take(length).collect()
}

/// Many rotations are alike here, so the lowest of them has to be chosen.
pub fn periodic(index: u64, draw: &mut Draw) -> Call {
    let alphabet = draw.alphabet(3);
    let period = draw.between(1, 8);
    let part = draw.edges(&alphabet, period);
    let m = period * draw.between(1, 6) + if draw.chance(4) { draw.below(period) } else { 0 };
    let n = draw.between(1, 160);
    let ring = repeated(&part, 0, m);
    let mut line = repeated(&part, draw.below(period), n);
    for _ in 0..draw.below(6) {
        let place = draw.below(n);
        line[place] = draw.one(&alphabet);
    }
    if draw.chance(4) {
        strew(draw, &mut line, m);
    }
    let allowance = draw.allowance(m);
    in_turn(index, draw, Search::new(ring, line, allowance))
}

/// A rotated copy of the ring in the line, with a number of edges changed.
pub fn plant(draw: &mut Draw, ring: &[u8], line: &mut [u8], start: usize, edits: usize) {
    let (m, r) = (ring.len(), draw.below(ring.len()));
    for place in 0..m {
        line[start + place] = ring[(r + place) % m];
    }
    for _ in 0..edits.min(m) {
        let place = start + draw.below(m);
        line[place] = draw.other(line[place]);
    }
}

/// Copies at the line's very beginning and end, anywhere, and overlapping the copy before. In one line of four each copy has
/// a mark at its side or within it.
fn plant_some(draw: &mut Draw, ring: &[u8], line: &mut [u8], allowance: usize, count: usize) {
    let last = line.len() - ring.len();
    let marked = draw.chance(4);
    let mut before = 0;
    for _ in 0..count {
        let beside = (before + draw.between(1, ring.len())).min(last);
        let any = draw.below(last + 1);
        before = draw.one(&[0, last, any, beside]);
        let edits = draw.below(allowance + 3);
        plant(draw, ring, line, before, edits);
        if marked {
            mark_seams(draw, line, before, ring.len());
        }
    }
}

pub fn about_words(index: u64, draw: &mut Draw) -> Call {
    let m = ABOUT_WORDS[(index / 3) as usize % ABOUT_WORDS.len()];
    let n = m + draw.below(2 * m + 20);
    let (ring, mut line) = ring_and_line(draw, &ALPHABETS, m, n);
    let allowance = draw.allowance(m);
    let count = draw.below(4);
    plant_some(draw, &ring, &mut line, allowance, count);
    in_turn(index, draw, Search::new(ring, line, allowance))
}

pub fn planted(index: u64, draw: &mut Draw) -> Call {
    let m = draw.between(1, 40);
    let n = m + draw.below(5 * m);
    let (ring, mut line) = ring_and_line(draw, &ALPHABETS[1..], m, n);
    let allowance = draw.allowance(m);
    let count = draw.between(1, 6);
    plant_some(draw, &ring, &mut line, allowance, count);
    in_turn(index, draw, Search::new(ring, line, allowance))
}

/// No start, one start, two.
pub fn short_lines(index: u64, draw: &mut Draw) -> Call {
    let m = draw.one(&[1, 2, 3, 7, 31, 64, 65, 256]);
    let n = m + 1 - draw.one(&[0, 1, 2, m + 1, m]);
    let (ring, mut line) = ring_and_line(draw, &ALPHABETS, m, n);
    let allowance = draw.allowance(m);
    if n >= m && draw.chance(2) {
        plant_some(draw, &ring, &mut line, allowance, 1);
    }
    in_turn(index, draw, Search::new(ring, line, allowance))
}

/// Lines about as long as the longest that is accepted. Only rings of at most 64 edges have candidates at every start,
/// because of the second program's time; the long kind has them for every ring.
pub fn longest_lines(index: u64, draw: &mut Draw) -> Call {
    let number = (index / 3) as usize;
    let n = [65_535, 65_536, 65_537][number % 3];
    let m = draw.one(&[1, 2, 5, 64, 100, 129, 193, 256]);
    let (ring, mut line) = ring_and_line(draw, &[4, 26, CODES], m, n);
    let allowance = draw.below(4).min(m - 1);
    if number % 2 == 0 && m <= 64 {
        line = repeated(&ring, draw.below(m), n);
        if number % 4 == 0 {
            strew(draw, &mut line, m);
        }
    }
    plant_some(draw, &ring, &mut line, allowance, 400);
    in_turn(index, draw, Search::new(ring, line, allowance))
}
