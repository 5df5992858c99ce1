//! Lines cut by marks, drawn at random. Each place and each small line in turn are in mark_places.

use super::call::{in_turn, Call, Search};
use super::draw::Draw;
use super::searches::{repeated, ABOUT_WORDS};
use crate::second::meaning::MARK;

/// Puts marks at those of the places that the line has.
pub fn put(line: &mut [u8], places: impl IntoIterator<Item = usize>) {
    let n = line.len();
    places.into_iter().filter(|&place| place < n).for_each(|place| line[place] = MARK);
}

/// Marks over a line, at one of several densities; now and then two in a row, one at an end, one at the last window's
/// start, one just before it.
pub fn strew(draw: &mut Draw, line: &mut [u8], m: usize) {
    let n = line.len();
    let one_in = draw.one(&[2, 4, 10, 30, 100, m + 1, 2 * m + 1]);
    let places: Vec<usize> = (0..n).filter(|_| draw.chance(one_in)).collect();
    put(line, places);
    let any = draw.below(n + 1);
    let last = n.wrapping_sub(m);
    for few in [[any, any + 1], [0, 0], [n.wrapping_sub(1); 2], [last; 2], [last.wrapping_sub(1); 2]] {
        if draw.chance(4) {
            put(line, few);
        }
    }
}

/// A mark just before a planted copy, just after it, on both sides, or at one of its places.
pub fn mark_seams(draw: &mut Draw, line: &mut [u8], start: usize, m: usize) {
    let (before, after, inside) = (start.wrapping_sub(1), start + m, start + draw.below(m));
    put(line, draw.one(&[[before; 2], [after; 2], [before, after], [inside; 2]]));
}

/// A mark at the ring's first place, at its last, at any, or at every one. A ring without edges has no place for it.
pub fn mark_ring(draw: &mut Draw, ring: &mut [u8]) {
    let Some(last) = ring.len().checked_sub(1) else { return };
    let any = draw.between(0, last);
    match draw.below(4) {
        0 => ring[0] = MARK,
        1 => ring[last] = MARK,
        2 => ring[any] = MARK,
        _ => ring.fill(MARK),
    }
}

/// A small ring; now and then a length about a machine word.
fn ring_length(draw: &mut Draw) -> usize {
    let (any, about_words) = (draw.between(1, 24), draw.one(&ABOUT_WORDS));
    draw.one(&[any, any, any, any, any, about_words])
}

/// One boundary: a copy with up to k + 1 edges changed, whole, an edge short, with edges about it, or cut in two; or any
/// edges.
fn boundary(draw: &mut Draw, ring: &[u8], alphabet: &[u8], allowance: usize) -> Vec<u8> {
    let m = ring.len();
    let mut copy = repeated(ring, draw.below(m), m);
    let edits = draw.one(&[0, 0, allowance, allowance + 1]).min(m);
    draw.places(m, edits).into_iter().for_each(|place| copy[place] = draw.one(alphabet));
    let (few, any) = (draw.below(3), draw.below(2 * m + 1));
    match draw.below(7) {
        0..=2 => copy,
        3 => copy[1..].to_vec(),
        4 => [draw.edges(alphabet, few), copy, draw.edges(alphabet, few)].concat(),
        5 => {
            copy.insert(draw.below(m + 1), MARK);
            copy
        }
        _ => draw.edges(alphabet, any),
    }
}

/// Boundaries one after another with a mark between them, now and then two or none. The line may begin and end with a mark.
pub fn boundaries(index: u64, draw: &mut Draw) -> Call {
    let m = ring_length(draw);
    let letters = draw.one(&[2, 4, 26, 255]);
    let alphabet = draw.alphabet(letters);
    let ring = draw.edges(&alphabet, m);
    let allowance = draw.allowance(m);
    let mut line = vec![MARK; draw.below(2)];
    for _ in 0..draw.between(1, 6) {
        line.extend(boundary(draw, &ring, &alphabet, allowance));
        line.extend(vec![MARK; draw.one(&[1, 1, 1, 1, 2, 0])]);
    }
    let kept = line.len().saturating_sub(draw.below(2));
    line.truncate(kept);
    in_turn(index, draw, Search::new(ring, line, allowance))
}

/// The first window has a mark, and behind it about k edges of a code that the ring lacks. Such an edge is a break wherever
/// it is read, and the others are those of a copy, so the mark is read after exactly as many breaks. The copy begins just
/// past the mark. In a third of these lines the mark is the window's first edge, the last to be read.
pub fn after_breaks(index: u64, draw: &mut Draw) -> Call {
    let m = ring_length(draw);
    let codes = draw.alphabet(4);
    let (foreign, own) = (codes[3], &codes[..3]);
    let ring = draw.edges(own, m);
    let allowance = draw.allowance(m);
    let place = if draw.chance(3) { 0 } else { draw.below(m) };
    let behind = m - 1 - place;
    let breaks = draw.one(&[allowance, allowance, allowance + 1, allowance.saturating_sub(1), 0]).min(behind);
    let mut copy = repeated(&ring, draw.below(m), m);
    draw.places(behind, breaks).into_iter().for_each(|edge| copy[edge] = foreign);
    let rest = draw.below(m + 1);
    let line = [draw.edges(own, place), vec![MARK], copy, draw.edges(own, rest)].concat();
    in_turn(index, draw, Search::new(ring, line, allowance))
}

/// Lines of marks alone, up to four rings long.
pub fn alone(index: u64, draw: &mut Draw) -> Call {
    let m = ring_length(draw);
    let n = draw.below(4 * m + 1);
    let codes = draw.alphabet(4);
    let ring = draw.edges(&codes, m);
    let allowance = draw.allowance(m);
    in_turn(index, draw, Search::new(ring, vec![MARK; n], allowance))
}
