//! The two-way scan: rings of edges, in lines that hold them as they are, the other way round, or both.

use super::call::Search;
use super::draw::Draw;
use super::mark_places::{small_lines, small_rings, small_search_over};
use super::marks::{mark_seams, strew};
use super::searches::{plant, repeated, ABOUT_WORDS};
use crate::second::meaning::MARK;
use crate::second::reversed::{reversed, reversed_code, CLASSES, NO_EDGE, OCTANTS};
use crate::second::two_way_by_hand::{ByHand, BY_HAND};

/// An alphabet of edges: all of them; one class; an edge and its reverse; these in three classes; some codes side by side.
pub fn edge_codes(draw: &mut Draw) -> Vec<u8> {
    let (class, octant) = (draw.below(CLASSES.into()) as u8, draw.below(OCTANTS.into()) as u8);
    let code = |class: u8| OCTANTS * (class % CLASSES) + octant;
    let with_reverse = |code: u8| [code, reversed_code(code)];
    match draw.below(5) {
        0 => (0..NO_EDGE).collect(),
        1 => (0..OCTANTS).map(|octant| OCTANTS * class + octant).collect(),
        2 => with_reverse(code(class)).to_vec(),
        3 => (class..class + 3).flat_map(|class| with_reverse(code(class))).collect(),
        _ => {
            let (first, letters) = (draw.below(NO_EDGE.into()), draw.one(&[1, 2, 4, 26]));
            (first..first + letters).map(|letter| (letter % usize::from(NO_EDGE)) as u8).collect()
        }
    }
}

/// A code from 248 to 254: no edge, and not the mark.
pub fn no_edge(draw: &mut Draw) -> u8 {
    draw.between(NO_EDGE.into(), usize::from(MARK) - 1) as u8
}

/// Marks in one line of three, and codes from 248 to 254 in one of three. In a line neither is a fault.
fn strew_both(draw: &mut Draw, line: &mut [u8], m: usize) {
    if draw.chance(3) {
        strew(draw, line, m);
    }
    if draw.chance(3) && !line.is_empty() {
        for _ in 0..draw.between(1, 5) {
            let place = draw.below(line.len());
            line[place] = no_edge(draw);
        }
    }
}

/// Exactly the room required; now and then more.
pub fn lent(draw: &mut Draw, ring: Vec<u8>, line: Vec<u8>, allowance: usize) -> Search {
    let mut search = Search::new(ring, line, allowance).two_way();
    search.room += if draw.chance(3) { draw.between(1, 9) } else { 0 };
    search
}

pub const LIBRARY_BY_HAND: u64 = BY_HAND.len() as u64;

/// The rows counted by hand.
pub fn by_hand(index: u64, draw: &mut Draw) -> Search {
    let ByHand { ring, line, allowance, .. } = &BY_HAND[index as usize];
    lent(draw, ring.to_vec(), line.to_vec(), *allowance)
}

const SMALL_LINES: u64 = small_lines(6);
pub const EVERY_SMALL: u64 = SMALL_LINES * small_rings(4);

/// Every line of up to 6 edges over two edges and the mark, with every ring of up to 4 edges and every allowance. The two are
/// each other's reverse, or not.
pub fn every_small(index: u64, draw: &mut Draw) -> Search {
    let letters = draw.one(&[[0, 4], [4, 0], [0, 4], [247, 243], [0, 1], [8, 0], [247, 0]]);
    let Search { ring, line, allowance, .. } = small_search_over(letters, index, SMALL_LINES);
    lent(draw, ring, line, allowance)
}

pub fn random(_: u64, draw: &mut Draw) -> Search {
    let (m, n) = (draw.between(1, 40), draw.below(200));
    let codes = edge_codes(draw);
    let (ring, mut line) = (draw.edges(&codes, m), draw.edges(&codes, n));
    strew_both(draw, &mut line, m);
    let allowance = draw.allowance(m);
    lent(draw, ring, line, allowance)
}

/// The ring, the reversed ring, or one of them by chance.
fn either(draw: &mut Draw, ring: &[u8], which: u64) -> Vec<u8> {
    match which % 3 {
        0 => ring.to_vec(),
        1 => reversed(ring),
        _ if draw.chance(2) => ring.to_vec(),
        _ => reversed(ring),
    }
}

/// Rotated copies with up to k + 2 edges changed: forward only, backward only, or both. They stand at the line's ends, anywhere,
/// and overlap the copy before. In one line of four each copy has a mark at its side or within it.
fn plant_either(draw: &mut Draw, ring: &[u8], line: &mut [u8], allowance: usize, which: u64) {
    let (m, last) = (ring.len(), line.len() - ring.len());
    let marked = draw.chance(4);
    let mut before = 0;
    for _ in 0..draw.between(1, 6) {
        let beside = (before + draw.between(1, m)).min(last);
        let any = draw.below(last + 1);
        before = draw.one(&[0, last, any, beside]);
        let (copied, edits) = (either(draw, ring, which), draw.below(allowance + 3));
        plant(draw, &copied, line, before, edits);
        if marked {
            mark_seams(draw, line, before, m);
        }
    }
}

pub fn planted(index: u64, draw: &mut Draw) -> Search {
    let (any, about_words) = (draw.between(1, 40), draw.one(&ABOUT_WORDS));
    let m = draw.one(&[any, any, any, any, any, any, any, about_words]);
    let n = m + draw.below(5 * m);
    let codes = edge_codes(draw);
    let (ring, mut line) = (draw.edges(&codes, m), draw.edges(&codes, n));
    strew_both(draw, &mut line, m);
    let allowance = draw.allowance(m);
    plant_either(draw, &ring, &mut line, allowance, index);
    lent(draw, ring, line, allowance)
}

/// A ring that is its own reverse, up to rotation: some edges out, and their reverse back, from any of them on. It has an even
/// number of edges, since no edge is its own reverse.
fn out_and_back(draw: &mut Draw, codes: &[u8], most: usize) -> Vec<u8> {
    let half = draw.between(1, most);
    let out = draw.edges(codes, half);
    let whole = [&out[..], &reversed(&out)].concat();
    repeated(&whole, draw.below(2 * half), 2 * half)
}

/// Such a ring, in copies with edges changed. Each start is found in both passes or in none.
pub fn own_reverse(_: u64, draw: &mut Draw) -> Search {
    let codes = edge_codes(draw);
    let ring = out_and_back(draw, &codes, 20);
    let m = ring.len();
    let n = m + draw.below(4 * m);
    let mut line = draw.edges(&codes, n);
    strew_both(draw, &mut line, m);
    let allowance = draw.allowance(m);
    plant_either(draw, &ring, &mut line, allowance, 0);
    lent(draw, ring, line, allowance)
}

/// The ring and the line are a part over and over, and the line's part is the ring's or its reverse: several rotations tie, in one
/// pass or in both.
pub fn periodic(index: u64, draw: &mut Draw) -> Search {
    let codes = edge_codes(draw);
    let period = draw.between(1, 8);
    let part = draw.edges(&codes, period);
    let m = period * draw.between(1, 6) + if draw.chance(4) { draw.below(period) } else { 0 };
    let ring = repeated(&part, 0, m);
    let (copied, n) = (either(draw, &part, index), draw.between(1, 160));
    let mut line = repeated(&copied, draw.below(period), n);
    for _ in 0..draw.below(6) {
        let place = draw.below(n);
        line[place] = draw.one(&codes);
    }
    strew_both(draw, &mut line, m);
    let allowance = draw.allowance(m);
    lent(draw, ring, line, allowance)
}

/// The ring over and over, or its reverse: every window is a candidate of one pass, so that its looks reach the bound. A ring that
/// is its own reverse reaches it in both.
pub fn against_bound(index: u64, draw: &mut Draw) -> Search {
    let codes = edge_codes(draw);
    let ring = if index % 4 == 3 { out_and_back(draw, &codes, 16) } else { Vec::new() };
    let any = draw.one(&[1, 2, 3, 4, 7, 8, 16, 33, 64]);
    let ring = if ring.is_empty() { draw.edges(&codes, any) } else { ring };
    let m = ring.len();
    let n = m + draw.below(4 * m + 30);
    let copied = either(draw, &ring, index);
    let mut line = repeated(&copied, draw.below(m), n);
    if draw.chance(4) {
        let every = draw.between(1, m);
        line.iter_mut().step_by(every).for_each(|edge| *edge = MARK - 1);
    }
    let few = draw.allowance(m);
    let allowance = draw.one(&[few, m - 1]);
    lent(draw, ring, line, allowance)
}

/// Boundaries one after another with marks between them, each a copy of the ring or of its reverse, an edge short, or any edges.
pub fn boundaries(_: u64, draw: &mut Draw) -> Search {
    let m = draw.between(1, 24);
    let codes = edge_codes(draw);
    let ring = draw.edges(&codes, m);
    let mut line = vec![MARK; draw.below(2)];
    for _ in 0..draw.between(1, 6) {
        let (copied, any) = (either(draw, &ring, 2), draw.below(2 * m));
        let copy = repeated(&copied, draw.below(m), m);
        line.extend(match draw.below(6) {
            0 => copy[1..].to_vec(),
            1 => draw.edges(&codes, any),
            _ => copy,
        });
        line.extend(vec![MARK; draw.one(&[1, 1, 1, 1, 2, 0])]);
    }
    let allowance = draw.allowance(m);
    lent(draw, ring, line, allowance)
}
