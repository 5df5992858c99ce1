//! Windows in which several rotations reach the least distance, and windows in which only one of several near ones does.
//! Rings of up to 5 edges over two letters are among every small ring, and periods up to 8 among the periodic rings. Here the
//! rings are of any length, and the distance at which rotations tie is chosen.

use super::call::{in_turn, Call, Search};
use super::draw::{Draw, CODES};
use super::marks::strew;
use super::searches::{repeated, ABOUT_WORDS};
use crate::second::meaning::MARK;
use crate::second::refusals::LONGEST_RING;

fn ring_length(draw: &mut Draw, least: usize, most: usize) -> usize {
    let any = draw.between(least, most);
    let about_words = draw.one(&ABOUT_WORDS).clamp(least, most);
    draw.one(&[any, about_words])
}

/// A number that divides m, below m where there is one.
fn part_of(draw: &mut Draw, m: usize) -> usize {
    let parts: Vec<usize> = (1..m.max(2)).filter(|part| m % part == 0).collect();
    draw.one(&parts)
}

/// The ring and the line are one part over and over. If its p codes all differ, m / p rotations tie at every start: at 0, or
/// at the number of foreign edges in the window. With p = 1 all m of them tie.
pub fn parts(index: u64, draw: &mut Draw) -> Call {
    let m = ring_length(draw, 1, LONGEST_RING);
    let p = part_of(draw, m);
    let codes = draw.alphabet(p + 1);
    let (foreign, own) = (codes[p], &codes[..p]);
    let part = if draw.chance(3) { draw.edges(own, p) } else { own.to_vec() };
    let n = m + draw.below(m + 40);
    let mut line = repeated(&part, draw.below(p), n);
    let edits = draw.below(4);
    draw.places(n, edits.min(n)).into_iter().for_each(|place| line[place] = foreign);
    if draw.chance(4) {
        strew(draw, &mut line, m);
    }
    let any = draw.allowance(m);
    let allowance = draw.one(&[edits, edits.saturating_sub(1), any]).min(m - 1);
    in_turn(index, draw, Search::new(repeated(&part, 0, m), line, allowance))
}

/// A window that has each of its places from one of the rotations: in turn, or in blocks as in P12.
fn shared(ring: &[u8], rotations: &[usize], blocks: bool) -> Vec<u8> {
    let (m, count) = (ring.len(), rotations.len());
    let whose = |q: usize| if blocks { q * count / m } else { q % count };
    (0..m).map(|q| ring[(rotations[whose(q)] + q) % m]).collect()
}

/// The ring's codes all differ, so the distance under a rotation is m less its share of the window. If the number of
/// rotations divides m, all of them tie; else some have one place more than the others and tie, or a single one has. In a
/// quarter of the lines each window stands between marks.
pub fn shared_windows(index: u64, draw: &mut Draw) -> Call {
    let m = ring_length(draw, 2, CODES);
    let ring = draw.alphabet(m);
    let marks = usize::from(draw.chance(4));
    let count = draw.between(2, m.min(5));
    let mut line = Vec::new();
    for _ in 0..draw.between(1, 3) {
        let apart = draw.below(4);
        line.extend(draw.edges(&ring, apart));
        line.extend(vec![MARK; marks]);
        let rotations = draw.places(m, count);
        line.extend(shared(&ring, &rotations, draw.chance(2)));
        line.extend(vec![MARK; marks]);
    }
    // The distance under a rotation with a larger share, and with a smaller one. With the second as allowance all of these
    // rotations are within k, also those that do not reach the least.
    let (least, other) = (m - m.div_ceil(count), m - m / count);
    let allowance = draw.one(&[least, other, other, least.saturating_sub(1), m - 1]);
    in_turn(index, draw, Search::new(ring, line, allowance))
}
