//! Every refusal of the two-way scan alone, and every two at once.

use super::call::{room, Search};
use super::draw::Draw;
use super::faults::pair;
use super::marks::mark_ring;
use super::two_way::{edge_codes, no_edge};
use crate::second::meaning::MARK;

const OF_TWO_WAY: [u32; 6] = [1, 12, 2, 14, 3, 4];
/// Those that the ring and the allowance give alone.
const OF_RING: [u32; 4] = [1, 12, 2, 14];

/// A code from 248 to 254 at one place or more that has no mark.
fn spoil_codes(draw: &mut Draw, ring: &mut [u8]) {
    let places: Vec<usize> = (0..ring.len()).filter(|&place| ring[place] != MARK).collect();
    if places.is_empty() {
        return;
    }
    for _ in 0..draw.between(1, 3) {
        ring[draw.one(&places)] = no_edge(draw);
    }
}

/// A ring of m edges and an allowance with the faults 12, 14 and 2 among those named.
fn faulty_ring(draw: &mut Draw, faults: [u32; 2], m: usize) -> (Vec<u8>, usize) {
    let codes = edge_codes(draw);
    let mut ring = draw.edges(&codes, m);
    if faults.contains(&12) {
        mark_ring(draw, &mut ring);
    }
    if faults.contains(&14) {
        spoil_codes(draw, &mut ring);
    }
    let few = if m == 0 { 0 } else { draw.allowance(m) };
    let above = draw.one(&[m, m + 1, m + 256, usize::MAX]);
    (ring, if faults.contains(&2) { above } else { few })
}

/// The length of a ring that refusal 1 is given for, if it is named, or else one that is accepted.
fn ring_length(draw: &mut Draw, faults: [u32; 2], most: usize) -> usize {
    if faults.contains(&1) {
        draw.one(&[0, 257, 258, 300, 1_000])
    } else {
        draw.between(1, most)
    }
}

pub fn one_and_two(index: u64, draw: &mut Draw) -> Search {
    let faults = pair(&OF_TWO_WAY, index);
    let m = ring_length(draw, faults, 20);
    let near = draw.below(60);
    let n = if faults.contains(&3) { draw.one(&[65_537, 65_538, 70_000]) } else { m + near };
    let (ring, allowance) = faulty_ring(draw, faults, m);
    let codes = edge_codes(draw);
    let mut search = Search::new(ring, draw.edges(&codes, n), allowance).two_way();
    if faults.contains(&4) {
        let needed = search.room;
        search.room = draw.one(&[needed - 1, needed - 4, room(m, n), room(m, n) - 1, needed / 4, 0]);
    }
    search
}

/// With a line shorter than the ring no word is needed, and the ring is judged all the same.
pub fn without_start(index: u64, draw: &mut Draw) -> Search {
    let faults = pair(&OF_RING, index);
    let m = ring_length(draw, faults, 256);
    let (ring, allowance) = faulty_ring(draw, faults, m);
    let line = vec![1; draw.below(m.max(1))];
    Search { room: draw.one(&[0, 0, 3]), ring, line, allowance, join: None }
}

pub const ABOUT_FOURTEEN: u64 = 96;

/// 14 with each of the others at once and few words lent, so that the trial can copy them: with 1, 12 and 2 before it, with 3
/// and 4 behind it, alone, and the same ring with 247 in its place.
pub fn about_fourteen(index: u64, draw: &mut Draw) -> Search {
    let other = [1, 12, 2, 3, 4, 14][(index % 6) as usize];
    let m = ring_length(draw, [other, 14], 9).max(2);
    let (mut ring, allowance) = faulty_ring(draw, [other, 14], m);
    if index % 12 == 11 {
        ring.iter_mut().for_each(|code| *code = (*code).min(247));
    }
    let n = if other == 3 { 65_537 } else { m + draw.below(20) };
    let mut search = Search::new(ring, vec![247; n], allowance).two_way();
    if matches!(other, 3 | 4) {
        search.room = draw.one(&[0, 7]);
    }
    search
}
