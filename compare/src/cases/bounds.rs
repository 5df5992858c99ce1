//! Lines that come near the look bound, and the limits that document 01 names.

use super::call::{in_turn, in_turn_as_it_is, Call, Search};
use super::draw::Draw;
use super::searches::repeated;
use crate::second::meaning::MARK;

/// A ring with one edge that no other shares, in a line without it: the break comes on the last edge read.
fn late_break(m: usize, n: usize) -> (Vec<u8>, Vec<u8>) {
    let mut ring = vec![b'a'; m];
    ring[m - 1] = b'b';
    (ring, vec![b'a'; n])
}

/// The ring over and over, with a foreign edge or a mark about every one and a half rings.
fn half_apart(draw: &mut Draw, m: usize, n: usize) -> (Vec<u8>, Vec<u8>) {
    let part = draw.between(1, m / 2 + 1);
    let ring: Vec<u8> = (0..m).map(|place| (place % part) as u8).collect();
    let mut line = repeated(&ring, 0, n);
    let apart = m / 2 + draw.below(3);
    let between = draw.one(&[MARK - 1, MARK]);
    for place in (m..n).step_by(m + apart.max(1)) {
        line[place] = between;
    }
    (ring, line)
}

/// The ring over and over: every start is a finding, unless every so often an edge comes that the ring does not have.
fn over_and_over(draw: &mut Draw, m: usize, n: usize, foreign: bool) -> (Vec<u8>, Vec<u8>) {
    let ring: Vec<u8> = (0..m).map(|_| draw.below(4) as u8).collect();
    let mut line = repeated(&ring, draw.below(m), n);
    if foreign {
        let every = draw.between(1, m);
        line.iter_mut().step_by(every).for_each(|edge| *edge = 9);
    }
    (ring, line)
}

pub fn against_bound(index: u64, draw: &mut Draw) -> Call {
    let m = draw.one(&[1, 2, 3, 4, 7, 8, 16, 33, 64]);
    let n = m + draw.below(4 * m + 30);
    let (ring, line) = match index / 3 % 6 {
        0 => (vec![b'a'; m], vec![b'a'; n]),
        1 => late_break(m, n),
        2 => over_and_over(draw, m, n, false),
        3 => over_and_over(draw, m, n, true),
        4 => half_apart(draw, m, n),
        _ => (draw.edges(b"ab", m), vec![b'z'; n]),
    };
    let few = draw.allowance(m);
    let allowance = draw.one(&[few, m - 1]);
    in_turn(index, draw, Search::new(ring, line, allowance))
}

const RINGS: [usize; 4] = [1, 255, 256, 257];
const LINES: usize = 6;
pub const LIMITS: u64 = (RINGS.len() * 2 * LINES * 3 * 3) as u64;

/// m 256 and 257, k = m − 1 and m, n about m and about 65,536, the room exact and one word to either side.
/// One edge code throughout: every window is a candidate and a finding.
pub fn limits(index: u64, draw: &mut Draw) -> Call {
    let mut number = (index / 3) as usize;
    let mut digit = |base: usize| {
        let digit = number % base;
        number /= base;
        digit
    };
    let (ring, above, line, room) = (digit(RINGS.len()), digit(2), digit(LINES), digit(3));
    let m = RINGS[ring];
    let mut n = [m - 1, m, m + 1, 3 * m, 65_536, 65_537][line];
    // The longest lines are costly with a long ring; room to spare is tried on others as well.
    if n == 65_536 && m > 1 && room == 2 {
        n = 1_000;
    }
    let mut search = Search::new(vec![7; m], vec![7; n], m - 1 + above);
    search.room = (search.room + room).saturating_sub(1);
    in_turn_as_it_is(index, draw, search)
}
