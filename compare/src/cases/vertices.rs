//! Boundaries to import: of every size, on one line, and every small one.

use super::call::Call;
use super::draw::Draw;
use crate::second::refusals::FEWEST_VERTICES;
use crate::second::vertices_by_hand::BY_HAND;

/// North and east.
pub type Vertex = [i32; 2];

/// A number of at most `bits` bits, its sign among them.
fn number(draw: &mut Draw, bits: usize) -> i32 {
    draw.number() as i32 >> (32 - bits)
}

pub fn vertex(draw: &mut Draw, bits: usize) -> Vertex {
    [number(draw, bits), number(draw, bits)]
}

/// The given vertices and behind them others, drawn by `one`, up to this count. None of those equals the one before it, and
/// the last does not equal the first.
pub fn closed_by(
    draw: &mut Draw,
    mut vertices: Vec<Vertex>,
    count: usize,
    one: impl Fn(&mut Draw) -> Vertex,
) -> Vec<Vertex> {
    while vertices.len() < count {
        let next = one(draw);
        let closes = vertices.len() + 1 == count && vertices.first() == Some(&next);
        if vertices.last() != Some(&next) && !closes {
            vertices.push(next);
        }
    }
    vertices
}

/// A boundary without equal neighbours, of numbers of at most `bits` bits.
pub fn boundary(draw: &mut Draw, count: usize, bits: usize) -> Vec<Vertex> {
    closed_by(draw, Vec::new(), count, |draw| vertex(draw, bits))
}

/// Exactly the room required; now and then more.
pub fn lent(draw: &mut Draw, vertices: &[Vertex]) -> Call {
    let more = if draw.chance(3) { draw.between(1, 70) } else { 0 };
    Call::Import { numbers: vertices.concat(), room: vertices.len() + more }
}

pub const LIBRARY_BY_HAND: u64 = BY_HAND.len() as u64;

/// The boundaries worked out by hand.
pub fn by_hand(index: u64, _: &mut Draw) -> Call {
    let numbers = BY_HAND[index as usize].numbers.to_vec();
    Call::Import { room: numbers.len() / 2, numbers }
}

/// Up to 60 vertices; in one case of 50 up to 4,096. The numbers have 1 to 32 bits.
pub fn random(_: u64, draw: &mut Draw) -> Call {
    let most = if draw.chance(50) { 4_096 } else { 60 };
    let (count, bits) = (draw.between(FEWEST_VERTICES, most), draw.between(1, 32));
    let vertices = boundary(draw, count, bits);
    lent(draw, &vertices)
}

/// Vertices on one line, along an axis or a diagonal, beside one, or in any direction. The boundary goes on and turns back on
/// this line.
pub fn collinear(_: u64, draw: &mut Draw) -> Call {
    let any = [draw.below(2_001) as i32 - 1_000, draw.below(2_001) as i32 - 1_000];
    let [north, east] = draw.one(&[[1, 0], [0, 1], [1, 1], [1, -1], [1_000, 999], [999, -1_000], [1, -1_000], any]);
    let direction = if [north, east] == [0, 0] { [-1, -1] } else { [north, east] };
    let (from, most) = (vertex(draw, 30), draw.one(&[1, 2, 10, 100_000]));
    let count = draw.between(FEWEST_VERTICES, 12);
    let vertices = closed_by(draw, Vec::new(), count, |draw| {
        let times = draw.between(0, 2 * most) as i32 - most as i32;
        [0, 1].map(|axis| from[axis] + times * direction[axis])
    });
    lent(draw, &vertices)
}

const SIDE: u64 = 5;
const TRIANGLES: u64 = (SIDE * SIDE).pow(3);
const SMALL_SIDE: u64 = 3;
const FOURS: u64 = (SMALL_SIDE * SMALL_SIDE).pow(4);
pub const EVERY_SMALL: u64 = TRIANGLES + FOURS;

/// Every three vertices of a field of 5 by 5, and every four of one of 3 by 3, equal neighbours too. The field lies about 0,
/// at an end of the numbers, or anywhere.
pub fn every_small(index: u64, draw: &mut Draw) -> Call {
    let (mut rest, side, count) = if index < TRIANGLES { (index, SIDE, 3) } else { (index - TRIANGLES, SMALL_SIDE, 4) };
    let corner = |draw: &mut Draw| {
        let any = number(draw, 31);
        draw.one(&[-2, -2, i32::MIN, i32::MAX - 4, any])
    };
    let from = [corner(draw), corner(draw)];
    let mut digit = || {
        let digit = (rest % side) as i32;
        rest /= side;
        digit
    };
    let vertices: Vec<Vertex> = (0..count).map(|_| from.map(|least| least + digit())).collect();
    lent(draw, &vertices)
}
