//! Two boundaries to import that are one outline: moved, from another vertex, drawn the other way, turned, and twice the size.

use super::draw::Draw;
use super::vertices::{boundary, Vertex};
use super::{Bond, Bound, Call};
use crate::second::refusals::FEWEST_VERTICES;

/// A boundary of up to 40 vertices, of numbers of at most `most` bits.
fn outline(draw: &mut Draw, most: usize) -> Vec<Vertex> {
    let (count, any) = (draw.between(FEWEST_VERTICES, 40), draw.between(2, most));
    let bits = draw.one(&[any, any, most]);
    boundary(draw, count, bits)
}

/// Both with the same room, which is exact or more.
fn bound(draw: &mut Draw, outlines: [&[Vertex]; 2], bond: Bond) -> Bound {
    let more = if draw.chance(3) { draw.between(1, 70) } else { 0 };
    let import = |vertices: &[Vertex]| Call::Import { numbers: vertices.concat(), room: vertices.len() + more };
    (outlines.map(import), bond)
}

/// How far the numbers of an axis can be moved: as far as possible either way, or anywhere between.
fn shift(draw: &mut Draw, vertices: &[Vertex], axis: usize) -> i64 {
    let numbers = || vertices.iter().map(|vertex| i64::from(vertex[axis]));
    let (least, greatest) = (numbers().min().unwrap_or(0), numbers().max().unwrap_or(0));
    let (down, up) = (i64::from(i32::MIN) - least, i64::from(i32::MAX) - greatest);
    let any = down + draw.below((up - down + 1) as usize) as i64;
    draw.one(&[down, up, any, any])
}

/// The outline at another place. Nothing but the steps counts.
pub fn elsewhere(draw: &mut Draw, vertices: &[Vertex]) -> Vec<Vertex> {
    let by = [0, 1].map(|axis| shift(draw, vertices, axis));
    let moved = |vertex: &Vertex| [0, 1].map(|axis| (i64::from(vertex[axis]) + by[axis]) as i32);
    vertices.iter().map(moved).collect()
}

pub fn moved(_: u64, draw: &mut Draw) -> Bound {
    let first = outline(draw, 31);
    let second = elsewhere(draw, &first);
    bound(draw, [&first, &second], Bond::Same)
}

pub fn from_another_vertex(_: u64, draw: &mut Draw) -> Bound {
    let first = outline(draw, 32);
    let (mut second, from) = (first.clone(), draw.below(first.len()));
    second.rotate_left(from);
    bound(draw, [&first, &second], Bond::From(from))
}

pub fn opposite(_: u64, draw: &mut Draw) -> Bound {
    let first = outline(draw, 32);
    let second: Vec<Vertex> = first.iter().rev().copied().collect();
    bound(draw, [&first, &second], Bond::Opposite)
}

/// North becomes east, and east becomes south.
pub fn quarter(_: u64, draw: &mut Draw) -> Bound {
    let first = outline(draw, 31);
    let second: Vec<Vertex> = first.iter().map(|&[north, east]| [-east, north]).collect();
    bound(draw, [&first, &second], Bond::Quarter)
}

pub fn doubled(_: u64, draw: &mut Draw) -> Bound {
    let first = outline(draw, 31);
    let second: Vec<Vertex> = first.iter().map(|vertex| vertex.map(|number| 2 * number)).collect();
    bound(draw, [&first, &second], Bond::Doubled)
}
