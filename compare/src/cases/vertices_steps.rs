//! Boundaries to import that have a given step: on each ray and beside it, at each length; and with vertices at the ends of the
//! numbers.

use super::call::Call;
use super::draw::Draw;
use super::vertices::{closed_by, lent, vertex, Vertex};
use crate::second::vertices::RAYS;

/// The widest step: from the least number to the greatest.
const WIDEST: i64 = (1 << 32) - 1;

/// 2^k − 1, 2^k and 2^k + 1 for k from 1 to 31, then 2^32 − 1.
const LENGTHS: u64 = 32 * 3;

fn length(index: u64) -> i64 {
    ((2 << (index / 3)) - 1 + (index % 3) as i64).min(WIDEST)
}

/// How far beside the ray the step lies, less 2.
const BESIDE: u64 = 5;
/// The step is the first edge, the second, or the closing one.
const EDGES: u64 = 3;
pub const ABOUT_RAYS: u64 = RAYS.len() as u64 * LENGTHS * BESIDE * EDGES;

/// The step along a ray, with one of its numbers up to 2 more or less. On an axis that is the number that is 0.
fn step(draw: &mut Draw, ray: usize, length: i64, beside: i64) -> [i64; 2] {
    let mut step = [RAYS[ray].north, RAYS[ray].east].map(|number| number as i64 * length);
    let other = step.iter().position(|&number| number == 0).unwrap_or(draw.below(2));
    step[other] = (step[other] + beside).clamp(-WIDEST, WIDEST);
    step
}

/// A number from which this step leads to a number of 32 bits: the least, the greatest, one about the middle, or any.
fn before(draw: &mut Draw, step: i64) -> i32 {
    let (least, greatest) = (i64::from(i32::MIN), i64::from(i32::MAX));
    let (least, greatest) = (least.max(least - step), greatest.min(greatest - step));
    let any = least + draw.below((greatest - least + 1) as usize) as i64;
    draw.one(&[least, greatest, (-step / 2).clamp(least, greatest), any]) as i32
}

pub fn about_rays(index: u64, draw: &mut Draw) -> Call {
    let mut rest = index;
    let mut digit = |base: u64| {
        let digit = rest % base;
        rest /= base;
        digit
    };
    let (ray, beside, edge) = (digit(RAYS.len() as u64), digit(BESIDE), digit(EDGES));
    let step = step(draw, ray as usize, length(digit(LENGTHS)), beside as i64 - 2);
    let from = step.map(|number| before(draw, number));
    let to = [0, 1].map(|axis| (i64::from(from[axis]) + step[axis]) as i32);
    let (count, bits) = (draw.between(3, 6), draw.between(2, 32));
    let mut vertices = closed_by(draw, vec![from, to], count, |draw| vertex(draw, bits));
    vertices.rotate_right([0, 1, count - 1][edge as usize]);
    lent(draw, &vertices)
}

const HALF: i32 = 1 << 30;
/// The ends, the middle, and numbers that are 2^30 − 1, 2^30, 2^31 and 2^32 − 1 apart.
const FAR: [i32; 14] = [
    i32::MIN,
    i32::MIN + 1,
    i32::MIN + 2,
    -HALF - 1,
    -HALF,
    1 - HALF,
    -1,
    0,
    1,
    HALF - 1,
    HALF,
    HALF + 1,
    i32::MAX - 1,
    i32::MAX,
];

/// Boundaries over these numbers; in half of the cases over four of them, so that rays and neighbours that share a number
/// come up.
pub fn far(_: u64, draw: &mut Draw) -> Call {
    let few = [0; 4].map(|_| draw.one(&FAR));
    let all = draw.chance(2) || few.iter().all(|&number| number == few[0]);
    let one = |draw: &mut Draw| -> Vertex { [0; 2].map(|_| if all { draw.one(&FAR) } else { draw.one(&few) }) };
    let count = draw.between(3, 8);
    let vertices = closed_by(draw, Vec::new(), count, one);
    lent(draw, &vertices)
}
