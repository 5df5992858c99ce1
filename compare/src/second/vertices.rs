//! The edges of a boundary from its vertices (ticket 7). The octant is found by the side of each ray that a step lies on, and
//! the length class by doubling. All numbers are exact.

use super::calls::{Answered, Outcome};
use super::refusals;
use super::reversed::{CLASSES, OCTANTS};

/// "pairs of signed 32-bit whole numbers, north before east" (ticket 7). A step is such a pair too, of up to 33 bits.
#[derive(Clone, Copy, Debug, PartialEq, Eq)]
pub struct Pair {
    pub north: i128,
    pub east: i128,
}

const fn pair(north: i128, east: i128) -> Pair {
    Pair { north, east }
}

/// The first ray of each octant. "0 where dn > 0 and 0 ≤ de < dn, and so on clockwise" (ticket 7): octant 0 begins at north
/// and ends at north-east.
pub const RAYS: [Pair; OCTANTS as usize] =
    [pair(1, 0), pair(1, 1), pair(0, 1), pair(-1, 1), pair(-1, 0), pair(-1, -1), pair(0, -1), pair(1, -1)];

impl Pair {
    /// Above 0 if a step lies clockwise of this ray by less than a half turn, below 0 if anticlockwise, and 0 if it lies on
    /// the ray or opposite to it.
    pub fn side(self, step: Pair) -> i128 {
        self.north * step.east - self.east * step.north
    }

    pub fn to(self, next: Pair) -> Pair {
        pair(next.north - self.north, next.east - self.east)
    }

    pub fn larger(self) -> i128 {
        self.north.abs().max(self.east.abs())
    }
}

/// The ray that ends an octant, which is the first of the next.
pub fn last_ray(octant: u8) -> Pair {
    RAYS[usize::from((octant + 1) % OCTANTS)]
}

/// "each octant holding its first ray and not its last" (ticket 7): at its first ray or clockwise of it, and anticlockwise of
/// its last. A step of nothing lies in none.
fn holds(octant: u8, step: Pair) -> bool {
    RAYS[usize::from(octant)].side(step) >= 0 && last_ray(octant).side(step) < 0
}

pub fn octant(step: Pair) -> u8 {
    let holding: Vec<u8> = (0..OCTANTS).filter(|&octant| holds(octant, step)).collect();
    let [octant] = holding[..] else { panic!("{step:?} lies in the octants {holding:?}") };
    octant
}

/// "the bit length of the larger of |dn| and |de|, less one" (ticket 7): the greatest power of two that is not above it.
pub fn bit_length_less_one(larger: i128) -> u8 {
    let (mut power, mut doublings) = (1, 0);
    while 2 * power <= larger {
        power *= 2;
        doublings += 1;
    }
    doublings
}

/// "with 31 taken as 30" (ticket 7).
pub fn class(step: Pair) -> u8 {
    bit_length_less_one(step.larger()).min(CLASSES - 1)
}

/// "8·length class + octant" (ticket 6).
pub fn code(step: Pair) -> u8 {
    OCTANTS * class(step) + octant(step)
}

pub fn vertices(numbers: &[i32]) -> Vec<Pair> {
    numbers.chunks_exact(2).map(|numbers| pair(numbers[0].into(), numbers[1].into())).collect()
}

/// The step from each vertex to the next. "The last vertex joins the first" (ticket 7).
pub fn steps(numbers: &[i32]) -> Vec<Pair> {
    let vertices = vertices(numbers);
    (0..vertices.len()).map(|at| vertices[at].to(vertices[(at + 1) % vertices.len()])).collect()
}

/// "two equal neighbours, place the first of the earliest pair, from 0 (the last vertex for the closing pair)" (ticket 7):
/// the place of each such pair. Equal neighbours have a step of nothing between them.
pub fn equal_neighbours(numbers: &[i32]) -> Vec<usize> {
    let steps = steps(numbers);
    (0..steps.len()).filter(|&place| steps[place].larger() == 0).collect()
}

/// "Only edge bytes come out, one per vertex" (ticket 7).
pub fn import(numbers: &[i32], room: usize) -> Outcome<u8> {
    refusals::vertices(numbers, room)?;
    let written: Vec<u8> = steps(numbers).into_iter().map(code).collect();
    Ok(Answered { found: written.len(), written, ..Answered::default() })
}
