//! The import of vertices worked out by hand. Document 02 prints no sample of ticket 7, so these were worked out from its
//! sentences, apart from this program. Bearings are computed by another method, in floating point, as far as that is safe.

use super::reversed::OCTANTS;
use super::vertices::{bit_length_less_one, code, import, octant, Pair};

const LEAST: i32 = i32::MIN;
const MOST: i32 = i32::MAX;

pub struct ByHand {
    /// North and east of each vertex.
    pub numbers: &'static [i32],
    edges: &'static [u8],
}

const fn by_hand(numbers: &'static [i32], edges: &'static [u8]) -> ByHand {
    ByHand { numbers, edges }
}

pub const BY_HAND: [ByHand; 14] = [
    // Squares of side 1 and 10, clockwise: north, east, south, west. 10 has four bits.
    by_hand(&[0, 0, 1, 0, 1, 1, 0, 1], &[0, 2, 4, 6]),
    by_hand(&[0, 0, 10, 0, 10, 10, 0, 10], &[24, 26, 28, 30]),
    // The second one at another place, from another vertex, and anticlockwise.
    by_hand(&[-990, -7, -980, -7, -980, 3, -990, 3], &[24, 26, 28, 30]),
    by_hand(&[10, 10, 0, 10, 0, 0, 10, 0], &[28, 30, 24, 26]),
    by_hand(&[0, 0, 0, 10, 10, 10, 10, 0], &[26, 24, 30, 28]),
    // The four diagonals, and all eight rays.
    by_hand(&[0, 0, 1, 1, 0, 2, -1, 1], &[1, 3, 5, 7]),
    by_hand(&[0, 0, 1, 0, 2, 1, 2, 2, 1, 3, 0, 3, -1, 2, -1, 1], &[0, 1, 2, 3, 4, 5, 6, 7]),
    // No step on a ray.
    by_hand(&[0, 0, 2, 1, 1, 3], &[8, 10, 13]),
    // Three vertices on one line: two steps north, and back over both.
    by_hand(&[0, 0, 1, 0, 3, 0], &[0, 8, 12]),
    // Out and back, twice: a vertex stands twice, and has other neighbours.
    by_hand(&[0, 0, 1, 0, 0, 0, 0, 1], &[0, 4, 2, 6]),
    // The corners of the field, and two of them with a diagonal: 2^32 − 1 has 32 bits, so its class 31 is taken as 30.
    by_hand(&[LEAST, LEAST, MOST, LEAST, MOST, MOST, LEAST, MOST], &[240, 242, 244, 246]),
    by_hand(&[LEAST, LEAST, MOST, MOST, MOST, LEAST], &[241, 246, 244]),
    // Steps of 2^31, which has 32 bits as well.
    by_hand(&[0, 0, LEAST, 0, 0, LEAST], &[244, 247, 242]),
    // 2^30 − 1 is of class 29, 2^30 of class 30.
    by_hand(&[0, 0, 1_073_741_823, 0, 1_073_741_823, 1_073_741_824], &[232, 242, 245]),
];

impl ByHand {
    fn holds(&self) -> bool {
        let imported = import(self.numbers, self.edges.len());
        imported.is_ok_and(|given| given.written == self.edges && given.found == self.edges.len())
    }
}

const WIDEST: i128 = (1 << 32) - 1;

/// A step north and east, and its code.
const CODES: [(i128, i128, u8); 44] = [
    (1, 0, 0),
    (1, 1, 1),
    (0, 1, 2),
    (-1, 1, 3),
    (-1, 0, 4),
    (-1, -1, 5),
    (0, -1, 6),
    (1, -1, 7),
    (2, 1, 8),
    (1, 2, 9),
    (-1, 2, 10),
    (-2, 1, 11),
    (-2, -1, 12),
    (-1, -2, 13),
    (1, -2, 14),
    (2, -1, 15),
    (4, 3, 16),
    (7, -7, 23),
    (7, -8, 30),
    (8, -7, 31),
    (8, -8, 31),
    (1000, 999, 72),
    (1000, 1000, 73),
    (999, 1000, 73),
    (1, 1000, 73),
    (0, 1000, 74),
    (-1, 1000, 74),
    (-999, 1000, 74),
    (-1000, 1000, 75),
    (-1000, 1, 75),
    (-1000, 0, 76),
    (-1000, -1, 76),
    (-1000, -1000, 77),
    (-1, -1000, 77),
    (0, -1000, 78),
    (999, -1000, 78),
    (1000, -1000, 79),
    (1000, -1, 79),
    (1000, 0, 72),
    (WIDEST, WIDEST - 1, 240),
    (-WIDEST, WIDEST, 243),
    (-WIDEST, -WIDEST, 245),
    (WIDEST - 1, -WIDEST, 246),
    (WIDEST, -1, 247),
];

fn coded((north, east, due): (i128, i128, u8)) -> bool {
    code(Pair { north, east }) == due
}

/// Numbers and room, with the refusal's number and place; 0 for accepted.
type Judged = (&'static [i32], usize, (u32, usize));

const JUDGED: [Judged; 24] = [
    (&[], 0, (15, 0)),
    (&[1], 9, (15, 0)),
    (&[0, 0], 9, (15, 0)),
    (&[0, 0, 1, 0], 9, (15, 0)),
    (&[0, 0, 0, 0], 0, (15, 0)),
    (&[0, 0, 1, 0, 1], 9, (15, 0)),
    (&[0, 0, 1, 0, 1, 1], 3, (0, 0)),
    (&[0, 0, 1, 0, 1, 1], 4, (0, 0)),
    (&[0, 0, 1, 0, 1, 1], 2, (10, 0)),
    (&[0, 0, 1, 0, 1, 1], 0, (10, 0)),
    (&[0, 0, 1, 0, 1, 1, 0], 9, (15, 0)),
    (&[0, 0, 0, 0, 0, 0, 0], 0, (15, 0)),
    (&[0, 0, 0, 0, 1, 1], 3, (16, 0)),
    (&[0, 0, 1, 1, 1, 1], 3, (16, 1)),
    (&[1, 1, 0, 0, 1, 1], 3, (16, 2)),
    (&[1, 1, 0, 0, 1, 1], 0, (16, 2)),
    (&[5, 5, 5, 5, 5, 5], 3, (16, 0)),
    (&[5, 5, 0, 0, 7, 7, 7, 7, 5, 5], 5, (16, 2)),
    (&[5, 5, 0, 0, 7, 7, 8, 8, 5, 5], 5, (16, 4)),
    (&[5, 5, 5, 5, 7, 7, 8, 8, 5, 5], 5, (16, 0)),
    // One of the two numbers alone is equal, east equals the next north, or the two are exchanged.
    (&[0, 5, 0, 6, 1, 6], 3, (0, 0)),
    (&[5, 7, 7, 7, 7, 5], 3, (0, 0)),
    (&[1, 2, 2, 1, 1, 3], 3, (0, 0)),
    (&[0, 0, 1, 0, 0, 0, 1, 0], 4, (0, 0)),
];

fn judged((numbers, room, due): Judged) -> bool {
    import(numbers, room).map_or_else(|refused| (refused.number, refused.place), |_| (0, 0)) == due
}

/// How many numbers there are, and the refusal; 0 for accepted.
const COUNTS: [(usize, u32); 9] =
    [(6, 0), (7, 15), (8, 0), (8_190, 0), (8_191, 15), (8_192, 0), (8_193, 15), (8_194, 15), (131_078, 15)];

/// Vertices with north 0, 1, 2 and so on, and east 0.
fn counted((count, due): (usize, u32)) -> bool {
    let numbers: Vec<i32> = (0..count as i32).map(|number| if number % 2 == 0 { number / 2 } else { 0 }).collect();
    import(&numbers, count / 2).map_or_else(|refused| refused.number, |_| 0) == due
}

/// Steps whose bearing and length are compared with floating point.
const BEARINGS: usize = 4_000;

/// A step of up to 33 bits, the two numbers of like size or not, from a sequence of its own.
fn step_of(index: usize) -> Pair {
    let mixed = |salt: u64| {
        (index as u64 + salt).wrapping_mul(0x9E37_79B9_7F4A_7C15).rotate_left(31).wrapping_mul(0xD6E8_FEB8_6659_FD93)
    };
    let number =
        |salt: u64, bits: u64| i128::from(mixed(salt) >> (64 - bits)) * if mixed(salt + 1) >> 63 == 1 { -1 } else { 1 };
    let bits = 2 + mixed(1 << 40) % 31;
    let other = if index % 3 == 0 { 2 + mixed(1 << 41) % 31 } else { bits };
    Pair { north: number(1 << 42, bits), east: number(1 << 43, other) }
}

/// Whether a value lies so far from the next whole number that a rounded computation of it has the same whole part.
fn is_safe(value: f64) -> bool {
    (0.000_01..0.999_99).contains(&(value - value.floor()))
}

/// The bearing in octants, clockwise from north, and the length in doublings of 1, both by floating point.
fn bearing_holds(index: usize) -> bool {
    let step = step_of(index);
    let (north, east) = (step.north as f64, step.east as f64);
    let turns = east.atan2(north) / std::f64::consts::TAU;
    let bearing = f64::from(OCTANTS) * if turns < 0.0 { turns + 1.0 } else { turns };
    let doublings = north.abs().max(east.abs()).log2();
    let octant_holds = !is_safe(bearing) || f64::from(octant(step)) == bearing.floor();
    octant_holds && (!is_safe(doublings) || f64::from(bit_length_less_one(step.larger())) == doublings.floor())
}

pub const COUNT: usize = BY_HAND.len() + CODES.len() + JUDGED.len() + COUNTS.len() + BEARINGS;

/// Whether the second program gives what was worked out by hand, and the octants and classes of floating point.
pub fn holds(index: usize) -> bool {
    let in_list = |index: usize| {
        let boundaries = BY_HAND.iter().map(ByHand::holds);
        let codes = CODES.into_iter().map(coded);
        let refusals = JUDGED.into_iter().map(judged);
        boundaries.chain(codes).chain(refusals).chain(COUNTS.into_iter().map(counted)).nth(index)
    };
    match (COUNT - BEARINGS).checked_sub(index + 1) {
        Some(_) => in_list(index).expect("a row by hand"),
        None => bearing_holds(index + BEARINGS - COUNT),
    }
}

#[cfg(test)]
mod tests {
    use super::{bearing_holds, holds, is_safe, step_of, BEARINGS, COUNT};

    #[test]
    fn what_was_worked_out_by_hand() {
        assert_eq!((0..COUNT).find(|&index| !holds(index)), None);
    }

    /// Far more steps than the comparison takes, nearly all of them safe, and in every octant.
    #[test]
    fn octants_and_classes_of_floating_point() {
        assert_eq!((0..100 * BEARINGS).find(|&index| !bearing_holds(index)), None);
        let safe = |index: &usize| {
            let step = step_of(*index);
            is_safe((step.east as f64).atan2(step.north as f64) / std::f64::consts::FRAC_PI_4 + 8.0)
        };
        assert!((0..BEARINGS).filter(safe).count() > BEARINGS / 10 * 9);
    }
}
