//! The two-way scan counted by hand. Document 02 prints no sample of ticket 6, so these were worked out from its sentences,
//! apart from this program.

use super::calls::Answered;
use super::meaning::FINDING_WORDS;
use super::reversed::{reversed, reversed_code};
use super::two_way::scan_two_way;

/// Start, rotation, distance, ties.
type Counted = [u32; FINDING_WORDS];
/// The findings of a pass and its looks.
type Pass = (&'static [Counted], u64);

pub struct ByHand {
    pub ring: &'static [u8],
    pub line: &'static [u8],
    pub allowance: usize,
    forward: Pass,
    backward: Pass,
}

const fn by_hand(
    (ring, line, allowance): (&'static [u8], &'static [u8], usize),
    forward: Pass,
    backward: Pass,
) -> ByHand {
    ByHand { ring, line, allowance, forward, backward }
}

/// One edge in each of four octants, all of class 0. Reversed it is 2, 0, 6, 4: each edge has another one behind it.
const SQUARE: &[u8] = &[0, 2, 4, 6];
/// Reversed it is 6, 4.
const CORNER: &[u8] = &[0, 2];

pub const BY_HAND: [ByHand; 17] = [
    // Forward only: 4 edges and 16 afresh. Backward 4 stands before 6, so the second edge read is a break.
    by_hand((SQUARE, &[0, 2, 4, 6], 0), (&[[0, 0, 0, 1]], 20), (&[], 2)),
    // Backward only, from the reversed ring's first edge and from its third.
    by_hand((SQUARE, &[2, 0, 6, 4], 0), (&[], 2), (&[[0, 0, 0, 1]], 20)),
    by_hand((SQUARE, &[6, 4, 2, 0], 0), (&[], 2), (&[[0, 2, 0, 1]], 20)),
    // Both. Forward the windows at 1 and at 4 are left at the second edge; backward that at 0 is, and that at 3 at the fourth.
    by_hand((SQUARE, &[0, 2, 4, 6, 2, 0, 6, 4], 0), (&[[0, 0, 0, 1]], 20 + 2 + 2), (&[[4, 0, 0, 1]], 2 + 4 + 20)),
    // One edge differs. Forward the third and the first edge of the window are breaks.
    by_hand((SQUARE, &[2, 0, 7, 4], 1), (&[], 4), (&[[0, 0, 1, 1]], 20)),
    // A mark: forward the window at 1 is left at once, backward that at 3 after two edges that fit.
    by_hand((SQUARE, &[0, 2, 4, 6, 255, 2, 0, 6, 4], 0), (&[[0, 0, 0, 1]], 20 + 1 + 2), (&[[5, 0, 0, 1]], 2 + 3 + 20)),
    // Out and back: the ring is its own reverse.
    by_hand((&[0, 4], &[0, 4], 0), (&[[0, 0, 0, 1]], 6), (&[[0, 0, 0, 1]], 6)),
    // Its reverse is 4, 0, 1, 5, which is the ring itself from its third edge on.
    by_hand((&[1, 5, 4, 0], &[1, 5, 4, 0], 0), (&[[0, 0, 0, 1]], 20), (&[[0, 2, 0, 1]], 20)),
    // One edge, whose reverse is 4.
    by_hand((&[0], &[4, 0], 0), (&[[1, 0, 0, 1]], 3), (&[[0, 0, 0, 1]], 3)),
    // P6 the other way round: the reverse is 4, 4.
    by_hand((&[0, 0], &[4, 4, 4], 0), (&[], 1), (&[[0, 0, 0, 2], [1, 0, 0, 2]], 12)),
    // Classes 3 and 30: the reverse is 243, 29.
    by_hand((&[25, 247], &[243, 29], 0), (&[], 1), (&[[0, 0, 0, 1]], 6)),
    // Codes that are no edges stand in the line like others.
    by_hand((&[0, 4], &[248, 0, 4, 254], 0), (&[[1, 0, 0, 1]], 2 + 6 + 1), (&[[1, 0, 0, 1]], 2 + 6 + 1)),
    by_hand((CORNER, &[252, 6, 4], 0), (&[], 1), (&[[1, 0, 0, 1]], 2 + 6)),
    // One start found in both passes, backward under rotation 0 and under rotation 1.
    by_hand((CORNER, &[0, 4], 1), (&[[0, 0, 1, 1]], 6), (&[[0, 0, 1, 1]], 6)),
    by_hand((CORNER, &[4, 2], 1), (&[[0, 0, 1, 1]], 6), (&[[0, 1, 1, 1]], 6)),
    // Every edge is a break in both passes.
    by_hand((CORNER, &[9, 9], 1), (&[], 2), (&[], 2)),
    // n < m: no start and no look.
    by_hand((SQUARE, &[0, 2, 4], 3), (&[], 0), (&[], 0)),
];

fn gives(answered: &Answered<u32>, (findings, looks): Pass) -> bool {
    answered.written == findings.concat() && answered.found == findings.len() && answered.looks == looks
}

impl ByHand {
    fn holds(&self) -> bool {
        let room = 2 * FINDING_WORDS * self.line.len();
        let passes = scan_two_way(self.ring, self.line, self.allowance, room).expect("a row by hand is accepted");
        gives(&passes.forward, self.forward)
            && gives(&passes.backward, self.backward)
            && passes.written() == [self.forward.0, self.backward.0].concat().concat()
    }
}

/// A ring, the length of a line of zeros, the allowance and the room, with the refusal's number and place; 0 for accepted.
type Judged = (&'static [u8], [usize; 3], (u32, usize));

const JUDGED: [Judged; 20] = [
    (&[], [3, 0, 32], (1, 0)),
    (&[248; 257], [300, 0, 999], (1, 0)),
    (&[248, 255], [3, 0, 16], (12, 0)),
    (&[255, 248], [3, 2, 0], (12, 0)),
    (&[0, 248], [3, 2, 16], (2, 0)),
    (&[0, 248], [3, 1, 16], (14, 1)),
    (&[0, 248], [65_537, 1, 0], (14, 1)),
    (&[0, 248], [3, 1, 0], (14, 1)),
    (&[254], [0, 0, 0], (14, 0)),
    (&[0, 2, 250, 249], [9, 0, 48], (14, 2)),
    (&[247], [1, 0, 8], (0, 0)),
    (&[247], [1, 0, 7], (4, 0)),
    (&[247], [65_537, 0, 0], (3, 0)),
    (&[247], [65_537, 1, 0], (2, 0)),
    (CORNER, [3, 0, 16], (0, 0)),
    (CORNER, [3, 0, 15], (4, 0)),
    (CORNER, [3, 0, 8], (4, 0)),
    (CORNER, [2, 0, 8], (0, 0)),
    (CORNER, [1, 0, 0], (0, 0)),
    (CORNER, [0, 1, 0], (0, 0)),
];

fn judged((ring, [n, allowance, room], (number, place)): Judged) -> bool {
    let given = scan_two_way(ring, &vec![0; n], allowance, room);
    given.map_or_else(|refused| (refused.number, refused.place), |_| (0, 0)) == (number, place)
}

/// A ring and the reversed ring.
const RINGS: [(&[u8], &[u8]); 8] = [
    (&[], &[]),
    (&[0], &[4]),
    (&[0, 1, 2, 3, 4, 5, 6, 7], &[3, 2, 1, 0, 7, 6, 5, 4]),
    (&[8, 9, 14, 15], &[11, 10, 13, 12]),
    (&[124, 120], &[124, 120]),
    (&[240, 243, 244, 247], &[243, 240, 247, 244]),
    (&[248, 249, 250, 251, 252, 253, 254, 255], &[255, 254, 253, 252, 251, 250, 249, 248]),
    (&[0, 248, 247], &[243, 248, 4]),
];

fn turned((ring, other): (&[u8], &[u8])) -> bool {
    reversed(ring) == other && reversed(other) == ring
}

/// Codes and what they are reversed to, both ways.
const CODES: [[u8; 2]; 10] =
    [[0, 4], [1, 5], [3, 7], [8, 12], [100, 96], [127, 123], [128, 132], [243, 247], [248, 248], [255, 255]];

fn paired([code, other]: [u8; 2]) -> bool {
    reversed_code(code) == other && reversed_code(other) == code
}

pub const COUNT: usize = BY_HAND.len() + JUDGED.len() + RINGS.len() + CODES.len();

/// Whether the second program gives what was worked out by hand.
pub fn holds(index: usize) -> bool {
    let scans = BY_HAND.iter().map(ByHand::holds);
    let refusals = JUDGED.into_iter().map(judged);
    let rings = RINGS.into_iter().map(turned);
    let codes = CODES.into_iter().map(paired);
    scans.chain(refusals).chain(rings).chain(codes).nth(index).expect("a row by hand")
}
