//! The table of refusals. Each check stands alone; the calls put them in their order.

use super::meaning::{holds_mark, FINDING_WORDS};
use super::reversed::NO_EDGE;
use super::vertices::equal_neighbours;

#[derive(Clone, Copy, Debug, PartialEq, Eq)]
pub struct Refused {
    pub number: u32,
    pub place: usize,
}

pub const LONGEST_RING: usize = 256;
pub const LONGEST_LINE: usize = 65_536;
/// "5 at 15,000 bytes; [..] 8 a multiple of 4, at most 4,000" (ticket 4).
pub const LONGEST_BOOK: usize = 15_000;
pub const MOST_WORDS_TO_PACK: usize = 4_000;
/// "fewer than 3 or more than 4,096 vertices" (ticket 7).
pub const FEWEST_VERTICES: usize = 3;
pub const MOST_VERTICES: usize = 4_096;

pub fn refuse_if(given: bool, number: u32, place: usize) -> Result<(), Refused> {
    if given {
        Err(Refused { number, place })
    } else {
        Ok(())
    }
}

/// Refusals 1, 12 and 2, which every search has. "12, a ring holding 255, place 0, after 1 and before 2" (ticket 2).
fn ring_and_allowance(ring: &[u8], allowance: usize) -> Result<(), Refused> {
    let m = ring.len();
    refuse_if(m == 0 || m > LONGEST_RING, 1, 0)?;
    refuse_if(holds_mark(ring), 12, 0)?;
    refuse_if(allowance >= m, 2, 0)
}

/// Refusal 3 asks n alone: a closed search accepts 65,536 edges, though m − 1 more are read behind them.
fn line_length(n: usize) -> Result<(), Refused> {
    refuse_if(n > LONGEST_LINE, 3, 0)
}

/// Refusals 1, 12, 2 and 3, which open and closed searches begin with.
fn limits(ring: &[u8], n: usize, allowance: usize) -> Result<(), Refused> {
    ring_and_allowance(ring, allowance)?;
    line_length(n)
}

/// The refusals that survey, scan and report share. "4 now asks 4·(n − m + 1) words" (ticket 1): a finding for each window,
/// with or without a mark.
pub fn search(ring: &[u8], line: &[u8], allowance: usize, room: usize) -> Result<(), Refused> {
    let (m, n) = (ring.len(), line.len());
    limits(ring, n, allowance)?;
    refuse_if(n >= m && room < FINDING_WORDS * (n - m + 1), 4, 0)
}

/// The same in closed mode, for a join area of `join` bytes. "findings room is 4·n words. Refusals: in this mode 4 uses that
/// figure, and 10, after 4, is given when the join area is below 2·m − 2 bytes and n ≥ m" (ticket 3).
pub fn closed_search(ring: &[u8], line: &[u8], allowance: usize, room: usize, join: usize) -> Result<(), Refused> {
    let (m, n) = (ring.len(), line.len());
    limits(ring, n, allowance)?;
    refuse_if(n >= m && room < FINDING_WORDS * n, 4, 0)?;
    refuse_if(n >= m && join < 2 * m - 2, 10, 0)
}

/// "14, a ring code above 247, place the first such ring place, after 2 and in this scan only; 4 asks room for both passes,
/// 8·(n − m + 1) words" (ticket 6).
pub fn two_way(ring: &[u8], line: &[u8], allowance: usize, room: usize) -> Result<(), Refused> {
    let (m, n) = (ring.len(), line.len());
    ring_and_allowance(ring, allowance)?;
    let first = ring.iter().position(|&code| code >= NO_EDGE);
    refuse_if(first.is_some(), 14, first.unwrap_or(0))?;
    line_length(n)?;
    refuse_if(n >= m && room < 2 * FINDING_WORDS * (n - m + 1), 4, 0)
}

/// "15, an odd count of numbers, or fewer than 3 or more than 4,096 vertices, place 0; 16, two equal neighbours, place the
/// first of the earliest pair [..]; 10 for room; in that order" (ticket 7).
pub fn vertices(numbers: &[i32], room: usize) -> Result<(), Refused> {
    let count = numbers.len() / 2;
    refuse_if(numbers.len() % 2 == 1 || !(FEWEST_VERTICES..=MOST_VERTICES).contains(&count), 15, 0)?;
    let equal = equal_neighbours(numbers);
    refuse_if(!equal.is_empty(), 16, equal.first().copied().unwrap_or(0))?;
    refuse_if(room < count, 10, 0)
}
