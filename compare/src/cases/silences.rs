//! Silences of both tags, as books and as words to pack.

use super::draw::Draw;
use crate::second::book::Silence;

/// No ceiling, which is tag 21, or one near the bounds of its two bytes.
pub fn any_ceiling(draw: &mut Draw) -> Option<u16> {
    let (few, any) = (draw.below(5) as u16, draw.below(65_536) as u16);
    draw.one(&[None, None, None, Some(0), Some(few), Some(few), Some(255), Some(256), Some(65_535), Some(any)])
}

/// On either side of a distance: equal, one below, one above, with its bytes exchanged, or any.
pub fn ceiling_about(draw: &mut Draw, distance: usize) -> Option<u16> {
    let (distance, any) = (distance as u16, any_ceiling(draw));
    let (below, exchanged) = (Some(distance.saturating_sub(1)), Some(distance.swap_bytes()));
    draw.one(&[Some(distance), Some(distance), below, below, Some(distance + 1), exchanged, None, any])
}

/// Silences about a cell and a ring: most name them, the others lie one beside them or at zero.
pub fn silences(draw: &mut Draw, cell: u32, ring_number: u16, starts: usize, count: usize) -> Vec<Silence> {
    let one = |draw: &mut Draw| {
        let beside = draw.one(&[1, u32::MAX]);
        let other_cell = draw.one(&[cell.wrapping_add(beside), 0]);
        let other_ring = draw.one(&[ring_number.wrapping_add(beside as u16), 0]);
        let cell = if draw.chance(5) { other_cell } else { cell };
        let ring_number = if draw.chance(5) { other_ring } else { ring_number };
        let start = if draw.chance(12) { draw.number() as u32 } else { draw.below(starts.max(1) + 1) as u32 };
        Silence { cell, ring_number, start, ceiling: any_ceiling(draw) }
    };
    (0..count).map(|_| one(draw)).collect()
}

/// These silences in rising order. Of several at one address the first stays.
pub fn rising(mut silences: Vec<Silence>) -> Vec<Silence> {
    silences.sort_by_key(Silence::address);
    silences.dedup_by_key(|silence| silence.address());
    silences
}

/// The bytes of these silences, in the order given.
pub fn laid_out(silences: &[Silence]) -> Vec<u8> {
    silences.iter().flat_map(Silence::field).collect()
}

/// The book of these silences in rising order.
pub fn book_of(silences: Vec<Silence>) -> Vec<u8> {
    laid_out(&rising(silences))
}

/// The same as words to pack.
pub fn rising_words(silences: Vec<Silence>) -> Vec<u32> {
    rising(silences).iter().flat_map(Silence::words).collect()
}
