//! Empty slices passed as null pointers.

use super::call::{room, Call, Search};
use super::draw::Draw;
use super::silences::any_ceiling;
use crate::second::book::{Silence, FIELD, SILENCE_WORDS};

/// Slices of survey, scan, report, pack and unpack.
const SLICES: [u64; 5] = [3, 3, 4, 2, 2];
/// One for each call and each choice of slices that are empty.
pub const CHOICES: u64 = 8 + 8 + 16 + 4 + 4;

/// Each call with each choice of its slices empty. An empty slice is passed as a null pointer.
pub fn each_choice(index: u64, draw: &mut Draw) -> Call {
    let (mut choice, mut which) = (index % CHOICES, 0);
    while choice >= 1 << SLICES[which] {
        choice -= 1 << SLICES[which];
        which += 1;
    }
    let full = |slice: u64, length: usize| if choice >> slice & 1 == 1 { 0 } else { length };
    let m = draw.between(1, 9);
    let n = draw.between(1, 20);
    let (ring, line) = (vec![4; full(0, m)], vec![4; full(1, n)]);
    let needed = room(ring.len(), line.len()).max(1);
    let search = Search { room: full(2, needed), ring, line, allowance: draw.below(m), join: None };
    let book = Silence { cell: 7, ring_number: 2, start: 1, ceiling: any_ceiling(draw) }.field();
    match which {
        0 => Call::Survey(search),
        1 => Call::Scan(search),
        2 => Call::Report { cell: 7, ring_number: 2, search, book: book[..full(3, book.len())].to_vec() },
        3 => Call::Pack { words: vec![7; full(0, SILENCE_WORDS)], room: full(1, FIELD) },
        _ => Call::Unpack { book: book[..full(0, book.len())].to_vec(), room: full(1, SILENCE_WORDS) },
    }
}
