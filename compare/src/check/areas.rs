//! Memory for the library's calls, and what a call leaves in it.

use super::compared::{Left, Lent, Side};
use crate::cases::call::{Call, Search};
use crate::library::Empty;
use crate::memory::{bytes_of, Area, Placement, WORD};
use crate::second::meaning::{FINDING_WORDS, MARK};
use crate::second::reversed::NO_EDGE;
use std::borrow::Cow;

/// More than any ring, line and book of a case has, refused ones included. The book's area is also that of words to pack and of
/// vertices.
const MOST_RING: usize = 4_096;
const MOST_LINE: usize = 75_000;
/// Books, words to pack, and the numbers of more than 65,536 vertices.
const MOST_BOOK: usize = 600_000;
/// Two findings for each edge of a line, as the two-way scan may have.
const MOST_LENT: usize = WORD * 2 * FINDING_WORDS * MOST_LINE;
const MOST_JOIN: usize = 2 * MOST_RING;

/// Memory for one worker's calls.
pub struct Areas {
    pub(super) ring: Area,
    pub(super) line: Area,
    pub(super) book: Area,
    pub(super) lent: Area,
    pub(super) join: Area,
}

/// What a call writes. The packer and the import of vertices are given words and write bytes.
#[derive(Clone, Copy, PartialEq, Eq)]
enum Output {
    Words,
    Book,
    Edges,
}

/// What a call is given: its inputs, how many bytes it is lent for its output, and what its join area holds. A call that is
/// lent no join area has an empty one.
pub(super) struct Parts<'a> {
    ring: &'a [u8],
    line: &'a [u8],
    book: Cow<'a, [u8]>,
    room: usize,
    join: &'a [u8],
    output: Output,
}

impl<'a> Parts<'a> {
    pub fn of_search(search: &'a Search, book: &'a [u8]) -> Parts<'a> {
        let Search { ring, line, room, join, .. } = search;
        let join = join.as_deref().unwrap_or_default();
        Parts { ring, line, book: book.into(), room: WORD * room, join, output: Output::Words }
    }

    pub fn of(call: &'a Call) -> Parts<'a> {
        let of_book = |book, room, output| Parts { ring: &[], line: &[], book, room, join: &[], output };
        match call {
            Call::Survey(search) | Call::Scan(search) => Parts::of_search(search, &[]),
            Call::Report { search, book, .. } => Parts::of_search(search, book),
            Call::Pack { words, room } => of_book(bytes_of(words).into(), *room, Output::Book),
            Call::Unpack { book, room } => of_book(book.into(), WORD * room, Output::Words),
            Call::Import { numbers, room } => {
                let bytes: Vec<u8> = numbers.iter().flat_map(|number| number.to_ne_bytes()).collect();
                of_book(bytes.into(), *room, Output::Edges)
            }
        }
    }
}

impl Areas {
    pub fn new() -> Areas {
        let [ring, line, book, lent, join] = [MOST_RING, MOST_LINE, MOST_BOOK, MOST_LENT, MOST_JOIN].map(Area::new);
        Areas { ring, line, book, lent, join }
    }

    fn inputs(&self) -> [&Area; 3] {
        [&self.ring, &self.line, &self.book]
    }

    fn inputs_with_canaries(&self) -> [Vec<u8>; 3] {
        self.inputs().map(|area| area.surrounded().to_vec())
    }

    /// Puts the inputs and the lent areas in place: open bytes at changing alignments, words at multiples of 4.
    fn lay(&mut self, parts: &Parts, placement: Placement) {
        let Parts { ring, line, book, room, join, output } = parts;
        let shift = (ring.len() + line.len() + book.len() + room) % 8;
        let (of_book, of_lent) = if *output == Output::Words { (shift, 0) } else { (shift / WORD * WORD, shift) };
        self.ring.lay(placement, shift, ring);
        self.line.lay(placement, 7 - shift, line);
        self.book.lay(placement, of_book, book);
        self.lent.lay(placement, of_lent, &unlike(*output, *room));
        self.join.lay(placement, (shift + 3) % 8, join);
    }

    /// The lent areas with their canaries.
    fn written(&self) -> Lent {
        let side = |area: &Area| Side { bytes: area.surrounded().to_vec(), front: area.front() };
        Lent { words: side(&self.lent), join: side(&self.join) }
    }

    /// Lays the parts out and makes a call with them. Returns what the call left behind, and the lent areas before it.
    pub(super) fn call<A>(
        &mut self,
        parts: &Parts,
        placement: Placement,
        ask: impl FnOnce(&mut Areas, Empty) -> A,
    ) -> (Left<A>, Lent) {
        self.lay(parts, placement);
        let (inputs, before) = (self.inputs_with_canaries(), self.written());
        let empty = if placement == Placement::Null { Empty::Null } else { Empty::AsLent };
        if placement.guarded() {
            self.inputs().into_iter().for_each(|area| area.writable(false));
        }
        let answer = ask(self, empty);
        if placement.guarded() {
            self.inputs().into_iter().for_each(|area| area.writable(true));
        }
        let inputs_kept = self.inputs_with_canaries() == inputs;
        (Left { answer, lent: self.written(), inputs_kept }, before)
    }
}

impl Default for Areas {
    fn default() -> Areas {
        Areas::new()
    }
}

/// What the lent area holds beforehand: each word unlike its neighbours and unlike any word of a finding. Where edges are to
/// come, it holds bytes that are no edges, each unlike its neighbours.
fn unlike(output: Output, length: usize) -> Vec<u8> {
    if output == Output::Edges {
        return (NO_EDGE..MARK).cycle().take(length).collect();
    }
    let words = (0..length.div_ceil(WORD)).map(|at| 0xB000_0000 | (at as u32).wrapping_mul(0x9E_3779));
    words.flat_map(u32::to_ne_bytes).take(length).collect()
}
