//! A call of the library with all it is given.

use super::draw::Draw;
use super::silences::{book_of, silences};
use crate::second::line::Line;
use crate::second::meaning::FINDING_WORDS;

#[derive(Clone, Debug)]
pub struct Search {
    pub ring: Vec<u8>,
    pub line: Vec<u8>,
    pub allowance: usize,
    /// Words lent for findings.
    pub room: usize,
    /// What the join area holds before the call; a search without one is open.
    pub join: Option<Vec<u8>>,
}

/// The numbers to import are vertices, each north before east.
#[derive(Clone, Debug)]
pub enum Call {
    Survey(Search),
    Scan(Search),
    Report { cell: u32, ring_number: u16, search: Search, book: Vec<u8> },
    Pack { words: Vec<u32>, room: usize },
    Unpack { book: Vec<u8>, room: usize },
    Import { numbers: Vec<i32>, room: usize },
}

impl Call {
    /// What survey, scan and report have in common; the other calls have none.
    pub fn search(&self) -> Option<&Search> {
        match self {
            Call::Survey(search) | Call::Scan(search) | Call::Report { search, .. } => Some(search),
            Call::Pack { .. } | Call::Unpack { .. } | Call::Import { .. } => None,
        }
    }
}

impl Search {
    /// A search with exactly the room that refusal 4 requires.
    pub fn new(ring: Vec<u8>, line: Vec<u8>, allowance: usize) -> Search {
        let room = room(ring.len(), line.len());
        Search { ring, line, allowance, room, join: None }
    }

    /// The same search in closed mode, with exactly the room that refusal 4 requires there, and this join area.
    pub fn closed(self, join: Vec<u8>) -> Search {
        let room = closed_room(self.ring.len(), self.line.len());
        Search { room, join: Some(join), ..self }
    }

    /// The same search for the two-way scan, with exactly the room that refusal 4 requires there.
    pub fn two_way(self) -> Search {
        let room = two_way_room(self.ring.len(), self.line.len());
        Search { room, ..self }
    }

    pub fn is_closed(&self) -> bool {
        self.join.is_some()
    }

    /// The line as the second program reads it.
    pub fn line(&self) -> Line<'_> {
        Line { edges: &self.line, closed: self.is_closed() }
    }

    /// How many edges the windows lie in: n, and in closed mode n + m − 1 where there is a window.
    pub fn whole(&self) -> usize {
        let (m, n) = (self.ring.len(), self.line.len());
        if self.is_closed() && m > 0 && n >= m {
            n + m - 1
        } else {
            n
        }
    }
}

/// A finding for each window, marks or not.
pub fn room(m: usize, n: usize) -> usize {
    if n >= m {
        FINDING_WORDS * (n - m + 1)
    } else {
        0
    }
}

/// The same for a closed line: a finding for each place.
pub fn closed_room(m: usize, n: usize) -> usize {
    if n >= m {
        FINDING_WORDS * n
    } else {
        0
    }
}

/// The same for the two-way scan: a finding of each pass for each window.
pub fn two_way_room(m: usize, n: usize) -> usize {
    2 * room(m, n)
}

/// The bytes of the join area that a closed search of a line not shorter than the ring requires.
pub fn join_bytes(m: usize) -> usize {
    (2 * m).saturating_sub(2)
}

/// The cell and the ring number of a report.
pub fn cell_and_ring(draw: &mut Draw) -> (u32, u16) {
    let any = draw.number();
    draw.one(&[(7, 2), (0, 0), (u32::MAX, u16::MAX), (0, 5), (5, 0), (any as u32, (any >> 32) as u16)])
}

/// The same search as survey, scan or report in turn.
pub fn in_turn_as_it_is(index: u64, draw: &mut Draw, search: Search) -> Call {
    match index % 3 {
        0 => Call::Survey(search),
        1 => Call::Scan(search),
        _ => {
            let (cell, ring_number) = cell_and_ring(draw);
            let starts = search.line().windows(search.ring.len());
            let count = draw.one(&[0, 1, 3, 10, 40]);
            let book = book_of(silences(draw, cell, ring_number, starts, count));
            Call::Report { cell, ring_number, search, book }
        }
    }
}

/// The same; now and then with more room than is required.
pub fn in_turn(index: u64, draw: &mut Draw, mut search: Search) -> Call {
    if draw.chance(3) {
        search.room += draw.between(1, 9);
    }
    in_turn_as_it_is(index, draw, search)
}
