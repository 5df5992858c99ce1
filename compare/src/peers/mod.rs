//! Peers: what a user might pick instead of the library, the library's own rules written again in C and in Rust, and the limit
//! of what we can write by hand.
//! All give the same findings: start, the lowest rotation that reaches the least distance, that distance, and how many
//! rotations reach it. A window that holds a mark is no start.
pub mod acb;
pub mod acbq;
pub mod acsmf;
mod automaton;
pub mod c_rules;
mod filter;
mod findings;
pub mod limit;
pub mod max_shift;
pub mod naive;
mod nearest;
pub mod rules;
pub mod sliding;
mod vectors;

pub use findings::FINDING_WORDS;

/// The boundary mark. No ring holds it, so it fits and equals no edge of a ring.
pub const MARK: u8 = 255;

/// A refusal's number and place, or 0 and 0 with the counts of an accepted call. The layout is that of the C header.
#[repr(C)]
#[derive(Clone, Copy, Debug, Default, PartialEq, Eq)]
pub struct Answer {
    pub refusal: usize,
    pub place: usize,
    pub found: usize,
    pub hidden: usize,
    pub looks: usize,
}

/// The arguments of a report: those of the scan, the cell and ring number to look up in the book, and the book.
#[derive(Clone, Copy)]
pub struct Question<'a> {
    pub cell: u32,
    pub ring_number: u16,
    pub ring: &'a [u8],
    pub line: &'a [u8],
    pub k: usize,
    pub book: &'a [u8],
}

/// Scan or survey: ring, line, allowance, lent words.
pub type Search = fn(&[u8], &[u8], usize, &mut [u32]) -> Answer;

/// The calls of documents 01 and 02 that the benchmark times, in one implementation: those of open lines, and of closed ones
/// scan and survey.
pub struct Rules {
    pub scan: Search,
    pub survey: Search,
    pub report: fn(&Question, &mut [u32]) -> Answer,
    pub scan_closed: Search,
    pub survey_closed: Search,
}

/// A peer finds, and counts no looks. It is only given what a scan accepts.
pub struct Peer {
    pub name: &'static str,
    pub search: fn(&[u8], &[u8], usize, &mut [u32]) -> usize,
}

pub const PEERS: [Peer; 6] = [
    Peer { name: "ACB", search: acb::search },
    Peer { name: "ACBq", search: acbq::search },
    Peer { name: "ACSMF-Simple", search: acsmf::search },
    Peer { name: "MW-MaxShiftM", search: max_shift::search },
    Peer { name: "naive", search: naive::search },
    Peer { name: "sliding survey", search: sliding::search },
];

/// A closed line as an open one: the line followed by its first m − 1 edges, or the line itself where it is shorter than the
/// ring.
pub fn lengthened(line: &[u8], m: usize) -> Vec<u8> {
    let more = if line.len() >= m { m - 1 } else { 0 };
    [line, &line[..more]].concat()
}

/// The ring twice, end to end: every rotation is a part of it.
pub fn doubled(ring: &[u8]) -> Vec<u8> {
    [ring, ring].concat()
}
