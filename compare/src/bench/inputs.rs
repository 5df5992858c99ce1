//! The inputs that are timed. All are made from seeds.
use super::boundaries::{boundaries, boundary};
use super::numbers::Numbers;
use crate::peers::{Question, FINDING_WORDS, MARK};

pub const CELL: u32 = 7;
pub const RING_NUMBER: u16 = 2;
pub const MOST_LINE: usize = 65_536;
const COPIES: usize = 10;
/// The lines of the second mode, so that the branch predictor learns none of them.
const TWELVE: usize = 12;
/// From this allowance on a row here has many candidates.
pub const MANY_CANDIDATES: usize = 15;
/// As many silences as can be packed.
const SILENCES: usize = 1000;

/// Which table an input belongs to.
#[derive(Clone, Copy, PartialEq, Eq, Debug)]
pub enum Kind {
    /// Its row counts in the means.
    Main(Part),
    GrowingLine,
    GrowingRing,
    /// Every start is a finding: for the report against the scan.
    AllFound,
    /// For closed calls against open ones.
    Closed,
    /// For the time of each part of a search.
    Parts,
}

/// A part of the main rows, with a mean of its own.
#[derive(Clone, Copy, PartialEq, Eq, Debug)]
pub enum Part {
    /// Edges drawn evenly from this many codes.
    Codes(usize),
    /// The same, cut by marks.
    Cut,
    Constant,
    Boundaries,
}

#[derive(Clone)]
pub struct Input {
    pub name: String,
    pub kind: Kind,
    pub ring: Vec<u8>,
    pub line: Vec<u8>,
    pub k: usize,
    /// A book of 1,000 silences for this cell and ring number; every second finding, at most 1,000 of them, is among
    /// them. Their ceiling is k, so each hides its finding.
    pub book: Vec<u8>,
}

impl Input {
    pub fn question<'a>(&'a self, book: &'a [u8]) -> Question<'a> {
        Question { cell: CELL, ring_number: RING_NUMBER, ring: &self.ring, line: &self.line, k: self.k, book }
    }

    /// Whether it is timed in the second mode, too.
    pub fn is_begun_anywhere(&self) -> bool {
        matches!(self.kind, Kind::Main(_) | Kind::AllFound)
    }

    /// The line begun at twelve places, as twelve inputs; the first is this one. Their books are still empty.
    pub fn begun_at_twelve_places(&self) -> Vec<Input> {
        let begun_at = |place: usize| [&self.line[place..], &self.line[..place]].concat();
        let places = (0..TWELVE).map(|at| at * self.line.len() / TWELVE);
        places.map(|place| Input { line: begun_at(place), book: Vec::new(), ..self.clone() }).collect()
    }

    /// Fills the book: every second finding, thinned to at most 1,000 of them; then places 65 or 66 apart, from 0 on,
    /// until there are 1,000 silences.
    pub fn silence(&mut self, findings: &[u32]) {
        let mut starts: Vec<u32> = findings.chunks(FINDING_WORDS).step_by(2).map(|finding| finding[0]).collect();
        let step = (starts.len() / SILENCES).max(1);
        starts = starts.into_iter().step_by(step).take(SILENCES).collect();
        let spread = (0..).map(|at| (at * MOST_LINE / SILENCES) as u32);
        let others: Vec<u32> = spread.filter(|start| !starts.contains(start)).take(SILENCES - starts.len()).collect();
        starts.extend(others);
        starts.sort_unstable();
        let ceiling = self.k as u16;
        self.book = starts.into_iter().flat_map(|start| field(start, ceiling)).collect();
    }
}

/// "tag 22, length 12, the old ten bytes and a two-byte distance": cell (4 bytes), ring number (2), start (4), ceiling (2).
pub const FIELD_LENGTH: usize = 15;

fn field(start: u32, ceiling: u16) -> Vec<u8> {
    let (cell, ring_number) = (CELL.to_be_bytes(), RING_NUMBER.to_be_bytes());
    [&[0x22, 0, 12], &cell[..], &ring_number, &start.to_be_bytes(), &ceiling.to_be_bytes()].concat()
}

pub fn random_edges(numbers: &mut Numbers, length: usize, codes: usize) -> Vec<u8> {
    (0..length).map(|_| numbers.below(codes) as u8).collect()
}

/// Puts rotated copies of the ring into the line, one in each tenth of it, each with up to k edges changed. Returns where
/// they begin.
fn plant(numbers: &mut Numbers, ring: &[u8], line: &mut [u8], k: usize) -> Vec<usize> {
    let m = ring.len();
    let tenth = line.len() / COPIES;
    let mut starts = Vec::new();
    for (at, part) in line.chunks_mut(tenth).take(COPIES).enumerate() {
        let start = numbers.below(tenth - m + 1);
        starts.push(at * tenth + start);
        let rotation = numbers.below(m);
        let copy = &mut part[start..start + m];
        copy.iter_mut().enumerate().for_each(|(q, edge)| *edge = ring[(rotation + q) % m]);
        for _ in 0..numbers.below(k + 1) {
            copy[numbers.below(m)] = ring[numbers.below(m)];
        }
    }
    starts
}

/// Puts marks 50 to 200 edges apart, and on either side of each copy, but none within one.
fn cut(numbers: &mut Numbers, line: &mut [u8], copies: &[usize], m: usize) {
    let n = line.len();
    let mut places: Vec<usize> = copies.iter().flat_map(|&start| [start.wrapping_sub(1), start + m]).collect();
    let mut place = 50 + numbers.below(151);
    while place < n {
        places.push(place);
        place += 50 + numbers.below(151);
    }
    let within = |place: usize| copies.iter().any(|&start| (start..start + m).contains(&place));
    places.into_iter().filter(|&place| place < n && !within(place)).for_each(|place| line[place] = MARK);
}

fn planted(kind: Kind, codes: usize, n: usize, m: usize, k: usize) -> Input {
    let mut numbers = Numbers::seeded((codes * 1_000_000 + m * 1000 + k + n) as u64);
    let ring = random_edges(&mut numbers, m, codes);
    let mut line = random_edges(&mut numbers, n, codes);
    let copies = plant(&mut numbers, &ring, &mut line, k);
    if kind == Kind::Main(Part::Cut) {
        cut(&mut numbers, &mut line, &copies, m);
    }
    let name = match kind {
        Kind::GrowingLine | Kind::Closed => format!("n {n}"),
        Kind::GrowingRing => format!("m {m}"),
        Kind::Main(Part::Cut) => format!("{codes}, cut / {m} / {k}"),
        _ => format!("{codes} / {m} / {k}"),
    };
    Input { name, kind, ring, line, k, book: Vec::new() }
}

fn constant(name: &str, kind: Kind, m: usize, k: usize) -> Input {
    Input { name: name.to_string(), kind, ring: vec![1; m], line: vec![1; MOST_LINE], k, book: Vec::new() }
}

/// A line of boundaries; the ring is one boundary more, planted in each tenth.
fn outlined(m: usize, k: usize) -> Input {
    let mut numbers = Numbers::seeded(m as u64);
    let ring = boundary(&mut numbers, m);
    let mut line = boundaries(&mut numbers, MOST_LINE);
    plant(&mut numbers, &ring, &mut line, k);
    Input {
        name: format!("boundaries / {m} / {k}"),
        kind: Kind::Main(Part::Boundaries),
        ring,
        line,
        k,
        book: Vec::new(),
    }
}

/// The most codes that a ring may have: every byte but the mark.
const ALL_CODES: usize = MARK as usize;
const ALPHABETS: [usize; 3] = [4, 26, ALL_CODES];

/// The rows that count in the means: three alphabets, five rings, three allowances; two rows with many candidates; the three
/// alphabets cut by marks; a constant line; boundaries.
fn main_rows() -> Vec<Input> {
    let drawn = |codes, m, k| planted(Kind::Main(Part::Codes(codes)), codes, MOST_LINE, m, k);
    let mut rows = Vec::new();
    for codes in ALPHABETS {
        for m in [20, 40, 60, 128, 256] {
            rows.extend([1, 2, 5].map(|k| drawn(codes, m, k)));
        }
    }
    rows.push(drawn(4, 60, 15));
    rows.push(drawn(4, 256, 60));
    rows.extend(ALPHABETS.map(|codes| planted(Kind::Main(Part::Cut), codes, MOST_LINE, 40, 2)));
    rows.push(constant("constant / 60 / 2", Kind::Main(Part::Constant), 60, 2));
    rows.push(outlined(128, 5));
    rows
}

/// Two lines to be searched open and closed, with one copy more across the seam.
pub fn closed() -> Vec<Input> {
    let mut rows: Vec<Input> = [1 << 10, MOST_LINE].map(|n| planted(Kind::Closed, 26, n, 60, 2)).into();
    for Input { ring, line, .. } in &mut rows {
        let (m, n) = (ring.len(), line.len());
        (0..m).for_each(|q| line[(n - m / 2 + q) % n] = ring[q]);
    }
    rows
}

pub fn all() -> Vec<Input> {
    let mut rows = main_rows();
    rows.extend([12, 13, 14, 15, 16].map(|power| planted(Kind::GrowingLine, 26, 1 << power, 60, 2)));
    rows.extend([8, 16, 32, 64, 128, 256].map(|m| planted(Kind::GrowingRing, 26, MOST_LINE, m, 2)));
    rows.push(constant("constant / 1 / 0", Kind::AllFound, 1, 0));
    rows
}
