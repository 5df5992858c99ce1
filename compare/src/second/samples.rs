//! Document 01's own samples, with the answers as it prints them. Ticket 1 of document 02 adds the ties as a fourth number
//! of each finding: it prints 2 for P6, and the other ties were counted from the meaning, apart from this program.

use super::book::Silence;
use super::calls::Search;
use super::line::Line;
use super::meaning::FINDING_WORDS;
use super::program;
use super::rules::quick_scan;

/// Start, rotation, distance, ties.
type Printed = [u32; FINDING_WORDS];

pub struct Sample {
    pub name: &'static str,
    pub ring: &'static str,
    pub line: &'static str,
    pub allowance: usize,
    pub findings: &'static [Printed],
    pub looks: Option<u64>,
    pub candidates: Option<usize>,
}

const LINE_OF_P1: &str = "GATACGATACCTAGGGTGATAGAATAG";

const fn sample(
    name: &'static str,
    (ring, line, allowance): (&'static str, &'static str, usize),
    findings: &'static [Printed],
    looks: Option<u64>,
) -> Sample {
    Sample { name, ring, line, allowance, findings, looks, candidates: None }
}

pub const SAMPLES: [Sample; 12] = [
    sample("P1", ("GGGTCTA", LINE_OF_P1, 0), &[[10, 4, 0, 1]], None),
    sample("P2", ("GGGTCTA", LINE_OF_P1, 1), &[[9, 3, 1, 1], [10, 4, 0, 1], [11, 5, 1, 1]], None),
    sample("P3", ("ABCDEFGH", "BCzEzGzA", 3), &[[0, 1, 3, 1]], None),
    sample("P4", ("ABCDEFGH", "BCzEzGzA", 2), &[], None),
    sample("P5", ("a", "ba", 0), &[[1, 0, 0, 1]], Some(3)),
    sample("P6", ("aa", "aaa", 0), &[[0, 0, 0, 2], [1, 0, 0, 2]], Some(12)),
    sample("P7", ("abcd", "zzzzzzzzzz", 1), &[], Some(6)),
    sample("P8", ("abc", "ab", 0), &[], Some(0)),
    sample("P9", ("abc", "cab", 0), &[[0, 2, 0, 1]], Some(12)),
    sample("P10", ("ab", "zbz", 1), &[[0, 0, 1, 1], [1, 1, 1, 1]], None),
    Sample { candidates: Some(1), ..sample("P11", ("abcdef", "bcdfab", 1), &[], Some(42)) },
    sample("P12", ("abcdef", "bcdfab", 3), &[[0, 1, 3, 2]], Some(42)),
];

/// The one silence (7, 2, 10) of tag 21, and of tag 22 with the least and the greatest ceiling: start 10 is an exact copy.
const THE_SILENCE: [Silence; 3] = [the_silence(None), the_silence(Some(0)), the_silence(Some(65_535))];

const fn the_silence(ceiling: Option<u16>) -> Silence {
    Silence { cell: 7, ring_number: 2, start: 10, ceiling }
}

/// P2 with that one silence, as ring 2: the report's cell, the shown findings, hidden.
const AS_CELL: [(u32, &[Printed], usize); 2] =
    [(7, &[[9, 3, 1, 1], [11, 5, 1, 1]], 1), (8, &[[9, 3, 1, 1], [10, 4, 0, 1], [11, 5, 1, 1]], 0)];

/// Each silence as each cell.
pub const SILENCED: usize = THE_SILENCE.len() * AS_CELL.len();

/// The book and the cell of a silenced P2.
pub fn silenced(index: usize) -> (Vec<u8>, u32) {
    (THE_SILENCE[index / AS_CELL.len()].field(), AS_CELL[index % AS_CELL.len()].0)
}

pub const EXAMPLE_INPUT: [u8; 40] = [
    0x34, 0x00, 0x04, 0x00, 0x00, 0x00, 0x07, 0x35, 0x00, 0x02, 0x00, 0x02, 0x33, 0x00, 0x01, 0x00, 0x31, 0x00, 0x02,
    0x61, 0x61, 0x32, 0x00, 0x03, 0x61, 0x61, 0x61, 0x21, 0x00, 0x0A, 0x00, 0x00, 0x00, 0x07, 0x00, 0x02, 0x00, 0x00,
    0x00, 0x01,
];

/// The same input with the ceiling 0 in its silence, which is then of tag 22.
pub fn example_of_tag_22() -> Vec<u8> {
    let (fields, book) = EXAMPLE_INPUT.split_at(27);
    [fields, &[0x22, 0x00, 0x0C], &book[3..], &[0x00, 0x00]].concat()
}

pub const EXAMPLE_OUTPUT: &str = "cell 7 ring 2 edges 2 allow 0\n0 0 0 2\nfound 2 hidden 1 looks 12\n";

pub fn bound(m: u64, n: u64) -> u64 {
    3 * m * n - 2 * m * m + m
}

impl Sample {
    pub fn search(&self) -> Search<'_> {
        let (ring, line) = (self.ring.as_bytes(), self.line.as_bytes());
        Search::new(ring, line, self.allowance, FINDING_WORDS * (line.len() + 1))
    }

    fn holds(&self) -> bool {
        let scan = self.search().scan().expect("a sample is accepted");
        let survey = self.search().survey().expect("a sample is accepted");
        let candidates = quick_scan(self.ring.as_bytes(), Line::open(self.line.as_bytes()), self.allowance).candidates;
        let reaches = ["P6", "P9", "P11"].contains(&self.name);
        let (m, n) = (self.ring.len() as u64, self.line.len() as u64);
        scan.written == self.findings.concat()
            && survey.written == self.findings.concat()
            && self.looks.is_none_or(|looks| looks == scan.looks)
            && self.candidates.is_none_or(|count| count == candidates)
            && (!reaches || scan.looks == bound(m, n))
    }
}

fn silenced_holds(index: usize) -> bool {
    let (book, cell) = silenced(index);
    let (_, shown, hidden) = AS_CELL[index % AS_CELL.len()];
    let answered = SAMPLES[1].search().report(cell, 2, &book).expect("a sample is accepted");
    answered.written == shown.concat() && answered.hidden == hidden && answered.found == 3
}

/// P1 to P12, the silenced ones, the program's example under both tags.
pub const COUNT: usize = SAMPLES.len() + SILENCED + 2;

/// Whether the second program gives what document 01 prints.
pub fn holds(index: usize) -> bool {
    let behind = index.checked_sub(SAMPLES.len());
    match behind {
        None => SAMPLES[index].holds(),
        Some(silent) if silent < SILENCED => silenced_holds(silent),
        Some(SILENCED) => program::output(&EXAMPLE_INPUT) == EXAMPLE_OUTPUT,
        Some(_) => program::output(&example_of_tag_22()) == EXAMPLE_OUTPUT,
    }
}
