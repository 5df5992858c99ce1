//! The time of each part of a search: an edge read, a fresh count, a step of the tally, the hand-over of a finding. A part is
//! measured through the public calls, as the difference of two lines that differ in that part alone.
use super::agree::agree;
use super::contenders::{Call, Contender, Version};
use super::inputs::{random_edges, Input, Kind, MOST_LINE};
use super::numbers::Numbers;
use super::tables::{heads, short, table};
use super::timing::time;
use crate::peers::{Answer, MARK};
use std::slice;

const RINGS: [usize; 4] = [20, 60, 128, 256];
const CODES: usize = 26;
/// A code that no ring here has.
const FOREIGN: u8 = 200;
/// Windows of each line that is read; a line of pieces has two windows for each, the piece and the mark behind it.
const WINDOWS: usize = 256;
const PIECES: usize = WINDOWS / 2;

/// The lines of a ring.
#[derive(Clone, Copy)]
enum Line {
    /// Foreign edges, read one in each window.
    Foreign,
    /// Foreign edges, read m / 2 + 1 in each window.
    Breaks,
    /// Pieces of the ring with a foreign first edge.
    Fits,
    /// Pieces of two half rings, which are candidates but no findings; and the same with a foreign first edge.
    Candidates,
    Spoiled,
    /// Lines without findings.
    HalfSurvey,
    Survey,
    /// The ring over and over.
    Found,
}

const LINES: [Line; 8] = [
    Line::Foreign,
    Line::Breaks,
    Line::Fits,
    Line::Candidates,
    Line::Spoiled,
    Line::HalfSurvey,
    Line::Survey,
    Line::Found,
];

/// A piece, again and again, with a mark behind each.
fn pieces(piece: &[u8]) -> Vec<u8> {
    [piece, &[MARK]].concat().repeat(PIECES)
}

/// The ring without its middle edge, and its first edge behind it: the halves are of two rotations.
fn halves(ring: &[u8]) -> Vec<u8> {
    let half = ring.len() / 2;
    [&ring[..half], &ring[half + 1..], &ring[..1]].concat()
}

fn spoiled(piece: &[u8]) -> Vec<u8> {
    [&[FOREIGN], &piece[1..]].concat()
}

impl Line {
    fn allowance(self, m: usize) -> usize {
        match self {
            Line::Breaks => m / 2,
            Line::Candidates | Line::Spoiled => 1,
            _ => 0,
        }
    }

    fn edges(self, ring: &[u8]) -> Vec<u8> {
        let m = ring.len();
        let drawn = |n| random_edges(&mut Numbers::seeded(m as u64 + 1), n, CODES);
        match self {
            Line::Foreign | Line::Breaks => vec![FOREIGN; (WINDOWS - 1) * (m - self.allowance(m)) + m],
            Line::Fits => pieces(&spoiled(ring)),
            Line::Candidates => pieces(&halves(ring)),
            Line::Spoiled => pieces(&spoiled(&halves(ring))),
            Line::HalfSurvey => drawn(MOST_LINE / 2),
            Line::Survey => drawn(MOST_LINE),
            Line::Found => ring.iter().copied().cycle().take(MOST_LINE).collect(),
        }
    }

    fn call(self) -> Call {
        match self {
            Line::HalfSurvey | Line::Survey | Line::Found => Call::Survey,
            _ => Call::Scan,
        }
    }
}

/// A name, and the contender of a call.
type Measured = (&'static str, fn(Call) -> Contender);

const MEASURED: [Measured; 4] = [
    ("outlines", |call| Contender::Rules(Version::Ours, call)),
    ("C", |call| Contender::Rules(Version::C, call)),
    ("Rust", |call| Contender::Rules(Version::Rust, call)),
    ("limit", Contender::Limit),
];

/// A ring's lines, their answers compared.
pub struct Parts {
    m: usize,
    inputs: Vec<Input>,
}

/// Whether the looks and findings show that the lines differ in the parts that they are made for.
fn differ_as_meant(m: usize, answers: &[Answer]) -> bool {
    let looks = |line: Line| answers[line as usize].looks;
    let found = |line: Line| answers[line as usize].found;
    looks(Line::Breaks) - looks(Line::Foreign) == WINDOWS * (m / 2)
        && looks(Line::Fits) - looks(Line::Foreign) == PIECES * (m - 1)
        && looks(Line::Candidates) - looks(Line::Spoiled) == PIECES * m * m
        && [Line::Candidates, Line::HalfSurvey, Line::Survey].into_iter().all(|line| found(line) == 0)
        && found(Line::Found) == MOST_LINE - m + 1
}

impl Parts {
    fn compared(m: usize, words: &mut [u32]) -> Result<Self, String> {
        let ring = random_edges(&mut Numbers::seeded(m as u64), m, CODES);
        let contenders: Vec<Contender> =
            MEASURED.iter().flat_map(|(_, of)| [of(Call::Scan), of(Call::Survey)]).collect();
        let input = |line: Line| Input {
            name: format!("parts, m = {m}"),
            kind: Kind::Parts,
            ring: ring.clone(),
            line: line.edges(&ring),
            k: line.allowance(m),
            book: Vec::new(),
        };
        let mut inputs: Vec<Input> = LINES.map(input).into();
        let answers = inputs.iter_mut().map(|input| agree(&contenders, input, words));
        let answers: Vec<Answer> = answers.collect::<Result<_, _>>()?;
        if !differ_as_meant(m, &answers) {
            return Err(format!("the lines for the parts of a ring of {m} edges do not differ as meant"));
        }
        Ok(Parts { m, inputs })
    }

    /// The lines of every ring.
    pub fn all(words: &mut [u32]) -> Result<Vec<Self>, String> {
        RINGS.into_iter().map(|m| Parts::compared(m, words)).collect()
    }

    /// How many answers were compared.
    pub fn answers(&self) -> usize {
        2 * MEASURED.len() * self.inputs.len()
    }
}

/// One ring's times of the parts, in nanoseconds: for each of the measured, break, fit, fresh count, step, hand-over.
pub struct PartsRow {
    m: usize,
    times: Vec<[f64; 5]>,
}

impl PartsRow {
    pub fn timed(parts: &Parts, words: &mut [u32]) -> Self {
        eprintln!("timing the parts, m = {}", parts.m);
        let m = parts.m;
        let lines: Vec<Vec<f64>> = LINES
            .iter()
            .zip(&parts.inputs)
            .map(|(line, input)| time(&MEASURED.map(|(_, of)| of(line.call())), slice::from_ref(input), words))
            .collect();
        let part = |who: usize, more: Line, less: Line, times: usize| {
            (lines[more as usize][who] - lines[less as usize][who]) / times as f64
        };
        let parts_of = |who| {
            [
                part(who, Line::Breaks, Line::Foreign, WINDOWS * (m / 2)),
                part(who, Line::Fits, Line::Foreign, PIECES * (m - 1)),
                part(who, Line::Candidates, Line::Spoiled, PIECES),
                part(who, Line::Survey, Line::HalfSurvey, MOST_LINE / 2),
                part(who, Line::Found, Line::Survey, MOST_LINE - m + 1),
            ]
        };
        PartsRow { m, times: (0..MEASURED.len()).map(parts_of).collect() }
    }
}

const HOW: &str = "Nanoseconds of each part, 26 codes. Each comes from two lines that differ in that part alone:

- *break*, one edge read that is a break: a line of a code that the ring lacks, k = m / 2 against k = 0, with as many windows.
- *fit*, one edge read that fits: copies of the ring with a foreign first edge, which is read last, and a mark behind each; against a line of the foreign code with as many windows, k = 0 (every second window ends at a mark in the one, at a break in the other).
- *fresh count*, m·m comparisons: pieces of two half rings, candidates at k = 1 but no findings, against the same with a foreign first edge.
- *step*, 2·m comparisons: the survey of a line without findings, 65,536 edges against 32,768.
- *hand-over* of a finding (the survey stops, finds rotation and ties, writes four words and goes on): the survey of the ring over and over, where each start is a finding, against the line without findings.

";

/// The section of the page.
pub fn section(page: &mut String, rows: &[PartsRow]) {
    page.push_str("## The time of each part\n\n");
    page.push_str(HOW);
    let head = heads(&["m", "", "break", "fit", "fresh count", "step", "hand-over"], std::iter::empty());
    let lines = rows.iter().flat_map(|row| {
        let named = MEASURED.iter().zip(&row.times);
        named.map(|((name, _), times)| heads(&[&row.m.to_string(), name], times.iter().map(|time| short(*time))))
    });
    table(page, &head, lines);
}
