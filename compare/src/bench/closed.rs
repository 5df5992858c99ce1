//! Closed against open: scan and survey of one line in both modes.
use super::agree::compare;
use super::contenders::{Call, Contender, Version, VERSIONS};
use super::inputs::Input;
use super::tables::{heads, short, table};
use super::timing::time;
use crate::peers::{Answer, FINDING_WORDS};
use crate::second::calls::{Answered, Search};
use std::fmt::Write;
use std::slice;

/// Each closed call behind the open one.
const CALLS: [Call; 4] = [Call::Scan, Call::ScanClosed, Call::Survey, Call::SurveyClosed];
const PAIRS: [[Call; 2]; 2] = [[CALLS[0], CALLS[1]], [CALLS[2], CALLS[3]]];

fn contenders() -> Vec<Contender> {
    CALLS.iter().flat_map(|&call| VERSIONS.map(|version| Contender::Rules(version, call))).collect()
}

/// What the call must answer and write, by the second program: the rules in C search closed lines as longer ones, and open mode
/// refuses the longer line of the longest.
fn wanted(input: &Input, call: Call) -> Result<Answered<u32>, String> {
    let Input { ring, line, k, .. } = input;
    let room = FINDING_WORDS * line.len();
    let (open, closed) = (Search::new(ring, line, *k, room), Search::closed(ring, line, *k, room, 2 * ring.len() - 2));
    let outcome = match call {
        Call::Scan => open.scan(),
        Call::Survey => open.survey(),
        Call::ScanClosed => closed.scan(),
        _ => closed.survey(),
    };
    outcome.map_err(|refused| format!("{}: the second program gives refusal {}", input.name, refused.number))
}

/// Compares every answer on these inputs; returns how many.
pub fn agree(inputs: &[Input], words: &mut [u32]) -> Result<usize, String> {
    for input in inputs {
        for call in CALLS {
            let Answered { found, looks, written, .. } = wanted(input, call)?;
            let answer = Answer { found, looks: looks as usize, ..Answer::default() };
            for version in VERSIONS {
                compare(&Contender::Rules(version, call), input, words, &written, answer)?;
            }
        }
    }
    Ok(contenders().len() * inputs.len())
}

/// One line's times, in nanoseconds of a call, in the order of the contenders.
pub struct ClosedRow {
    name: String,
    edges: usize,
    times: Vec<f64>,
}

impl ClosedRow {
    pub fn timed(input: &Input, words: &mut [u32]) -> Self {
        eprintln!("timing {}, open and closed", input.name);
        let times = time(&contenders(), slice::from_ref(input), words);
        ClosedRow { name: input.name.clone(), edges: input.line.len(), times }
    }

    fn time_of(&self, version: Version, call: Call) -> f64 {
        let before = CALLS.iter().take_while(|&&other| other != call).count();
        self.times[VERSIONS.len() * before + version as usize]
    }

    /// For scan and survey, a version's time closed over its time open.
    fn over_open(&self, version: Version) -> [f64; 2] {
        PAIRS.map(|[open, closed]| self.time_of(version, closed) / self.time_of(version, open))
    }

    /// The same, the library's closed call over the one in C.
    fn over_c(&self) -> [f64; 2] {
        PAIRS.map(|[_, closed]| self.time_of(Version::Ours, closed) / self.time_of(Version::C, closed))
    }

    pub fn print(&self) {
        for version in VERSIONS {
            let [scan, survey] = self.over_open(version).map(short);
            let name = version.name();
            println!("{name:8} {:10} closed over open: scan {scan}, survey {survey}", self.name);
        }
    }
}

/// The section of the page.
pub fn section(page: &mut String, rows: &[ClosedRow]) {
    page.push_str(
        "## A closed line\n\n26 codes, m = 60, k = 2, one copy of the ring across the seam. A closed line has m − 1 ",
    );
    page.push_str(
        "windows more than the open one. The library takes those that cross from the join area; the rules in C ",
    );
    page.push_str(
        "and in Rust copy the line with its first m − 1 edges behind it. Time of the closed call over that of the ",
    );
    page.push_str("open one, same version and line:\n\n");
    let names = rows.iter().flat_map(|row| ["scan", "survey"].map(|call| format!("{call}, {}", row.name)));
    let line = |version: &Version| {
        let ratios = rows.iter().flat_map(|row| row.over_open(*version));
        heads(&[version.name()], ratios.map(short))
    };
    table(page, &heads(&[""], names), VERSIONS.iter().map(line));
    for row in rows {
        let [scan, survey] = row.over_c().map(short);
        let calls = format!("scan takes {scan} times the one in C, the closed survey {survey}");
        let _ = writeln!(page, "With n = {} the library's closed {calls}.\n", row.edges);
    }
}
