//! The same rules in Rust: scan, survey and report, built like the library's own code but for the fresh count, the table
//! of vectors and the mask of the bit that goes round (docs/BENCH.md, trials 11, 13 and 14). Vectors are held by value in as few words as m needs, the occurrence table
//! is made once for a call, the tally is moved in two loops, looks are counted one by one. A closed line is searched as a
//! longer one, which is copied.
mod book;
mod sweep;
mod tally;

use super::findings::{Findings, FINDING_WORDS};
use super::{doubled, lengthened, Answer, Question, Rules, MARK};
use book::{hides, read, seek, seek_on, Address};
use sweep::Sweep;
use tally::{Tally, MOST_RING};

pub const RULES: Rules = Rules { scan, survey, report, scan_closed, survey_closed };

/// "Line: n edges, 0 to 65,536."
const MOST_LINE: usize = 65_536;

/// How many windows a line has.
fn open_windows(ring: &[u8], line: &[u8]) -> usize {
    (line.len() + 1).saturating_sub(ring.len())
}

/// How many windows a closed line has.
fn closed_windows(ring: &[u8], line: &[u8]) -> usize {
    if line.len() >= ring.len() {
        line.len()
    } else {
        0
    }
}

/// Refusals 1, 12, 2, 3 and 4, in this order, or 0. Each window may be a finding.
fn admit(ring: &[u8], k: usize, n: usize, windows: usize, room: usize) -> usize {
    let m = ring.len();
    if m == 0 || m > MOST_RING {
        1
    } else if ring.contains(&MARK) {
        12
    } else if k >= m {
        2
    } else if n > MOST_LINE {
        3
    } else if room < FINDING_WORDS * windows {
        4
    } else {
        0
    }
}

fn scan(ring: &[u8], line: &[u8], k: usize, words: &mut [u32]) -> Answer {
    match admit(ring, k, line.len(), open_windows(ring, line), words.len()) {
        0 => scan_line(ring, line, k, words),
        refusal => Answer { refusal, ..Answer::default() },
    }
}

fn survey(ring: &[u8], line: &[u8], k: usize, words: &mut [u32]) -> Answer {
    match admit(ring, k, line.len(), open_windows(ring, line), words.len()) {
        0 => survey_line(ring, line, k, words),
        refusal => Answer { refusal, ..Answer::default() },
    }
}

fn scan_closed(ring: &[u8], line: &[u8], k: usize, words: &mut [u32]) -> Answer {
    match admit(ring, k, line.len(), closed_windows(ring, line), words.len()) {
        0 => scan_line(ring, &lengthened(line, ring.len()), k, words),
        refusal => Answer { refusal, ..Answer::default() },
    }
}

fn survey_closed(ring: &[u8], line: &[u8], k: usize, words: &mut [u32]) -> Answer {
    match admit(ring, k, line.len(), closed_windows(ring, line), words.len()) {
        0 => survey_line(ring, &lengthened(line, ring.len()), k, words),
        refusal => Answer { refusal, ..Answer::default() },
    }
}

fn scan_line(ring: &[u8], line: &[u8], k: usize, words: &mut [u32]) -> Answer {
    let mut sweep = Sweep::new(ring, line, k);
    let mut findings = Findings::new(words);
    for finding in &mut sweep {
        findings.put(finding);
    }
    Answer { found: findings.found, looks: sweep.looks, ..Answer::default() }
}

/// "the first afresh and each next by one step, at m = 1 too": on to the next finding or to the last window.
fn survey_line(ring: &[u8], line: &[u8], k: usize, words: &mut [u32]) -> Answer {
    let (m, n) = (ring.len(), line.len());
    let doubled = doubled(ring);
    let mut tally = Tally::new();
    let mut findings = Findings::new(words);
    let mut looks = 0;
    let mut start = 0;
    while start + m <= n {
        let reached = match start {
            0 => tally.count_afresh(&doubled, m, line, 0),
            _ => tally.move_along(ring, line, start - 1, n - m - (start - 1), k + 1),
        };
        looks += reached.looks;
        if reached.least as usize <= k && tally.past_mark <= reached.start {
            findings.put(tally.finding_at(m, &reached));
        }
        start = reached.start + 1;
    }
    Answer { found: findings.found, looks, ..Answer::default() }
}

fn report(q: &Question, words: &mut [u32]) -> Answer {
    let (refusal, place) = match admit(q.ring, q.k, q.line.len(), open_windows(q.ring, q.line), words.len()) {
        0 => read(q.book),
        refusal => (refusal, 0),
    };
    if refusal != 0 {
        return Answer { refusal, place, ..Answer::default() };
    }
    let address = |start| Address { cell: q.cell, ring_number: q.ring_number, start };
    let mut held = seek(q.book, 0, address(0));
    let mut sweep = Sweep::new(q.ring, q.line, q.k);
    let mut shown = Findings::new(words);
    let mut hidden = 0;
    for finding in &mut sweep {
        let here = address(finding.start as u32);
        held = seek_on(q.book, held, here);
        if hides(held, here, finding.distance) {
            hidden += 1;
        } else {
            shown.put(finding);
        }
    }
    Answer { found: shown.found + hidden, hidden, looks: sweep.looks, ..Answer::default() }
}
