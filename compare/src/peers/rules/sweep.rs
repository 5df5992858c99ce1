//! Rules 1 to 5, one window at a time.
use super::tally::{Reached, Tally};
use crate::peers::doubled;
use crate::peers::findings::Finding;
use crate::peers::vectors::{first_bits, grown, no_bit, occurrences, WORD_BITS};
use crate::peers::MARK;

/// A call's ring and line, and what is made of the ring once for a call.
pub struct Sweep<'a> {
    ring: &'a [u8],
    line: &'a [u8],
    k: usize,
    doubled: Vec<u8>,
    table: [[u64; 4]; 256],
    tally: Tally,
    /// The next window's start, the last verified start if there is one, and the looks so far.
    start: usize,
    last: Option<usize>,
    pub looks: usize,
}

/// How far a window was read: the edges left unread, the looks, and whether all are read with at most k breaks and no mark.
struct WindowRead {
    left: usize,
    looks: usize,
    candidate: bool,
}

impl<'a> Sweep<'a> {
    pub fn new(ring: &'a [u8], line: &'a [u8], k: usize) -> Self {
        let table = occurrences(ring);
        Sweep { ring, line, k, doubled: doubled(ring), table, tally: Tally::new(), start: 0, last: None, looks: 0 }
    }

    /// Rules 1 to 3, with the held vector in W words. The test for break k + 1 stands at the break, and so does that for a
    /// mark: no ring holds one, so a mark never fits.
    #[inline(always)]
    fn read_words<const W: usize>(&self, window: &[u8]) -> WindowRead {
        let m = self.ring.len();
        let full = first_bits::<W>(m);
        let mut held = full;
        let mut read = WindowRead { left: m, looks: 0, candidate: false };
        let mut breaks = 0;
        while read.left > 0 {
            read.left -= 1;
            let edge = window[read.left];
            read.looks += 1; // one look
            let next = grown(held, &self.table[edge as usize], m);
            if no_bit(next) {
                if edge == MARK || breaks == self.k {
                    return read;
                }
                breaks += 1;
                held = full;
            } else {
                held = next;
            }
        }
        read.candidate = true;
        read
    }

    fn read_window(&self, window: &[u8]) -> WindowRead {
        match self.ring.len().div_ceil(WORD_BITS) {
            1 => self.read_words::<1>(window),
            2 => self.read_words::<2>(window),
            3 => self.read_words::<3>(window),
            _ => self.read_words::<4>(window),
        }
    }

    /// Rule 5: afresh with no earlier tally or where 2·s > m, else moved by s steps. Few windows are candidates, so this stays
    /// out of line and leaves the registers to the reading.
    #[inline(never)]
    fn verify(&mut self) -> Reached {
        let m = self.ring.len();
        match self.last {
            Some(last) if 2 * (self.start - last) <= m => {
                self.tally.move_along(self.ring, self.line, last, self.start - last, 0)
            }
            _ => self.tally.count_afresh(&self.doubled, m, self.line, self.start),
        }
    }

    /// Reads one window, and verifies it if it is a candidate.
    #[inline(always)]
    fn window(&mut self) -> Option<Finding> {
        let m = self.ring.len();
        let start = self.start;
        let read = self.read_window(&self.line[start..start + m]);
        self.looks += read.looks;
        let mut finding = None;
        if read.candidate {
            let reached = self.verify();
            self.last = Some(start);
            self.looks += reached.looks;
            if reached.least as usize <= self.k {
                finding = Some(self.tally.finding_at(m, &reached));
            }
        }
        self.start = start + read.left + 1;
        finding
    }
}

/// The findings by rising start, window after window while one fits in the line.
impl Iterator for Sweep<'_> {
    type Item = Finding;

    fn next(&mut self) -> Option<Finding> {
        while self.start + self.ring.len() <= self.line.len() {
            let finding = self.window();
            if finding.is_some() {
                return finding;
            }
        }
        None
    }
}
