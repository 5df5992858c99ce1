//! The same rules in C, behind safe functions: c/rules.c, compiled by clang -O3.
use super::{Answer, Question, Rules};

extern "C" {
    fn rules_scan(
        ring: *const u8,
        m: usize,
        line: *const u8,
        n: usize,
        k: usize,
        words: *mut u32,
        room: usize,
    ) -> Answer;
    fn rules_survey(
        ring: *const u8,
        m: usize,
        line: *const u8,
        n: usize,
        k: usize,
        words: *mut u32,
        room: usize,
    ) -> Answer;
    fn rules_scan_closed(
        ring: *const u8,
        m: usize,
        line: *const u8,
        n: usize,
        k: usize,
        words: *mut u32,
        room: usize,
    ) -> Answer;
    fn rules_survey_closed(
        ring: *const u8,
        m: usize,
        line: *const u8,
        n: usize,
        k: usize,
        words: *mut u32,
        room: usize,
    ) -> Answer;
    fn rules_report(
        cell: u32,
        ring_number: u16,
        ring: *const u8,
        m: usize,
        line: *const u8,
        n: usize,
        k: usize,
        book: *const u8,
        length: usize,
        words: *mut u32,
        room: usize,
    ) -> Answer;
}

pub const RULES: Rules = Rules { scan, survey, report, scan_closed, survey_closed };

// SAFETY, for all five: each pointer goes with the length of its own slice, the words are lent for writing, and the C code
// keeps none of them.

fn scan(ring: &[u8], line: &[u8], k: usize, words: &mut [u32]) -> Answer {
    unsafe { rules_scan(ring.as_ptr(), ring.len(), line.as_ptr(), line.len(), k, words.as_mut_ptr(), words.len()) }
}

fn survey(ring: &[u8], line: &[u8], k: usize, words: &mut [u32]) -> Answer {
    unsafe { rules_survey(ring.as_ptr(), ring.len(), line.as_ptr(), line.len(), k, words.as_mut_ptr(), words.len()) }
}

fn scan_closed(ring: &[u8], line: &[u8], k: usize, words: &mut [u32]) -> Answer {
    let (room, out) = (words.len(), words.as_mut_ptr());
    unsafe { rules_scan_closed(ring.as_ptr(), ring.len(), line.as_ptr(), line.len(), k, out, room) }
}

fn survey_closed(ring: &[u8], line: &[u8], k: usize, words: &mut [u32]) -> Answer {
    let (room, out) = (words.len(), words.as_mut_ptr());
    unsafe { rules_survey_closed(ring.as_ptr(), ring.len(), line.as_ptr(), line.len(), k, out, room) }
}

fn report(q: &Question, words: &mut [u32]) -> Answer {
    unsafe {
        rules_report(
            q.cell,
            q.ring_number,
            q.ring.as_ptr(),
            q.ring.len(),
            q.line.as_ptr(),
            q.line.len(),
            q.k,
            q.book.as_ptr(),
            q.book.len(),
            words.as_mut_ptr(),
            words.len(),
        )
    }
}
