//! The limit, behind safe functions: c/limit.c, compiled like the rules in C. It has the open scan and survey alone.
use super::Answer;

extern "C" {
    fn limit_scan(
        ring: *const u8,
        m: usize,
        line: *const u8,
        n: usize,
        k: usize,
        words: *mut u32,
        room: usize,
    ) -> Answer;
    fn limit_survey(
        ring: *const u8,
        m: usize,
        line: *const u8,
        n: usize,
        k: usize,
        words: *mut u32,
        room: usize,
    ) -> Answer;
}

// SAFETY, for both: each pointer goes with the length of its own slice, the words are lent for writing, and the C code keeps
// none of them.

pub fn scan(ring: &[u8], line: &[u8], k: usize, words: &mut [u32]) -> Answer {
    unsafe { limit_scan(ring.as_ptr(), ring.len(), line.as_ptr(), line.len(), k, words.as_mut_ptr(), words.len()) }
}

pub fn survey(ring: &[u8], line: &[u8], k: usize, words: &mut [u32]) -> Answer {
    unsafe { limit_survey(ring.as_ptr(), ring.len(), line.as_ptr(), line.len(), k, words.as_mut_ptr(), words.len()) }
}
