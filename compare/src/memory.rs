//! Memory for inputs and lent areas: between inaccessible pages, with canaries wherever there is room for them.

use std::ffi::{c_int, c_void};
use std::{ptr, slice};

extern "C" {
    fn mmap(at: *mut c_void, length: usize, access: c_int, flags: c_int, file: c_int, offset: i64) -> *mut c_void;
    fn mprotect(at: *mut c_void, length: usize, access: c_int) -> c_int;
}

const NO_ACCESS: c_int = 0;
const READ: c_int = 1;
const READ_AND_WRITE: c_int = 3;
const PRIVATE_AND_ANONYMOUS: c_int = 0x22;
/// A multiple of every page size in use, so that the true one need not be asked for.
const PAGE: usize = 65_536;
const CANARY: usize = 64;
/// Bytes of a word.
pub const WORD: usize = size_of::<u32>();

#[derive(Clone, Copy, Debug, PartialEq, Eq)]
pub enum Placement {
    /// Canaries on both sides.
    Open,
    /// The last byte lies flush against an inaccessible page.
    Behind,
    /// The first byte lies flush against an inaccessible page.
    Before,
    /// As Open, but an empty slice is passed as a null pointer.
    Null,
}

impl Placement {
    pub fn guarded(self) -> bool {
        matches!(self, Placement::Behind | Placement::Before)
    }
}

/// A piece of memory between two inaccessible pages, holding one slice at a time.
pub struct Area {
    first: *mut u8,
    capacity: usize,
    at: usize,
    length: usize,
}

impl Area {
    pub fn new(least: usize) -> Area {
        let capacity = (least + 2 * CANARY).next_multiple_of(PAGE);
        // Sound: a fresh mapping of its own, of which only the part between the outer pages is opened.
        let first = unsafe {
            let base = mmap(ptr::null_mut(), capacity + 2 * PAGE, NO_ACCESS, PRIVATE_AND_ANONYMOUS, -1, 0);
            assert!(base as isize != -1, "no memory for the areas");
            base.cast::<u8>().add(PAGE)
        };
        let area = Area { first, capacity, at: 0, length: 0 };
        area.open(READ_AND_WRITE);
        area
    }

    fn open(&self, access: c_int) {
        // Sound: the range is this area's own mapping.
        let done = unsafe { mprotect(self.first.cast(), self.capacity, access) };
        assert!(done == 0, "the pages of an area keep their access");
    }

    /// Puts the content in place and surrounds it with canaries; `shift` varies the alignment of an open slice.
    pub fn lay(&mut self, placement: Placement, shift: usize, content: &[u8]) {
        assert!(content.len() + 2 * CANARY <= self.capacity, "a case larger than its area");
        self.length = content.len();
        self.at = match placement {
            Placement::Open | Placement::Null => CANARY - shift,
            Placement::Behind => self.capacity - self.length,
            Placement::Before => 0,
        };
        let front = self.front();
        for (index, byte) in self.surrounded_mut().iter_mut().enumerate() {
            *byte = 0xC5 ^ (index as u8).wrapping_mul(29);
        }
        self.surrounded_mut()[front..front + content.len()].copy_from_slice(content);
    }

    /// The canary bytes in front of the slice.
    pub fn front(&self) -> usize {
        self.at.min(CANARY)
    }

    fn behind(&self) -> usize {
        (self.capacity - self.at - self.length).min(CANARY)
    }

    /// The slice together with its canaries.
    pub fn surrounded(&self) -> &[u8] {
        // Sound: the range lies within the opened pages, and nothing else points there.
        unsafe {
            let from = self.first.add(self.at - self.front());
            slice::from_raw_parts(from, self.front() + self.length + self.behind())
        }
    }

    fn surrounded_mut(&mut self) -> &mut [u8] {
        let (from, length) = (self.surrounded().as_ptr(), self.surrounded().len());
        // Sound: as above; the area is borrowed mutably and was left open for writing.
        unsafe { slice::from_raw_parts_mut(from.cast_mut(), length) }
    }

    pub fn bytes(&self) -> &[u8] {
        // Sound: within the opened pages.
        unsafe { slice::from_raw_parts(self.first.add(self.at), self.length) }
    }

    pub fn bytes_mut(&mut self) -> &mut [u8] {
        // Sound: within the opened pages, borrowed mutably.
        unsafe { slice::from_raw_parts_mut(self.first.add(self.at), self.length) }
    }

    fn word_count(&self) -> usize {
        assert!(self.at % WORD == 0 && self.length % WORD == 0, "words lie on word bounds");
        self.length / WORD
    }

    pub fn words(&self) -> &[u32] {
        // Sound: within the opened pages and on a word bound; every four bytes are a word.
        unsafe { slice::from_raw_parts(self.first.add(self.at).cast(), self.word_count()) }
    }

    pub fn words_mut(&mut self) -> &mut [u32] {
        // Sound: as for `words`, borrowed mutably.
        unsafe { slice::from_raw_parts_mut(self.first.add(self.at).cast(), self.word_count()) }
    }

    /// The same words as signed numbers.
    pub fn numbers(&self) -> &[i32] {
        // Sound: as for `words`.
        unsafe { slice::from_raw_parts(self.first.add(self.at).cast(), self.word_count()) }
    }

    /// Opens the pages for writing, or closes them to it.
    pub fn writable(&self, wanted: bool) {
        self.open(if wanted { READ_AND_WRITE } else { READ });
    }

    /// Reads one byte before the slice or behind it, to test that the page there is inaccessible.
    pub fn overstep(&self, before: bool) -> u8 {
        let behind = if before { 0 } else { self.length + 1 };
        // Not sound, on purpose: it runs in a process of its own that must end here.
        unsafe { ptr::read_volatile(self.first.add(self.at + behind).sub(1)) }
    }

    /// Writes to a slice whose pages are read-only, to test that they are.
    pub fn scribble(&self) {
        // Not sound, on purpose: it runs in a process of its own that must end here.
        self.writable(false);
        unsafe { ptr::write_volatile(self.first.add(self.at), 0) };
    }
}

pub fn bytes_of(words: &[u32]) -> Vec<u8> {
    words.iter().flat_map(|word| word.to_ne_bytes()).collect()
}
