//! Findings as they go out: four words each, one behind the other.

/// Words of a finding, in this order: start, rotation, distance, ties.
pub const FINDING_WORDS: usize = 4;

#[derive(Clone, Copy)]
pub struct Finding {
    pub start: usize,
    pub rotation: usize,
    pub distance: usize,
    pub ties: usize,
}

/// The lent words and how many findings stand in them.
pub struct Findings<'a> {
    words: &'a mut [u32],
    pub found: usize,
}

impl<'a> Findings<'a> {
    pub fn new(words: &'a mut [u32]) -> Self {
        Findings { words, found: 0 }
    }

    pub fn put(&mut self, Finding { start, rotation, distance, ties }: Finding) {
        let at = FINDING_WORDS * self.found;
        let words = [start as u32, rotation as u32, distance as u32, ties as u32];
        self.words[at..at + FINDING_WORDS].copy_from_slice(&words);
        self.found += 1;
    }
}
