//! The two-way scan (ticket 6).

use super::calls::{Answered, Search};
use super::refusals::{self, Refused};
use super::reversed::reversed;

/// "Each pass has its own found, looks and bound" (ticket 6).
#[derive(Clone, Debug, Default, PartialEq, Eq)]
pub struct Passes {
    pub forward: Answered<u32>,
    pub backward: Answered<u32>,
}

impl Passes {
    /// "A two-way scan lists forward findings, then backward ones" (ticket 6).
    pub fn written(&self) -> Vec<u32> {
        [&self.forward.written[..], &self.backward.written].concat()
    }
}

/// "each as by demand 2 for that ring" (ticket 6): the quick scan for the ring, and the quick scan for the reversed ring. Their
/// own refusals do not arise, because this call has refused before.
pub fn scan_two_way(ring: &[u8], line: &[u8], allowance: usize, room: usize) -> Result<Passes, Refused> {
    refusals::two_way(ring, line, allowance, room)?;
    let forward = Search::new(ring, line, allowance, room).scan()?;
    let backward = Search::new(&reversed(ring), line, allowance, room).scan()?;
    Ok(Passes { forward, backward })
}
