//! What a search is given, and the room to lend for its answer.

use crate::{FINDING_WORDS, MOST_LINE};

/// A ring to search for, a line to search, and how many edges may differ.
///
/// The methods give the room to lend, in words or bytes. m is the number of ring edges, n the number of line bytes. Each room is
/// 0 if n < m, where none is needed, and if n is above [`MOST_LINE`], where the call is refused whatever is lent.
///
/// ```
/// use outlines::Search;
///
/// let search = Search { ring: b"abc", line: b"zzabczz", allowance: 1 };
/// assert_eq!(search.room(), 4 * (7 - 3 + 1));
/// assert_eq!(search.room_closed(), 4 * 7);
/// assert_eq!(search.room_two_way(), 2 * search.room());
/// assert_eq!(search.room_join(), 2 * 3 - 2);
///
/// // The room of a constant search is a constant.
/// const SEARCH: Search = Search { ring: b"aa", line: b"aaa", allowance: 0 };
/// let words = [0_u32; SEARCH.room()];
/// assert_eq!(words.len(), 8);
/// ```
#[derive(Clone, Copy, Debug, PartialEq, Eq, Hash)]
pub struct Search<'a> {
    /// The ring: 1 to [`MOST_RING`](crate::MOST_RING) edges, none of them [`MARK`](crate::MARK).
    pub ring: &'a [u8],
    /// The line: at most [`MOST_LINE`] bytes, with marks anywhere. It may be shorter than the ring; then nothing is found.
    pub line: &'a [u8],
    /// The allowance k: how many edges may differ, 0 to m − 1.
    pub allowance: usize,
}

impl Search<'_> {
    /// The line is neither shorter than the ring nor too long. So nothing wraps in the products below.
    const fn has_windows(&self) -> bool {
        self.ring.len() <= self.line.len() && self.line.len() <= MOST_LINE
    }

    /// Words to lend to [`survey`](crate::survey), [`scan`](crate::scan) and [`report`](crate::report): 4 (n − m + 1).
    pub const fn room(&self) -> usize {
        if self.has_windows() { FINDING_WORDS * (self.line.len() - self.ring.len() + 1) } else { 0 }
    }

    /// Words to lend to [`survey_closed`](crate::survey_closed), [`scan_closed`](crate::scan_closed) and
    /// [`report_closed`](crate::report_closed): 4 n.
    pub const fn room_closed(&self) -> usize {
        if self.has_windows() { FINDING_WORDS * self.line.len() } else { 0 }
    }

    /// Words to lend to [`scan_two_way`](crate::scan_two_way): 8 (n − m + 1).
    pub const fn room_two_way(&self) -> usize {
        2 * self.room()
    }

    /// Bytes of the join area to lend to a closed call: 2 m − 2, and 0 for an empty ring, which is refused.
    pub const fn room_join(&self) -> usize {
        if self.has_windows() { 2 * self.ring.len().saturating_sub(1) } else { 0 }
    }
}
