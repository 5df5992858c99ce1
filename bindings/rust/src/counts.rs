//! What an accepted call counts.

use crate::raw::Answer;
use crate::{Findings, Refused, Silences};

/// The counts of an accepted call. What a call does not count is 0.
#[derive(Clone, Copy, Debug, Default, PartialEq, Eq, Hash)]
pub struct Counts {
    /// Searches and reports: findings, hidden ones included. [`pack`](crate::pack) and [`unpack`](crate::unpack): records.
    /// [`import_vertices`](crate::import_vertices): edges.
    pub found: u64,
    /// Reports: findings that the book hides.
    pub hidden: u64,
    /// Searches and reports: looks, which measure the work. A look is one byte of the line read by the quick scan, a mark too, or
    /// one comparison of a byte of the line with a ring edge.
    pub looks: u64,
}

impl Counts {
    /// The findings that were written: `found` less `hidden`.
    pub const fn shown(&self) -> u64 {
        self.found.saturating_sub(self.hidden)
    }

    /// The shown findings, out of the words that were lent to the call.
    ///
    /// If `words` has too few words for all of them, the iterator ends at the last whole finding. It never panics.
    ///
    /// ```
    /// use outlines::{Search, scan};
    ///
    /// let search = Search { ring: b"abc", line: b"zzcabzz", allowance: 0 };
    /// let mut words = vec![0; search.room()];
    /// let counts = scan(search, &mut words)?;
    /// let starts: Vec<u32> = counts.findings(&words).map(|finding| finding.start).collect();
    /// assert_eq!(starts, [2]);
    /// # Ok::<(), outlines::Refused>(())
    /// ```
    pub fn findings<'w>(&self, words: &'w [u32]) -> Findings<'w> {
        Findings::new(words, 0, self.shown())
    }

    /// The silences, out of the words that were lent to [`unpack`](crate::unpack). It has an example.
    ///
    /// If `words` has too few words for all of them, the iterator ends at the last whole silence. It also ends before a ring number
    /// or a ceiling above 65,535, which unpack never writes. It never panics.
    pub fn silences<'w>(&self, words: &'w [u32]) -> Silences<'w> {
        Silences::new(words, self.found)
    }
}

impl Answer {
    /// The counts.
    ///
    /// # Errors
    ///
    /// The refusal and its place, if the call is refused.
    ///
    /// # Panics
    ///
    /// If `refusal` is a number that the interface does not have.
    pub fn result(self) -> Result<Counts, Refused> {
        if self.refusal != 0 {
            return Err(Refused::new(self.refusal, self.place));
        }
        Ok(Counts { found: self.found, hidden: self.hidden, looks: self.looks })
    }
}
