//! The two-way scan and its counts.

use crate::raw::{self, TwoWay};
use crate::{Findings, Refused, Search};

/// The counts of one pass of the two-way scan.
#[derive(Clone, Copy, Debug, Default, PartialEq, Eq, Hash)]
pub struct Pass {
    /// Findings.
    pub found: u64,
    /// Looks, as in [`Counts`](crate::Counts).
    pub looks: u64,
}

/// The counts of an accepted two-way scan.
#[derive(Clone, Copy, Debug, Default, PartialEq, Eq, Hash)]
pub struct Passes {
    /// The scan for the ring.
    pub forward: Pass,
    /// The scan for the reversed ring.
    pub backward: Pass,
}

impl Passes {
    /// The findings of the ring, out of the words that were lent to the call.
    ///
    /// If `words` has too few words for all of them, the iterator ends at the last whole finding. It never panics.
    pub fn forward_findings<'w>(&self, words: &'w [u32]) -> Findings<'w> {
        Findings::new(words, 0, self.forward.found)
    }

    /// The findings of the reversed ring, out of all the words that were lent to the call: they stand behind the forward ones.
    ///
    /// If `words` has too few words for all of them, the iterator ends at the last whole finding. It never panics.
    pub fn backward_findings<'w>(&self, words: &'w [u32]) -> Findings<'w> {
        Findings::new(words, self.forward.found, self.backward.found)
    }
}

impl TwoWay {
    /// The counts.
    ///
    /// # Errors
    ///
    /// The refusal and its place, if the call is refused.
    ///
    /// # Panics
    ///
    /// If `refusal` is a number that the interface does not have.
    pub fn result(self) -> Result<Passes, Refused> {
        if self.refusal != 0 {
            return Err(Refused::new(self.refusal, self.place));
        }
        Ok(Passes {
            forward: Pass { found: self.forward_found, looks: self.forward_looks },
            backward: Pass { found: self.backward_found, looks: self.backward_looks },
        })
    }
}

/// The two-way scan: the quick scan for the ring (forward), then the quick scan for the reversed ring (backward), over the same line.
///
/// An outline may be stored in the other direction. For this an edge code is read as 8 · length class + octant, with length classes 0
/// to 30 and octants 0 to 7: the codes 0 to 247, which [`import_vertices`](crate::import_vertices) makes. The reversed ring has the
/// ring's edges in opposite order, each with its octant turned by 4 modulo 8 and its length class kept. In the line a byte of 248 to
/// 254 is no fault; it differs from every edge of either ring.
///
/// Lend [`Search::room_two_way`] words, 8 (n − m + 1), however many findings there are. None are needed if n < m.
///
/// Returns `found` and `looks` of each pass, each as [`scan`](crate::scan) has them for its ring. Writes four words for each finding:
/// the forward findings by rising start, then the backward ones by rising start, without a gap. The words behind them keep their
/// values. The rotation of a backward finding counts on the reversed ring. A start can be a finding of both passes.
///
/// # Errors
///
/// Refused, in this order, by [`RingLength`](crate::Refusal::RingLength), [`MarkInRing`](crate::Refusal::MarkInRing),
/// [`Allowance`](crate::Refusal::Allowance), [`CodeInRing`](crate::Refusal::CodeInRing), [`LineLength`](crate::Refusal::LineLength) and
/// [`RoomForFindings`](crate::Refusal::RoomForFindings). A refused call has written nothing.
///
/// ```
/// use outlines::{MARK, Search, scan_two_way};
///
/// // A square, north, east, south and west; then the same square drawn the other way, from another corner.
/// let search = Search { ring: &[24, 26, 28, 30], line: &[24, 26, 28, 30, MARK, 30, 28, 26, 24], allowance: 0 };
/// let mut words = vec![0; search.room_two_way()];
/// let passes = scan_two_way(search, &mut words)?;
/// assert!(passes.forward_findings(&words).map(|finding| (finding.start, finding.rotation)).eq([(0, 0)]));
/// assert!(passes.backward_findings(&words).map(|finding| (finding.start, finding.rotation)).eq([(5, 2)]));
/// # Ok::<(), outlines::Refused>(())
/// ```
pub fn scan_two_way(search: Search<'_>, words: &mut [u32]) -> Result<Passes, Refused> {
    let Search { ring, line, allowance } = search;
    let (r, l, w) = (ring.as_ptr(), line.as_ptr(), words.as_mut_ptr());
    // SAFETY: each pointer goes with the length of its slice, which is borrowed until the call returns; `words` mutably.
    unsafe { raw::outlines_scan_two_way(r, ring.len(), l, line.len(), allowance, w, words.len()) }.result()
}
