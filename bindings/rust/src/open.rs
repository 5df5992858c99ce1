//! Survey, scan and report of an open line.

use crate::{Counts, Refused, Search, raw};

/// The plain survey: computes the least distance at every place i with i + m ≤ n, and lists the findings among them.
///
/// Lend [`Search::room`] words, 4 (n − m + 1), however many findings there are. None are needed if n < m.
///
/// Returns `found` and `looks`; `looks` is 2 m n − m m if n ≥ m, marks or not, else 0. Writes four words for each finding, by rising
/// start: start, rotation, distance, ties. [`Counts::findings`] reads them. The words behind them keep their values.
///
/// # Errors
///
/// Refused, in this order, by [`RingLength`](crate::Refusal::RingLength), [`MarkInRing`](crate::Refusal::MarkInRing),
/// [`Allowance`](crate::Refusal::Allowance), [`LineLength`](crate::Refusal::LineLength) and
/// [`RoomForFindings`](crate::Refusal::RoomForFindings). A refused call has written nothing.
///
/// ```
/// use outlines::{Finding, Search, survey};
///
/// let search = Search { ring: b"ab", line: b"zbz", allowance: 1 };
/// let mut words = vec![0; search.room()];
/// let counts = survey(search, &mut words)?;
/// assert_eq!((counts.found, counts.looks), (2, 8));
/// let first = Finding { start: 0, rotation: 0, distance: 1, ties: 1 };
/// let second = Finding { start: 1, rotation: 1, distance: 1, ties: 1 };
/// assert!(counts.findings(&words).eq([first, second]));
/// # Ok::<(), outlines::Refused>(())
/// ```
pub fn survey(search: Search<'_>, words: &mut [u32]) -> Result<Counts, Refused> {
    let Search { ring, line, allowance } = search;
    let (r, l, w) = (ring.as_ptr(), line.as_ptr(), words.as_mut_ptr());
    // SAFETY: each pointer goes with the length of its slice, which is borrowed until the call returns; `words` mutably.
    unsafe { raw::outlines_survey(r, ring.len(), l, line.len(), allowance, w, words.len()) }.result()
}

/// The quick scan: the findings, words, room and refusals of [`survey`], usually in much less time.
///
/// The survey is the better choice where most windows must be looked at closely: with a wide allowance, or very few edge codes.
///
/// Returns `found` and `looks`; `looks` is at most 3 m n − 2 m m + m if n ≥ m, else 0.
///
/// # Errors
///
/// Those of [`survey`], in the same order.
///
/// ```
/// use outlines::{MARK, Refusal, Search, scan};
///
/// // A copy across a mark is none: it does not lie within one boundary.
/// let search = Search { ring: &[1, 2, 3], line: &[2, 3, 1, MARK, 2, MARK, 3], allowance: 0 };
/// let mut words = vec![0; search.room()];
/// let counts = scan(search, &mut words)?;
/// let starts: Vec<u32> = counts.findings(&words).map(|finding| finding.start).collect();
/// assert_eq!(starts, [0]);
///
/// let refused = scan(Search { allowance: 3, ..search }, &mut words).unwrap_err();
/// assert_eq!(refused.refusal, Refusal::Allowance);
/// # Ok::<(), outlines::Refused>(())
/// ```
pub fn scan(search: Search<'_>, words: &mut [u32]) -> Result<Counts, Refused> {
    let Search { ring, line, allowance } = search;
    let (r, l, w) = (ring.as_ptr(), line.as_ptr(), words.as_mut_ptr());
    // SAFETY: as in `survey`.
    unsafe { raw::outlines_scan(r, ring.len(), l, line.len(), allowance, w, words.len()) }.result()
}

/// The report: the quick scan, without the findings that the book hides.
///
/// `cell` is the cell that the line is of, `ring_number` the number of the ring. A finding is hidden exactly if the book has a
/// record of this cell, this ring number and the finding's start, and the finding's distance is at most that record's ceiling. Zero
/// is a cell, ring number, start and ceiling like any other, and no value stands for all.
///
/// `book` is a silence book, as [`pack`](crate::pack) writes it, or empty; records of tag 21 are read with ceiling 0. It is read even
/// if the line is shorter than the ring.
///
/// Lend [`Search::room`] words, however many findings are hidden. Returns `found`, hidden ones included, `hidden`, and the `looks` of
/// the scan. Writes the words of the shown findings only, by rising start and without a gap. The words behind them keep their values.
///
/// # Errors
///
/// Refused, in this order, by what [`survey`] is refused by, then by [`BookLength`](crate::Refusal::BookLength), then by the first
/// faulty field of the book: [`Field`](crate::Refusal::Field) before [`Order`](crate::Refusal::Order). A refused call has written
/// nothing.
///
/// ```
/// use outlines::{SILENCE_BYTES, Search, Silence, pack, report};
///
/// let mut book = [0; SILENCE_BYTES];
/// pack(&Silence { cell: 7, ring_number: 2, start: 1, ceiling: 0 }.words(), &mut book)?;
///
/// let search = Search { ring: b"aa", line: b"aaa", allowance: 0 };
/// let mut words = vec![0; search.room()];
/// let counts = report(7, 2, search, &book, &mut words)?;
/// assert_eq!((counts.found, counts.hidden, counts.shown()), (2, 1, 1));
/// assert!(counts.findings(&words).map(|finding| finding.start).eq([0]));
/// # Ok::<(), outlines::Refused>(())
/// ```
pub fn report(
    cell: u32,
    ring_number: u16,
    search: Search<'_>,
    book: &[u8],
    words: &mut [u32],
) -> Result<Counts, Refused> {
    let Search { ring, line, allowance } = search;
    let (r, l, b, w) = (ring.as_ptr(), line.as_ptr(), book.as_ptr(), words.as_mut_ptr());
    let (rs, ls, bs, ws) = (ring.len(), line.len(), book.len(), words.len());
    // SAFETY: as in `survey`.
    unsafe { raw::outlines_report(cell, ring_number, r, rs, l, ls, allowance, b, bs, w, ws) }.result()
}
