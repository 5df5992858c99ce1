//! Survey, scan and report of a closed line.

use crate::{Counts, Refused, Search, raw};

/// The plain survey of a closed line: behind its last byte the line goes on with its first one.
///
/// A cell may deliver one boundary alone. Its line is then a ring itself, and a copy may lie across its first vertex. If n ≥ m, every
/// place i from 0 to n − 1 has a window, the line's bytes at places i, i + 1, .. i + m − 1 mod n, and i is a start if that window
/// holds no mark. Every finding of the open line is one of the closed line, with the same four numbers.
///
/// Lend [`Search::room_closed`] words, 4 n, and [`Search::room_join`] bytes, 2 m − 2. None are needed if n < m.
///
/// Returns `found` and `looks`; `looks` is 2 m (n + m − 1) − m m if n ≥ m, marks or not, else 0. Writes the words of the findings as
/// [`survey`](crate::survey) does. If n ≥ m, the first 2 m − 2 bytes of `join` then hold the line's last m − 1 bytes and its first
/// m − 1; the bytes behind them keep their values. If n < m, the whole join area keeps its values.
///
/// # Errors
///
/// Refused, in this order, by [`RingLength`](crate::Refusal::RingLength), [`MarkInRing`](crate::Refusal::MarkInRing),
/// [`Allowance`](crate::Refusal::Allowance), [`LineLength`](crate::Refusal::LineLength) (n alone is tested),
/// [`RoomForFindings`](crate::Refusal::RoomForFindings) and [`RoomForOutput`](crate::Refusal::RoomForOutput). A refused call has
/// written nothing.
///
/// ```
/// use outlines::{Search, survey_closed};
///
/// let search = Search { ring: b"abc", line: b"bca", allowance: 0 };
/// let (mut join, mut words) = (vec![0; search.room_join()], vec![0; search.room_closed()]);
/// let counts = survey_closed(search, &mut join, &mut words)?;
/// assert!(counts.findings(&words).map(|finding| (finding.start, finding.rotation)).eq([(0, 1), (1, 2), (2, 0)]));
/// assert_eq!(counts.looks, 21);
/// assert_eq!(join, b"cabc");
/// # Ok::<(), outlines::Refused>(())
/// ```
pub fn survey_closed(search: Search<'_>, join: &mut [u8], words: &mut [u32]) -> Result<Counts, Refused> {
    let Search { ring, line, allowance } = search;
    let (r, l, j, w) = (ring.as_ptr(), line.as_ptr(), join.as_mut_ptr(), words.as_mut_ptr());
    let (rs, ls, js, ws) = (ring.len(), line.len(), join.len(), words.len());
    // SAFETY: each pointer goes with the length of its slice, which is borrowed until the call returns; `join` and `words` mutably.
    unsafe { raw::outlines_survey_closed(r, rs, l, ls, allowance, j, js, w, ws) }.result()
}

/// The quick scan of a closed line: the findings, words, join area, room and refusals of [`survey_closed`].
///
/// Returns `found` and `looks`; `looks` is at most 3 m (n + m − 1) − 2 m m + m if n ≥ m, else 0.
///
/// # Errors
///
/// Those of [`survey_closed`], in the same order.
///
/// ```
/// use outlines::{Search, scan, scan_closed};
///
/// // From place 4 on stands `abc`, and behind the last byte the line goes on with its first one, `d`.
/// let search = Search { ring: b"abcd", line: b"dzzzabc", allowance: 0 };
/// let (mut join, mut words) = (vec![0; search.room_join()], vec![0; search.room_closed()]);
/// assert_eq!(scan(search, &mut words)?.found, 0);
/// let counts = scan_closed(search, &mut join, &mut words)?;
/// assert!(counts.findings(&words).map(|finding| finding.start).eq([4]));
/// # Ok::<(), outlines::Refused>(())
/// ```
pub fn scan_closed(search: Search<'_>, join: &mut [u8], words: &mut [u32]) -> Result<Counts, Refused> {
    let Search { ring, line, allowance } = search;
    let (r, l, j, w) = (ring.as_ptr(), line.as_ptr(), join.as_mut_ptr(), words.as_mut_ptr());
    let (rs, ls, js, ws) = (ring.len(), line.len(), join.len(), words.len());
    // SAFETY: as in `survey_closed`.
    unsafe { raw::outlines_scan_closed(r, rs, l, ls, allowance, j, js, w, ws) }.result()
}

/// The report of a closed line: [`scan_closed`] without the findings that the book hides.
///
/// `cell`, `ring_number` and `book` are those of [`report`](crate::report). A record of this cell and ring number hides the finding at
/// its start, whichever of the places 0 to n − 1 that is, if the finding's distance is at most the record's ceiling. The book is read
/// even if n < m.
///
/// Lend the words and the join area of [`survey_closed`], however many findings are hidden. Returns `found`, hidden ones included,
/// `hidden`, and the `looks` of the closed scan. Writes the words of the shown findings only, and the join area.
///
/// # Errors
///
/// Refused, in this order, by what [`survey_closed`] is refused by, then by [`BookLength`](crate::Refusal::BookLength), then by the
/// first faulty field of the book: [`Field`](crate::Refusal::Field) before [`Order`](crate::Refusal::Order). A refused call has
/// written nothing, the join area included.
///
/// ```
/// use outlines::{SILENCE_BYTES, Search, Silence, pack, report_closed};
///
/// let mut book = [0; SILENCE_BYTES];
/// pack(&Silence { cell: 7, ring_number: 2, start: 4, ceiling: 0 }.words(), &mut book)?;
///
/// let search = Search { ring: b"abcd", line: b"dzzzabc", allowance: 0 };
/// let (mut join, mut words) = (vec![0; search.room_join()], vec![0; search.room_closed()]);
/// let counts = report_closed(7, 2, search, &book, &mut join, &mut words)?;
/// assert_eq!((counts.found, counts.hidden), (1, 1));
/// # Ok::<(), outlines::Refused>(())
/// ```
pub fn report_closed(
    cell: u32,
    ring_number: u16,
    search: Search<'_>,
    book: &[u8],
    join: &mut [u8],
    words: &mut [u32],
) -> Result<Counts, Refused> {
    let Search { ring, line, allowance } = search;
    let (r, l, b, j, w) = (ring.as_ptr(), line.as_ptr(), book.as_ptr(), join.as_mut_ptr(), words.as_mut_ptr());
    let (rs, ls, bs, js, ws) = (ring.len(), line.len(), book.len(), join.len(), words.len());
    // SAFETY: as in `survey_closed`.
    unsafe { raw::outlines_report_closed(cell, ring_number, r, rs, l, ls, allowance, b, bs, j, js, w, ws) }.result()
}
