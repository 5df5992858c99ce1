//! Silences, and the book that holds them.

use core::iter::FusedIterator;
use core::num::TryFromIntError;

use crate::findings::Fours;
use crate::{Counts, Refused, raw};

/// A reviewer's silence. In a report of its cell and its ring number it hides the finding at its start exactly if the finding's
/// distance is at most the ceiling.
///
/// So a copy that an edit made worse than what was signed is shown again. A ceiling of 0 hides exact copies only.
///
/// ```
/// use outlines::Silence;
///
/// let silence = Silence { cell: 7, ring_number: 2, start: 10, ceiling: 1 };
/// assert_eq!(silence.words(), [7, 2, 10, 1]);
/// assert_eq!(Silence::try_from([7, 2, 10, 1]), Ok(silence));
/// assert!(Silence::try_from([7, 65_536, 10, 1]).is_err());
/// ```
#[derive(Clone, Copy, Debug, PartialEq, Eq, Hash)]
pub struct Silence {
    /// The cell.
    pub cell: u32,
    /// The ring number.
    pub ring_number: u16,
    /// The start.
    pub start: u32,
    /// The ceiling: the largest distance that it hides.
    pub ceiling: u16,
}

impl Silence {
    /// Its four words, as [`pack`] reads them.
    pub fn words(&self) -> [u32; 4] {
        [self.cell, self.ring_number.into(), self.start, self.ceiling.into()]
    }

    /// Its address. A book holds silences in strictly rising order of their addresses; ceilings play no part in the order.
    ///
    /// ```
    /// use outlines::Silence;
    ///
    /// let mut silences = [[7, 2, 9, 0], [7, 1, 9, 5]].map(|words| Silence::try_from(words).unwrap());
    /// silences.sort_by_key(Silence::address);
    /// assert_eq!(silences.map(|silence| silence.ring_number), [1, 2]);
    /// ```
    pub fn address(&self) -> (u32, u16, u32) {
        (self.cell, self.ring_number, self.start)
    }
}

impl From<Silence> for [u32; 4] {
    fn from(silence: Silence) -> [u32; 4] {
        silence.words()
    }
}

impl TryFrom<[u32; 4]> for Silence {
    type Error = TryFromIntError;

    /// The silence of four words. It fails on a ring number or a ceiling above 65,535, which [`pack`] refuses too.
    fn try_from([cell, ring_number, start, ceiling]: [u32; 4]) -> Result<Silence, TryFromIntError> {
        Ok(Silence { cell, ring_number: ring_number.try_into()?, start, ceiling: ceiling.try_into()? })
    }
}

/// The silences of a book, in its order, read from the words that [`unpack`] wrote. [`Counts::silences`] makes it.
#[derive(Clone, Debug)]
pub struct Silences<'a> {
    fours: Fours<'a>,
}

impl<'a> Silences<'a> {
    pub(crate) fn new(words: &'a [u32], count: u64) -> Silences<'a> {
        Silences { fours: Fours::new(words, 0, count) }
    }
}

impl Iterator for Silences<'_> {
    type Item = Silence;

    fn next(&mut self) -> Option<Silence> {
        let silence = Silence::try_from(self.fours.next()?).ok();
        if silence.is_none() {
            self.fours = Fours::new(&[], 0, 0); // No later call goes on behind words that are no silence.
        }
        silence
    }

    fn size_hint(&self) -> (usize, Option<usize>) {
        (0, Some(self.fours.len()))
    }
}

impl FusedIterator for Silences<'_> {}

/// Packs silences into a book.
///
/// `words` has four words for each silence, as [`Silence::words`] gives them: cell, ring number, start, ceiling. There are at most
/// [`MOST_SILENCES`](crate::MOST_SILENCES), in strictly rising order by cell, then ring number, then start.
///
/// Lend [`SILENCE_BYTES`](crate::SILENCE_BYTES) bytes, 15, for each silence. Returns the number of records as `found`. Writes 15 bytes
/// for each silence: 22 00 0C hex, cell (4 bytes), ring number (2), start (4), ceiling (2), numbers high byte first. The bytes behind
/// them keep their values, so the book is the first 15 · `found` bytes.
///
/// # Errors
///
/// Refused, in this order, by [`WordsToPack`](crate::Refusal::WordsToPack), then by the first faulty record,
/// [`NumberToPack`](crate::Refusal::NumberToPack) before [`Order`](crate::Refusal::Order), then by
/// [`RoomForOutput`](crate::Refusal::RoomForOutput). A refused call has written nothing.
///
/// ```
/// use outlines::{SILENCE_BYTES, Silence, pack};
///
/// let silences = [10, 11].map(|start| Silence { cell: 7, ring_number: 2, start, ceiling: 1 });
/// let words: Vec<u32> = silences.iter().flat_map(Silence::words).collect();
/// let mut book = vec![0; SILENCE_BYTES * silences.len()];
/// assert_eq!(pack(&words, &mut book)?.found, 2);
/// assert_eq!(book[..15], [0x22, 0x00, 0x0C, 0, 0, 0, 7, 0, 2, 0, 0, 0, 10, 0, 1]);
/// # Ok::<(), outlines::Refused>(())
/// ```
pub fn pack(words: &[u32], bytes: &mut [u8]) -> Result<Counts, Refused> {
    // SAFETY: each pointer goes with the length of its slice, which is borrowed until the call returns; `bytes` mutably.
    unsafe { raw::outlines_pack(words.as_ptr(), words.len(), bytes.as_mut_ptr(), bytes.len()) }.result()
}

/// Unpacks a book into words.
///
/// `book` has at most [`MOST_BOOK`](crate::MOST_BOOK) bytes; an empty book is valid. Its records may be of tag 22, as [`pack`] writes
/// them, and of tag 21: 21 00 0A hex, cell (4 bytes), ring number (2), start (4), 13 bytes in all, read with ceiling 0.
///
/// Lend four words for each record. 4 · [`MOST_RECORDS`](crate::MOST_RECORDS) words, 4,612, suffice for every book. Returns the number
/// of records as `found`. Writes four words for each record: cell, ring number, start, ceiling. [`Counts::silences`] reads them. The
/// words behind them keep their values.
///
/// Unpacking a packed book gives the words back. A book of at most [`MOST_SILENCES`](crate::MOST_SILENCES) records, unpacked and
/// packed, reads back to the same values, and has the same bytes if no record is of tag 21. [`pack`] refuses the words of more
/// records.
///
/// # Errors
///
/// Refused, in this order, by [`BookLength`](crate::Refusal::BookLength), then by the first faulty field of the book,
/// [`Field`](crate::Refusal::Field) before [`Order`](crate::Refusal::Order), then by
/// [`RoomForOutput`](crate::Refusal::RoomForOutput). A refused call has written nothing.
///
/// ```
/// use outlines::{MOST_RECORDS, SILENCE_WORDS, Silence, unpack};
///
/// let book = [0x21, 0x00, 0x0A, 0, 0, 0, 7, 0, 2, 0, 0, 0, 10];
/// let mut words = vec![0; SILENCE_WORDS * MOST_RECORDS];
/// let counts = unpack(&book, &mut words)?;
/// assert!(counts.silences(&words).eq([Silence { cell: 7, ring_number: 2, start: 10, ceiling: 0 }]));
/// # Ok::<(), outlines::Refused>(())
/// ```
pub fn unpack(book: &[u8], words: &mut [u32]) -> Result<Counts, Refused> {
    // SAFETY: each pointer goes with the length of its slice, which is borrowed until the call returns; `words` mutably.
    unsafe { raw::outlines_unpack(book.as_ptr(), book.len(), words.as_mut_ptr(), words.len()) }.result()
}
