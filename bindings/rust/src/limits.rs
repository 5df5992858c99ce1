//! The limits and sizes of `outlines.h`, under its names without `OUTLINES_`.

/// The version of the library that this crate is made for.
pub const VERSION: &str = env!("CARGO_PKG_VERSION");

/// Most edges of a ring; the least is 1.
pub const MOST_RING: usize = 256;

/// Most bytes of a line, marks included; the least is 0.
pub const MOST_LINE: usize = 65_536;

/// The byte that is a boundary mark. It stands in a line where one boundary ends and the next begins. A ring must not hold it.
pub const MARK: u8 = 255;

/// Highest edge code of a ring for [`scan_two_way`](crate::scan_two_way), and of an imported edge.
pub const MOST_CODE: u8 = 247;

/// Words of a finding: start, rotation, distance, ties.
pub const FINDING_WORDS: usize = 4;

/// Words of a silence: cell, ring number, start, ceiling.
pub const SILENCE_WORDS: usize = 4;

/// Bytes of a silence that [`pack`](crate::pack) writes.
pub const SILENCE_BYTES: usize = 15;

/// Most silences to pack.
pub const MOST_SILENCES: usize = 1_000;

/// Highest ring number of a silence and of a report.
pub const MOST_RING_NUMBER: u16 = 65_535;

/// Highest ceiling of a silence.
pub const MOST_CEILING: u16 = 65_535;

/// Most records of a book that is read: 15,000 bytes / 13. At most 5 of 1,153 can be of tag 22. They are 4,612 words to unpack.
pub const MOST_RECORDS: usize = 1_153;

/// Most bytes of a book.
pub const MOST_BOOK: usize = 15_000;

/// Fewest vertices of a boundary to import.
pub const FEWEST_VERTICES: usize = 3;

/// Most vertices of a boundary to import.
pub const MOST_VERTICES: usize = 4_096;
