//! Why a call was refused, and where.

use core::error::Error;
use core::fmt;

/// Why a call was refused. The value of each variant is its number in `outlines.h`; there is no 13.
///
/// If several conditions hold, a call gives the first in the order that its documentation states. m is the number of ring edges,
/// n the number of line bytes. Places and record numbers count from 0.
///
/// ```
/// use outlines::Refusal;
///
/// assert_eq!(Refusal::MarkInRing.number(), 12);
/// assert_eq!(Refusal::MarkInRing.to_string(), "the ring holds byte 255, a boundary mark");
/// assert_eq!(Refusal::numbered(12), Some(Refusal::MarkInRing));
/// assert_eq!(Refusal::numbered(13), None);
/// ```
#[non_exhaustive]
#[derive(Clone, Copy, Debug, PartialEq, Eq, Hash)]
pub enum Refusal {
    /// The ring has no edge, or more than 256. Place 0.
    RingLength = 1,
    /// The allowance is m or more. Place 0.
    Allowance = 2,
    /// The line has more than 65,536 bytes. Place 0.
    LineLength = 3,
    /// n ≥ m, and fewer than 4 (n − m + 1) words are lent for the findings; 4 n if the line is closed, 8 (n − m + 1) in the
    /// two-way scan. Place 0.
    RoomForFindings = 4,
    /// The book has more than 15,000 bytes. Place 0.
    BookLength = 5,
    /// A field of the book is neither 13 bytes that begin with 21 00 0A hex nor 15 bytes that begin with 22 00 0C hex, or it is
    /// cut off. The place is the field's byte offset.
    Field = 6,
    /// A record's address is not above that of the record before it, whatever their ceilings are. The place is its byte offset in
    /// the book (reports and `unpack`) or its record number (`pack`).
    Order = 7,
    /// The number of words to pack is not a multiple of 4, or is above 4,000. Place 0.
    WordsToPack = 8,
    /// A word to pack as a ring number or a ceiling is above 65,535. The place is its record number.
    NumberToPack = 9,
    /// The area lent to `pack`, `unpack` or `import_vertices` is too small for the whole output; or, in a closed call, n ≥ m and the
    /// join area has fewer than 2 m − 2 bytes. Place 0.
    RoomForOutput = 10,
    /// The input of the library's report program is malformed. No function of this crate gives it.
    ProgramInput = 11,
    /// The ring holds 255, a boundary mark. Place 0.
    MarkInRing = 12,
    /// Two-way scan only: the ring holds a code above 247. The place is the first ring place with such a code.
    CodeInRing = 14,
    /// `import_vertices`: an odd count of numbers, or fewer than 3 or more than 4,096 vertices. Place 0.
    VertexCount = 15,
    /// `import_vertices`: a vertex equals the one after it, or the last one the first. The place is the first vertex of the earliest
    /// such pair; the last vertex for the closing pair.
    EqualNeighbours = 16,
}

impl Refusal {
    /// Every refusal, by rising number.
    pub const ALL: &'static [Refusal] = &[
        Refusal::RingLength,
        Refusal::Allowance,
        Refusal::LineLength,
        Refusal::RoomForFindings,
        Refusal::BookLength,
        Refusal::Field,
        Refusal::Order,
        Refusal::WordsToPack,
        Refusal::NumberToPack,
        Refusal::RoomForOutput,
        Refusal::ProgramInput,
        Refusal::MarkInRing,
        Refusal::CodeInRing,
        Refusal::VertexCount,
        Refusal::EqualNeighbours,
    ];

    /// Its number in `outlines.h`.
    pub const fn number(self) -> u32 {
        self as u32
    }

    /// The refusal of this number, if there is one.
    pub fn numbered(number: u32) -> Option<Refusal> {
        Refusal::ALL.iter().copied().find(|refusal| refusal.number() == number)
    }

    const fn text(self) -> &'static str {
        match self {
            Refusal::RingLength => "the ring has no edge, or more than 256",
            Refusal::Allowance => "the allowance is not below the number of ring edges",
            Refusal::LineLength => "the line has more than 65536 bytes",
            Refusal::RoomForFindings => "too few words are lent for the findings",
            Refusal::BookLength => "the book has more than 15000 bytes",
            Refusal::Field => "a field of the book is malformed or cut off",
            Refusal::Order => "the address of a record is not above that of the record before it",
            Refusal::WordsToPack => "the number of words to pack is not a multiple of 4, or is above 4000",
            Refusal::NumberToPack => "a ring number or a ceiling to pack is above 65535",
            Refusal::RoomForOutput => "too little room is lent for the output, or for the join area",
            Refusal::ProgramInput => "the input of the report program is malformed",
            Refusal::MarkInRing => "the ring holds byte 255, a boundary mark",
            Refusal::CodeInRing => "the ring holds a code above 247",
            Refusal::VertexCount => "the count of numbers is odd, or there are fewer than 3 vertices or more than 4096",
            Refusal::EqualNeighbours => "two neighbouring vertices are equal",
        }
    }
}

/// The line of text that `outlines_refusal_text` of `outlines.h` has for the refusal. Its words may change.
impl fmt::Display for Refusal {
    fn fmt(&self, formatter: &mut fmt::Formatter<'_>) -> fmt::Result {
        formatter.pad(self.text())
    }
}

impl Error for Refusal {}

/// The error of every call: why it was refused, and the place of the fault. A refused call has written nothing.
///
/// ```
/// use outlines::{Refusal, Refused, Search, scan_two_way};
///
/// let search = Search { ring: &[24, 26, 28, 250], line: &[], allowance: 0 };
/// let refused = scan_two_way(search, &mut []).unwrap_err();
/// assert_eq!(refused, Refused { refusal: Refusal::CodeInRing, place: 3 });
/// assert_eq!(refused.to_string(), "the ring holds a code above 247 (refusal 14, place 3)");
/// ```
#[derive(Clone, Copy, Debug, PartialEq, Eq, Hash)]
pub struct Refused {
    /// Why the call was refused.
    pub refusal: Refusal,
    /// The place of the fault. [`Refusal`] says for each refusal what it counts.
    pub place: u32,
}

impl Refused {
    /// Panics on a number outside the table: the library broke its interface, and that must not pass for an answer.
    pub(crate) fn new(number: u32, place: u32) -> Refused {
        let Some(refusal) = Refusal::numbered(number) else {
            panic!("the library refused by {number} at place {place}, and its interface has no such refusal")
        };
        Refused { refusal, place }
    }
}

impl fmt::Display for Refused {
    fn fmt(&self, formatter: &mut fmt::Formatter<'_>) -> fmt::Result {
        write!(formatter, "{} (refusal {}, place {})", self.refusal, self.refusal.number(), self.place)
    }
}

// Its text contains that of the refusal, so the refusal is not its source as well.
impl Error for Refused {}
