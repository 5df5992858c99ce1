//! The silence book by its layout, read and packed.

use super::refusals::{refuse_if, Refused, LONGEST_BOOK, MOST_WORDS_TO_PACK};

/// "tag 22, length 12, the old ten bytes and a two-byte distance" (ticket 4): 15 bytes. Only these are packed.
pub const FIELD: usize = 15;
/// "tag 21 hex, length 10": 13 bytes.
pub const OLD_FIELD: usize = 13;
const BEGINNING: [u8; 3] = [0x22, 0x00, 0x0C];
const OLD_BEGINNING: [u8; 3] = [0x21, 0x00, 0x0A];
/// "Packed words are four a record" (ticket 4): cell, ring number, start, ceiling.
pub const SILENCE_WORDS: usize = 4;

/// Cell, ring number, start: in this order records ascend.
pub type Address = (u32, u16, u32);

#[derive(Clone, Copy, Debug, PartialEq, Eq)]
pub struct Silence {
    pub cell: u32,
    pub ring_number: u16,
    pub start: u32,
    /// The two bytes that tag 22 adds. A record of tag 21 has none.
    pub ceiling: Option<u16>,
}

impl Silence {
    /// "No two records share an address, under either tag" (ticket 4): the order looks at nothing else.
    pub fn address(&self) -> Address {
        (self.cell, self.ring_number, self.start)
    }

    /// "Tag 21 is still read, with ceiling 0" (ticket 4).
    pub fn ceiling(&self) -> u16 {
        self.ceiling.unwrap_or(0)
    }

    /// "It hides a finding at its address only up to that distance" (ticket 4). The address is the caller's matter.
    pub fn hides(&self, distance: usize) -> bool {
        distance <= usize::from(self.ceiling())
    }

    pub fn field(&self) -> Vec<u8> {
        let mut field = if self.ceiling.is_some() { BEGINNING } else { OLD_BEGINNING }.to_vec();
        field.extend(self.cell.to_be_bytes());
        field.extend(self.ring_number.to_be_bytes());
        field.extend(self.start.to_be_bytes());
        field.extend(self.ceiling.iter().flat_map(|ceiling| ceiling.to_be_bytes()));
        field
    }

    pub fn words(&self) -> [u32; SILENCE_WORDS] {
        [self.cell, u32::from(self.ring_number), self.start, u32::from(self.ceiling())]
    }

    /// The record that these bytes begin with, and how many bytes it takes.
    pub fn first_of(bytes: &[u8]) -> Option<(Silence, usize)> {
        let length = match bytes {
            _ if bytes.starts_with(&BEGINNING) => FIELD,
            _ if bytes.starts_with(&OLD_BEGINNING) => OLD_FIELD,
            _ => return None,
        };
        let field = bytes.get(..length)?;
        let record = Silence {
            cell: number(&field[3..7]) as u32,
            ring_number: number(&field[7..9]) as u16,
            start: number(&field[9..13]) as u32,
            ceiling: (length == FIELD).then(|| number(&field[13..15]) as u16),
        };
        Some((record, length))
    }
}

/// High byte first.
pub fn number(bytes: &[u8]) -> usize {
    bytes.iter().fold(0, |sum, &byte| 256 * sum + usize::from(byte))
}

/// Refusal 7, for the record that is to come behind these.
fn refuse_unless_above(records: &[Silence], next: &Silence, place: usize) -> Result<(), Refused> {
    refuse_if(records.last().is_some_and(|before| next.address() <= before.address()), 7, place)
}

pub fn read(book: &[u8]) -> Result<Vec<Silence>, Refused> {
    refuse_if(book.len() > LONGEST_BOOK, 5, 0)?;
    let mut records = Vec::new();
    let mut offset = 0;
    while offset < book.len() {
        let first = Silence::first_of(&book[offset..]);
        let (record, length) = first.ok_or(Refused { number: 6, place: offset })?;
        refuse_unless_above(&records, &record, offset)?;
        records.push(record);
        offset += length;
    }
    Ok(records)
}

/// Refusals 8, 9 and 7; the room for the output is the caller's matter. "9 also for a ceiling above 65,535" (ticket 4).
pub fn to_pack(words: &[u32]) -> Result<Vec<Silence>, Refused> {
    refuse_if(words.len() % SILENCE_WORDS != 0 || words.len() > MOST_WORDS_TO_PACK, 8, 0)?;
    let mut records = Vec::new();
    for (index, words) in words.chunks(SILENCE_WORDS).enumerate() {
        let [cell, ring_number, start, ceiling] = words[..] else { unreachable!("a record's words") };
        refuse_if(ring_number > 65_535 || ceiling > 65_535, 9, index)?;
        let record = Silence { cell, ring_number: ring_number as u16, start, ceiling: Some(ceiling as u16) };
        refuse_unless_above(&records, &record, index)?;
        records.push(record);
    }
    Ok(records)
}
