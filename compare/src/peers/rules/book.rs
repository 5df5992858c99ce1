//! The silence book: fields of 13 and of 15 bytes, read in place.

/// "5 at 15,000 bytes"
const MOST_BOOK: usize = 15_000;
/// "tag 21 hex, length 10", the length high byte first.
const OLD_HEAD: [u8; 3] = [0x21, 0, 10];
/// "tag 22, length 12"
const HEAD: [u8; 3] = [0x22, 0, 12];
const HEAD_LENGTH: usize = 3;
/// "the old ten bytes and a two-byte distance"
const ADDRESS_LENGTH: usize = 10;
const CEILING_LENGTH: usize = 2;

/// The order of the fields is document 01's: "by cell, then ring number, then start".
#[derive(Clone, Copy, PartialEq, Eq, PartialOrd, Ord)]
pub struct Address {
    pub cell: u32,
    pub ring_number: u16,
    pub start: u32,
}

/// A field of the book and the byte offset just past it. Tag 21 has the ceiling 0.
#[derive(Clone, Copy)]
pub struct Field {
    address: Address,
    ceiling: u16,
    next: usize,
}

fn word_at(bytes: &[u8], at: usize) -> u32 {
    u32::from_be_bytes([bytes[at], bytes[at + 1], bytes[at + 2], bytes[at + 3]])
}

fn short_at(bytes: &[u8], at: usize) -> u16 {
    u16::from_be_bytes([bytes[at], bytes[at + 1]])
}

fn address_of(value: &[u8]) -> Address {
    Address { cell: word_at(value, 0), ring_number: short_at(value, 4), start: word_at(value, 6) }
}

fn field_at(book: &[u8], at: usize) -> Option<Field> {
    let rest = book.get(at..)?;
    if let Some(value) = rest.strip_prefix(&HEAD) {
        let value = value.get(..ADDRESS_LENGTH + CEILING_LENGTH)?;
        let next = at + HEAD_LENGTH + ADDRESS_LENGTH + CEILING_LENGTH;
        return Some(Field { address: address_of(value), ceiling: short_at(value, ADDRESS_LENGTH), next });
    }
    let value = rest.strip_prefix(&OLD_HEAD)?.get(..ADDRESS_LENGTH)?;
    Some(Field { address: address_of(value), ceiling: 0, next: at + HEAD_LENGTH + ADDRESS_LENGTH })
}

/// Refusal 5, 6 or 7 of a book and its place, or 0 and 0.
pub fn read(book: &[u8]) -> (usize, usize) {
    if book.len() > MOST_BOOK {
        return (5, 0);
    }
    let mut last = None;
    let mut at = 0;
    while at < book.len() {
        let Some(field) = field_at(book, at) else {
            return (6, at);
        };
        if last.is_some_and(|before| field.address <= before) {
            return (7, at);
        }
        last = Some(field.address);
        at = field.next;
    }
    (0, 0)
}

/// The first field from byte offset `at` on that is not below the address.
pub fn seek(book: &[u8], at: usize, address: Address) -> Option<Field> {
    let mut field = field_at(book, at)?;
    while field.address < address {
        field = field_at(book, field.next)?;
    }
    Some(field)
}

/// The same for rising addresses: the caller keeps the last answer, so no field is read twice.
pub fn seek_on(book: &[u8], held: Option<Field>, address: Address) -> Option<Field> {
    match held {
        Some(field) if field.address < address => seek(book, field.next, address),
        _ => held,
    }
}

/// Whether the field held hides a finding: "at its address only up to that distance".
pub fn hides(held: Option<Field>, address: Address, distance: usize) -> bool {
    held.is_some_and(|field| field.address == address && distance <= field.ceiling as usize)
}
