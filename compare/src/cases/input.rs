//! Inputs of the report program, built field by field.

use super::call::cell_and_ring;
use super::draw::Draw;
use crate::second::program::FIELDS;

/// How the bytes reach the program.
#[derive(Clone, Debug, PartialEq, Eq)]
pub enum Manner {
    Whole,
    /// In several writes, cut at these offsets, with time for the program to read in between.
    Pieces(Vec<usize>),
    /// Descriptor 0 is closed.
    Closed,
    /// Descriptor 0 is an empty file.
    Nothing,
    /// Descriptor 0 is a folder: every read fails.
    Folder,
}

#[derive(Clone, Debug)]
pub struct Input {
    pub bytes: Vec<u8>,
    pub manner: Manner,
}

/// A field as it will be written. The length that it declares may differ from that of its value.
#[derive(Clone)]
pub struct Field {
    pub tag: u8,
    pub declared: usize,
    pub value: Vec<u8>,
}

#[derive(Clone)]
pub struct Fields {
    pub five: Vec<Field>,
    pub book: Vec<u8>,
}

impl Field {
    fn bytes(&self) -> Vec<u8> {
        let mut bytes = vec![self.tag, (self.declared >> 8) as u8, self.declared as u8];
        bytes.extend(&self.value);
        bytes
    }
}

pub struct Asked {
    pub cell: u32,
    pub ring_number: u16,
    pub allowance: u8,
}

impl Fields {
    pub fn new(asked: &Asked, ring: Vec<u8>, line: Vec<u8>, book: Vec<u8>) -> Fields {
        let (cell, number) = (asked.cell.to_be_bytes().to_vec(), asked.ring_number.to_be_bytes().to_vec());
        let values = [cell, number, vec![asked.allowance], ring, line];
        let tagged = FIELDS.iter().zip(values);
        let five = tagged.map(|(&(tag, _, _), value)| Field { tag, declared: value.len(), value }).collect();
        Fields { five, book }
    }

    pub fn bytes(&self) -> Vec<u8> {
        let mut bytes: Vec<u8> = self.five.iter().flat_map(Field::bytes).collect();
        bytes.extend(&self.book);
        bytes
    }

    /// The offset where a field begins.
    pub fn offset(&self, field: usize) -> usize {
        self.five[..field].iter().map(|field| 3 + field.value.len()).sum()
    }

    pub fn whole(&self) -> Input {
        Input { bytes: self.bytes(), manner: Manner::Whole }
    }

    pub fn set_value(&mut self, field: usize, value: Vec<u8>) {
        self.five[field].declared = value.len();
        self.five[field].value = value;
    }
}

pub fn asked(draw: &mut Draw, m: usize) -> Asked {
    let (cell, ring_number) = cell_and_ring(draw);
    Asked { cell, ring_number, allowance: draw.allowance(m.clamp(1, 256)) as u8 }
}
