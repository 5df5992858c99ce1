//! Right inputs, long ones, missing ones, and ones that come in pieces.

use super::draw::{Draw, CODES};
use super::input::{asked, Asked, Fields, Input, Manner};
use super::searches::{plant, ring_and_line};
use super::silences::{book_of, silences};
use crate::second::book::FIELD;
use crate::second::samples::{example_of_tag_22, EXAMPLE_INPUT};

/// A right input. Most are short, because each costs a process.
pub fn right_fields(draw: &mut Draw) -> Fields {
    let m = draw.one(&[1, 2, 3, 4, 6, 9, 17, 64, 65, 100]);
    let n = if draw.chance(8) { draw.below(1_000) } else { draw.below(80) };
    let (ring, mut line) = ring_and_line(draw, &[1, 2, 2, 4, 26, CODES], m, n);
    if n >= m && draw.chance(2) {
        let (start, edits) = (draw.below(n - m + 1), draw.below(3));
        plant(draw, &ring, &mut line, start, edits);
    }
    let asked = asked(draw, m);
    let count = draw.one(&[0, 1, 4, 30]);
    let book = book_of(silences(draw, asked.cell, asked.ring_number, n, count));
    Fields::new(&asked, ring, line, book)
}

pub fn right(_: u64, draw: &mut Draw) -> Input {
    right_fields(draw).whole()
}

pub const ALLOWANCES: u64 = 256 * 5;

pub fn allowances(index: u64, draw: &mut Draw) -> Input {
    let m = [1, 2, 100, 255, 256][(index / 256) as usize];
    let asked = Asked { cell: 7, ring_number: 2, allowance: (index % 256) as u8 };
    let (ring, line) = ring_and_line(draw, &[2], m, m + 3);
    Fields::new(&asked, ring, line, Vec::new()).whole()
}

const RINGS: [usize; 8] = [0, 1, 2, 255, 256, 257, 1_000, 28_000];
const LINES: [usize; 9] = [0, 1, 255, 256, 257, 4_095, 4_096, 4_097, 5_000];
pub const LENGTHS: u64 = 3 * (RINGS.len() * LINES.len()) as u64;

pub fn lengths(index: u64, draw: &mut Draw) -> Input {
    let number = (index / 3) as usize;
    let (m, n) = (RINGS[number % RINGS.len()], LINES[number / RINGS.len()]);
    let asked = Asked { cell: 9, ring_number: 1, allowance: draw.below(3) as u8 };
    let (ring, line) = ring_and_line(draw, &[[1, 2, 26][(index % 3) as usize]], m, n);
    Fields::new(&asked, ring, line, Vec::new()).whole()
}

const TOTALS: [usize; 12] =
    [32_766, 32_767, 32_768, 32_769, 32_770, 40_000, 65_535, 65_536, 65_537, 100_000, 300_000, 1_000_000];
const SHAPES: usize = 4;
pub const LONG: u64 = 2 * (TOTALS.len() * SHAPES) as u64;

/// Inputs about the longest that is read, made long by the ring or by the book, or with a faulty field.
pub fn long(index: u64, draw: &mut Draw) -> Input {
    let number = (index / 2) as usize;
    let (total, shape) = (TOTALS[number % TOTALS.len()], number / TOTALS.len());
    let asked = Asked { cell: 7, ring_number: 2, allowance: 1 };
    let mut fields = Fields::new(&asked, vec![1; 3], vec![1; 40], Vec::new());
    let missing = total - fields.bytes().len();
    match shape {
        0 => fields.set_value(3, vec![1; (3 + missing).min(65_535)]),
        1 => fields.book = book_of(silences(draw, 7, 2, 1 << 30, missing / FIELD)),
        2 => fields.book = vec![draw.one(&[0x21, 0x22]); missing],
        _ => fields.five[1].tag = 0,
    }
    let mut bytes = fields.bytes();
    bytes.resize(total, 0);
    let manner = if index % 2 == 0 { Manner::Whole } else { Manner::Pieces(vec![5, 30_000, 32_768]) };
    Input { bytes, manner }
}

/// Inputs written in several pieces; one in eight byte by byte in its first fields.
pub fn pieces(index: u64, draw: &mut Draw) -> Input {
    let mut bytes = right_fields(draw).bytes();
    if draw.chance(4) {
        bytes.truncate(draw.below(bytes.len()));
    }
    let cuts = if index % 8 == 0 {
        (1..bytes.len().min(20)).collect()
    } else {
        let mut cuts: Vec<usize> = (0..draw.between(1, 4)).map(|_| draw.below(bytes.len() + 1)).collect();
        cuts.sort();
        cuts
    };
    Input { bytes, manner: Manner::Pieces(cuts) }
}

/// Nothing to read, in four manners. Document 01 does not mention a read that fails; the program refuses it like an empty
/// input.
pub fn none(index: u64, _: &mut Draw) -> Input {
    let manner = [Manner::Whole, Manner::Nothing, Manner::Closed, Manner::Folder][(index % 4) as usize].clone();
    Input { bytes: Vec::new(), manner }
}

const VALUES: u64 = 8;
const EXAMPLE: u64 = EXAMPLE_INPUT.len() as u64;
/// The same example with its silence of tag 22, which has two bytes more.
const EXAMPLE_22: u64 = EXAMPLE + 2;

/// An example with each byte changed to several values, cut at each length, and whole.
const fn changed_and_cut(length: u64) -> u64 {
    length * VALUES + length + 1
}

/// Document 01's example under both tags.
pub const EXAMPLES: u64 = changed_and_cut(EXAMPLE) + changed_and_cut(EXAMPLE_22);

pub fn example(index: u64, draw: &mut Draw) -> Input {
    let (mut bytes, index) = match index.checked_sub(changed_and_cut(EXAMPLE)) {
        None => (EXAMPLE_INPUT.to_vec(), index),
        Some(index) => (example_of_tag_22(), index),
    };
    let changed = bytes.len() as u64 * VALUES;
    if index >= changed {
        bytes.truncate((index - changed) as usize);
    } else {
        let place = (index / VALUES) as usize;
        let (before, any) = (bytes[place], draw.below(256) as u8);
        let values = [0, 1, 2, 0x31, 0xFF, before.wrapping_add(1), before.wrapping_sub(1), any];
        bytes[place] = values[(index % VALUES) as usize];
    }
    Input { bytes, manner: Manner::Whole }
}
