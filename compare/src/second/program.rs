//! The report program: from its whole input to its whole output.

use super::book::number;
use super::calls::Search;
use super::meaning::FINDING_WORDS;
use super::refusals::{refuse_if, Refused};

pub const LONGEST_INPUT: usize = 32_768;
pub const LONGEST_PROGRAM_LINE: usize = 4_096;

/// The five fields before the book, in their order: tag, and the least and greatest length of the value.
pub const FIELDS: [(u8, usize, usize); 5] =
    [(0x34, 4, 4), (0x35, 2, 2), (0x33, 1, 1), (0x31, 0, 65_535), (0x32, 0, LONGEST_PROGRAM_LINE)];

/// The value of the field that begins at the offset, and the offset behind it.
fn field(input: &[u8], offset: usize, (tag, least, greatest): (u8, usize, usize)) -> Option<(&[u8], usize)> {
    let header = input.get(offset..offset + 3)?;
    let length = number(&header[1..]);
    let value = input.get(offset + 3..offset + 3 + length)?;
    (header[0] == tag && least <= length && length <= greatest).then_some((value, offset + 3 + length))
}

fn parts(input: &[u8]) -> Result<(Vec<&[u8]>, &[u8]), Refused> {
    refuse_if(input.len() > LONGEST_INPUT, 11, 0)?;
    let (mut values, mut offset) = (Vec::new(), 0);
    for laid_down in FIELDS {
        let (value, behind) = field(input, offset, laid_down).ok_or(Refused { number: 11, place: offset })?;
        values.push(value);
        offset = behind;
    }
    Ok((values, &input[offset..]))
}

fn reported(input: &[u8]) -> Result<String, Refused> {
    let (values, book) = parts(input)?;
    let (cell, ring_number, allowance) = (number(values[0]), number(values[1]), number(values[2]));
    let (ring, line) = (values[3], values[4]);
    // The program lends enough words for every line it accepts, so refusal 4 never arises.
    let search = Search::new(ring, line, allowance, FINDING_WORDS * (line.len() + 1));
    let answered = search.report(cell as u32, ring_number as u16, book)?;
    let mut text = format!("cell {cell} ring {ring_number} edges {} allow {allowance}\n", ring.len());
    for shown in answered.written.chunks(FINDING_WORDS) {
        let numbers: Vec<String> = shown.iter().map(u32::to_string).collect();
        text += &format!("{}\n", numbers.join(" "));
    }
    text += &format!("found {} hidden {} looks {}\n", answered.found, answered.hidden, answered.looks);
    Ok(text)
}

pub fn output(input: &[u8]) -> String {
    reported(input).unwrap_or_else(|refused| format!("refused {} place {}\n", refused.number, refused.place))
}
