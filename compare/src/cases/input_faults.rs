//! Inputs with a fault: in each of the first five fields, in the book, and two refusals at once.

use super::books::mixed_book;
use super::draw::Draw;
use super::faults::{faulty_book, pair, OF_BOOK};
use super::input::{Fields, Input, Manner};
use super::inputs::right_fields;
use super::marks::mark_ring;

const FAULTS: u64 = 4;
pub const FIELD_FAULTS: u64 = 5 * FAULTS;

/// Bytes of an input with one of its first five fields missing, cut, wrongly tagged or wrongly long.
fn with_field_fault(draw: &mut Draw, mut fields: Fields, field: usize, fault: u64) -> Vec<u8> {
    let offset = fields.offset(field);
    let value = fields.five[field].value.len();
    match fault {
        0 if draw.chance(2) => drop(fields.five.remove(field)),
        0 => {
            let mut bytes = fields.bytes();
            bytes.truncate(offset);
            return bytes;
        }
        1 => {
            let mut bytes = fields.bytes();
            bytes.truncate(offset + draw.between(1, 2 + value));
            return bytes;
        }
        2 => fields.five[field].tag = draw.one(&[0, 0x21, 0x22, 0x31, 0x32, 0x33, 0x34, 0x35, 0x36, 0xFF]),
        _ => {
            let declared = draw.one(&[value + 1, value.saturating_sub(1), 0, 256 + value, 4_097, 65_535]);
            fields.five[field].declared = declared;
            if draw.chance(2) {
                fields.five[field].value.resize(declared.min(5_000), 0);
            }
        }
    }
    fields.bytes()
}

pub fn field_faults(index: u64, draw: &mut Draw) -> Input {
    let number = index % FIELD_FAULTS;
    let fields = right_fields(draw);
    let bytes = with_field_fault(draw, fields, (number / FAULTS) as usize, number % FAULTS);
    Input { bytes, manner: Manner::Whole }
}

/// Good books of both tags up to the longest, and damaged ones.
pub fn books(index: u64, draw: &mut Draw) -> Input {
    let mut fields = right_fields(draw);
    fields.book = match index % 4 {
        0 => {
            let records = [(0, 1), (1, 0), (1, 1), (50, 50), (0, 900), (0, 1_000), (1_153, 0), (15, 987)];
            let (old, new) = draw.one(&records);
            mixed_book(draw, old, new)
        }
        _ => faulty_book(draw, pair(&OF_BOOK, index / 4), 7, 2),
    };
    fields.whole()
}

const OF_PROGRAM: [u32; 7] = [11, 1, 12, 2, 5, 6, 7];

pub fn pairs(index: u64, draw: &mut Draw) -> Input {
    let faults = pair(&OF_PROGRAM, index);
    let mut fields = right_fields(draw);
    if faults.contains(&1) {
        let m = draw.one(&[0, 257, 300, 1_000]);
        fields.set_value(3, vec![3; m]);
    }
    if faults.contains(&12) {
        mark_ring(draw, &mut fields.five[3].value);
    }
    if faults.contains(&2) {
        let m = fields.five[3].value.len().min(255);
        let above = draw.between(m, 255);
        fields.five[2].value = vec![draw.one(&[m, above, 255]) as u8];
    }
    if faults.iter().any(|fault| OF_BOOK.contains(fault)) {
        fields.book = faulty_book(draw, faults, 7, 2);
    }
    if !faults.contains(&11) {
        return fields.whole();
    }
    let (field, fault) = (draw.below(5), draw.below(FAULTS as usize) as u64);
    Input { bytes: with_field_fault(draw, fields, field, fault), manner: Manner::Whole }
}
