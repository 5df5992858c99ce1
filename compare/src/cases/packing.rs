//! Words to pack: rising and not, with ring numbers and ceilings too great, with short rooms; and round trips.

use super::call::Call;
use super::draw::Draw;
use super::silences::{rising_words, silences};
use crate::second::book::{Silence, FIELD, SILENCE_WORDS};

/// Small numbers, so that equal and falling neighbours come up in each word of a record.
fn any_order(draw: &mut Draw, count: usize) -> Vec<u32> {
    let mut words: Vec<u32> = (0..SILENCE_WORDS * count).map(|_| draw.below(3) as u32).collect();
    let mut records: Vec<&[u32]> = words.chunks(SILENCE_WORDS).collect();
    if draw.chance(2) {
        records.sort();
        words = records.concat();
    }
    words
}

pub fn packing(index: u64, draw: &mut Draw) -> Call {
    let few = draw.below(30);
    let mut words = match index % 4 {
        0 | 1 => rising_words(silences(draw, 7, 2, 3_000, few)),
        2 => any_order(draw, few % 8),
        _ => {
            let count = draw.one(&[998, 999, 1_000, 1_001]);
            (0..count).flat_map(|start| [9, 9, start, 65_535 - start]).collect()
        }
    };
    if draw.chance(6) {
        words.extend(vec![1; draw.between(1, 3)]);
    }
    if draw.chance(6) && words.len() > 1 {
        let place = draw.below(words.len());
        words[place] = draw.one(&[0, 65_535, 65_536, u32::MAX]);
    }
    let needed = FIELD * (words.len() / SILENCE_WORDS);
    let room = draw.one(&[needed, needed, needed + 1, needed + 30, needed.saturating_sub(1), needed / 2, 0]);
    Call::Pack { words, room }
}

/// Rising words over the whole range of each number.
pub fn round_trip(_: u64, draw: &mut Draw) -> Vec<u32> {
    let count = draw.one(&[0, 1, 2, 10, 100]);
    let record = |draw: &mut Draw| {
        let (cell, start) = (draw.number() as u32 >> draw.below(32), draw.number() as u32);
        let [ring_number, ceiling] = [draw.below(65_536), draw.below(65_536) >> draw.below(16)].map(|any| any as u16);
        Silence { cell, ring_number, start, ceiling: Some(ceiling) }
    };
    rising_words((0..count).map(|_| record(draw)).collect())
}
