//! Round trips: the library's packer and unpacker against each other.

use crate::second::book::{self, Silence, FIELD, SILENCE_WORDS};
use crate::second::refusals::MOST_WORDS_TO_PACK;
use outlines::{Counts, Refusal, Refused};

/// What comes back of a good book that is unpacked and packed. "For books of at most 1,000 records the round trip is then of
/// values, and of bytes where tag 21 is absent" (ticket 4).
#[derive(Clone, Copy, PartialEq, Eq)]
pub enum Trip {
    Bytes,
    Values,
    /// The words of more than 1,000 records are refused by 8.
    Nothing,
}

impl Trip {
    fn of(silences: &[Silence]) -> Trip {
        if SILENCE_WORDS * silences.len() > MOST_WORDS_TO_PACK {
            Trip::Nothing
        } else if silences.iter().all(|silence| silence.ceiling.is_some()) {
            Trip::Bytes
        } else {
            Trip::Values
        }
    }
}

type Answered = Result<Counts, Refused>;

fn accepted(records: usize) -> Answered {
    Ok(Counts { found: records as u64, hidden: 0, looks: 0 })
}

/// Words that are packed and unpacked.
pub fn of_words(words: &[u32]) -> Option<String> {
    let records = words.len() / SILENCE_WORDS;
    let (mut book, mut back) = (vec![0; FIELD * records], vec![0; words.len()]);
    let packed = outlines::pack(words, &mut book);
    let unpacked = outlines::unpack(&book, &mut back);
    let whole = [packed, unpacked] == [accepted(records); 2] && back == words;
    (!whole).then(|| format!("packed {packed:?}, unpacked {unpacked:?}, the words came back: {}", back == words))
}

/// A good book that is unpacked, packed and unpacked.
pub fn of_book(given: &[u8]) -> (Trip, Option<String>) {
    let silences = book::read(given).expect("a good book");
    let (records, trip) = (silences.len(), Trip::of(&silences));
    let (mut words, mut book) = (vec![0; SILENCE_WORDS * records], vec![0; FIELD * records]);
    let unpacked = outlines::unpack(given, &mut words);
    let packed = outlines::pack(&words, &mut book);
    let difference = match trip {
        Trip::Nothing => {
            let refused = packed == Err(Refused { refusal: Refusal::WordsToPack, place: 0 });
            let kept = book.iter().all(|&byte| byte == 0);
            (!refused || !kept).then(|| format!("packed {packed:?}, the lent bytes kept: {kept}"))
        }
        _ if trip == Trip::Bytes && book != given => Some("other bytes came back".to_string()),
        _ => values_back(packed, &book, &words),
    };
    let whole = unpacked == accepted(records);
    (trip, difference.or_else(|| (!whole).then(|| format!("unpacked {unpacked:?}"))))
}

/// What the packed book unpacks to, against the words that it was packed from.
fn values_back(packed: Answered, book: &[u8], words: &[u32]) -> Option<String> {
    let mut back = vec![0; words.len()];
    let unpacked = outlines::unpack(book, &mut back);
    let whole = [packed, unpacked] == [accepted(words.len() / SILENCE_WORDS); 2] && back == words;
    (!whole).then(|| format!("packed {packed:?}, unpacked {unpacked:?}, the values came back: {}", back == words))
}
