//! What was compared of books: ceilings, books of both tags, records at one address.

use super::compared::Compared;
use super::trips::Trip;
use crate::cases::call::Call;
use crate::second::book::{self, Silence, SILENCE_WORDS};
use crate::second::refusals::LONGEST_BOOK;
use outlines::Refusal;

/// Sums over the calls that have a book, and over the words to pack.
#[derive(Clone, Copy)]
enum Sum {
    Reached,
    OneAbove,
    ByHighByte,
    OldHidden,
    OldShown,
    BothTags,
    Longest,
    MostRecords,
    TwoTags,
    TwoCeilings,
    WordsTwice,
    Ceiling,
    BytesBack,
    ValuesBack,
    TooMany,
}

/// A name for each sum. A run with every kind of case fails if one of them is 0.
const SUMS: [&str; 15] = [
    "findings hidden at their ceiling",
    "findings shown one above their ceiling",
    "findings hidden by a ceiling's high byte",
    "findings hidden by tag 21",
    "findings shown although tag 21 names them",
    "books of both tags",
    "books of 15,000 bytes",
    "books of 1,153 records",
    "books refused for one address under both tags",
    "books refused for one address under a higher ceiling",
    "words refused for one address with a higher ceiling",
    "words refused for a ceiling alone",
    "round trips of bytes",
    "round trips of values",
    "round trips of more than 1,000 records",
];

/// As many records as a book can have: all of tag 21.
const MOST_RECORDS: usize = 1_153;

#[derive(Default)]
pub struct Books {
    sums: [u64; SUMS.len()],
}

/// The record whose field begins at the place, and the one before it, of a book that is refused by 7 there.
fn neighbours(book: &[u8], place: usize) -> Option<[Silence; 2]> {
    let (mut offset, mut before) = (0, None);
    loop {
        let (record, length) = Silence::first_of(&book[offset..])?;
        if offset == place {
            return before.map(|before| [before, record]);
        }
        (before, offset) = (Some(record), offset + length);
    }
}

/// The later one is at the same address with a ceiling above that of the one before it.
fn raised([before, later]: &[Silence; 2]) -> bool {
    before.address() == later.address() && later.ceiling() > before.ceiling()
}

impl Books {
    fn add(&mut self, sum: Sum, more: u64) {
        self.sums[sum as usize] += more;
    }

    pub fn add_call(&mut self, call: &Call, compared: &Compared) {
        let ceilings = compared.ceilings;
        for (sum, more) in [
            (Sum::Reached, ceilings.reached),
            (Sum::OneAbove, ceilings.one_above),
            (Sum::ByHighByte, ceilings.by_high_byte),
            (Sum::OldHidden, ceilings.old_hidden),
            (Sum::OldShown, ceilings.old_shown),
        ] {
            self.add(sum, more);
        }
        let refusal = Refusal::numbered(compared.given.answer.refusal);
        let place = compared.given.answer.place as usize;
        match (call, refusal) {
            (Call::Report { book, .. } | Call::Unpack { book, .. }, None) => self.add_accepted(book),
            (Call::Report { book, .. } | Call::Unpack { book, .. }, Some(Refusal::Order)) => {
                self.add_disordered(book, place);
            }
            (Call::Pack { words, .. }, Some(refusal)) => self.add_words(words, refusal, place),
            _ => {}
        }
    }

    fn add_accepted(&mut self, bytes: &[u8]) {
        let records = book::read(bytes).unwrap_or_default();
        let old = records.iter().filter(|record| record.ceiling.is_none()).count();
        self.add(Sum::BothTags, u64::from(0 < old && old < records.len()));
        self.add(Sum::Longest, u64::from(bytes.len() == LONGEST_BOOK));
        self.add(Sum::MostRecords, u64::from(records.len() == MOST_RECORDS));
    }

    fn add_disordered(&mut self, book: &[u8], place: usize) {
        let Some(pair) = neighbours(book, place).filter(|[before, later]| before.address() == later.address()) else {
            return;
        };
        self.add(Sum::TwoTags, u64::from(pair[0].ceiling.is_some() != pair[1].ceiling.is_some()));
        self.add(Sum::TwoCeilings, u64::from(pair.iter().all(|record| record.ceiling.is_some()) && raised(&pair)));
    }

    fn add_words(&mut self, words: &[u32], refusal: Refusal, place: usize) {
        let record = |place: usize| &words[SILENCE_WORDS * place..][..SILENCE_WORDS];
        match refusal {
            Refusal::NumberToPack => self.add(Sum::Ceiling, u64::from(record(place)[1] <= 65_535)),
            Refusal::Order => {
                let (before, later) = (record(place - 1), record(place));
                self.add(Sum::WordsTwice, u64::from(before[..3] == later[..3] && before[3] < later[3]));
            }
            _ => {}
        }
    }

    pub fn add_trip(&mut self, trip: Trip) {
        let sum = match trip {
            Trip::Bytes => Sum::BytesBack,
            Trip::Values => Sum::ValuesBack,
            Trip::Nothing => Sum::TooMany,
        };
        self.add(sum, 1);
    }

    pub fn join(&mut self, other: Books) {
        self.sums.iter_mut().zip(other.sums).for_each(|(sum, more)| *sum += more);
    }

    pub fn print(&self) {
        let [reached, above, by_high_byte, old_hidden, old_shown, both, longest, most, ..] = self.sums;
        let [.., two_tags, two_ceilings, words_twice, ceiling, bytes, values, too_many] = self.sums;
        println!("findings hidden at distance = ceiling > 0: {reached}, by the high byte of a ceiling: {by_high_byte}");
        println!("findings shown at distance = ceiling + 1: {above}");
        println!("findings at an address of tag 21: {old_hidden} hidden, {old_shown} shown because of their distance");
        println!("accepted books of both tags: {both}, of 15,000 bytes: {longest}, of 1,153 records: {most}");
        println!(
            "books refused for one address under both tags: {two_tags}, under two rising ceilings: {two_ceilings}"
        );
        println!("words refused for one address with rising ceilings: {words_twice}, for a ceiling alone: {ceiling}");
        println!("books that came back from unpack and pack by their bytes: {bytes}, by their values: {values}; of more than 1,000 records: {too_many}");
    }

    /// Sums that are 0.
    pub fn missing(&self) -> Vec<String> {
        SUMS.iter().zip(self.sums).filter(|(_, sum)| *sum == 0).map(|(name, _)| name.to_string()).collect()
    }
}
