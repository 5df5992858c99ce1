//! Ways to spoil an answer by misreading a book: what a library that takes ticket 4 wrongly would return and write. A way has
//! something to spoil only where that differs from the right answer.

use super::compared::Compared;
use super::spoil::{set_word, way, Way};
use crate::cases::call::Call;
use crate::second::book::{self, Silence, FIELD, SILENCE_WORDS};
use crate::second::meaning::Finding;
use crate::second::rules::quick_scan;
use outlines::raw::Answer;
use outlines::Refusal;

pub static OF_BOOKS: &[Way] = &[
    way("a ceiling ignored", |call, spoilt| hidden_by(call, spoilt, |_, _| true)),
    way("a ceiling one too high", |call, spoilt| {
        hidden_by(call, spoilt, |silence, distance| distance <= usize::from(silence.ceiling()) + 1)
    }),
    way("a ceiling one too low", |call, spoilt| {
        hidden_by(call, spoilt, |silence, distance| distance < usize::from(silence.ceiling()))
    }),
    way("a ceiling's low byte alone", |call, spoilt| {
        hidden_by(call, spoilt, |silence, distance| distance <= usize::from(silence.ceiling() % 256))
    }),
    way("a ceiling's bytes exchanged", |call, spoilt| {
        hidden_by(call, spoilt, |silence, distance| distance <= usize::from(silence.ceiling().swap_bytes()))
    }),
    way("tag 21 hides at every distance", |call, spoilt| {
        hidden_by(call, spoilt, |silence, distance| silence.ceiling.is_none() || silence.hides(distance))
    }),
    way("tag 21 hides nothing", |call, spoilt| {
        hidden_by(call, spoilt, |silence, distance| silence.ceiling.is_some() && silence.hides(distance))
    }),
    way("tag 21 refused", |call, spoilt| refused_by_tag(call, spoilt, |silence| silence.ceiling.is_none())),
    way("tag 22 refused", |call, spoilt| refused_by_tag(call, spoilt, |silence| silence.ceiling.is_some())),
    way("one address under both tags unpacked", |call, spoilt| {
        unpacked_by(call, spoilt, |silence| (silence.address(), silence.ceiling.map_or(0, |_| 1)))
    }),
    way("one address under two ceilings unpacked", |call, spoilt| {
        unpacked_by(call, spoilt, |silence| (silence.address(), silence.ceiling()))
    }),
    way("one address with two ceilings packed", packed_twice),
    way("tag 21 packed for the ceiling 0", packed_old),
    way("an unpacked ceiling left at 0", ceiling_lost),
];

/// The report with its silences misread: each hides what `hides` says of the findings at its address.
fn hidden_by(call: &Call, spoilt: &mut Compared, hides: fn(&Silence, usize) -> bool) -> bool {
    let Call::Report { cell, ring_number, search, book } = call else { return false };
    let silences = book::read(book).unwrap_or_default();
    if spoilt.given.answer.refusal != 0 || silences.is_empty() {
        return false;
    }
    let is_shown = |finding: &Finding| {
        let address = (*cell, *ring_number, finding.start as u32);
        !silences.iter().any(|silence| silence.address() == address && hides(silence, finding.distance))
    };
    let findings = quick_scan(&search.ring, search.line(), search.allowance).findings;
    let shown: Vec<Finding> = findings.into_iter().filter(is_shown).collect();
    show(spoilt, &shown)
}

/// Puts these findings in the place of those that the report shows; returns whether they are others.
fn show(spoilt: &mut Compared, shown: &[Finding]) -> bool {
    let right = spoilt.given.clone();
    spoilt.given.answer.hidden = right.answer.found - shown.len() as u64;
    let words: Vec<u32> = shown.iter().flat_map(Finding::words).collect();
    put_words(spoilt, &words);
    spoilt.given != right
}

fn put_words(spoilt: &mut Compared, words: &[u32]) {
    spoilt.given.lent.words = spoilt.before.words.clone();
    for (place, &word) in words.iter().enumerate() {
        assert!(set_word(spoilt, place, word), "room for every word");
    }
}

/// The first record of a tag refused by 6, as if there were no such tag.
fn refused_by_tag(call: &Call, spoilt: &mut Compared, of_tag: fn(&Silence) -> bool) -> bool {
    let (Call::Report { book, .. } | Call::Unpack { book, .. }) = call else { return false };
    let silences = book::read(book).unwrap_or_default();
    let Some(first) = silences.iter().position(of_tag).filter(|_| spoilt.given.answer.refusal == 0) else {
        return false;
    };
    let place = silences[..first].iter().map(|silence| silence.field().len() as u32).sum();
    spoilt.given.answer = Answer { refusal: Refusal::Field.number(), place, ..Answer::default() };
    spoilt.given.lent = spoilt.before.clone();
    true
}

/// The records of these bytes, whatever their order; none if a field is not whole.
fn records_of(mut bytes: &[u8]) -> Vec<Silence> {
    let mut records = Vec::new();
    while !bytes.is_empty() {
        let Some((record, length)) = Silence::first_of(bytes) else { return Vec::new() };
        records.push(record);
        bytes = &bytes[length..];
    }
    records
}

/// A book that is refused by 7 unpacked, if its records rise in another order.
fn unpacked_by<K: Ord>(call: &Call, spoilt: &mut Compared, order: fn(&Silence) -> K) -> bool {
    let Call::Unpack { book, room } = call else { return false };
    let records = records_of(book);
    let rising = records.windows(2).all(|pair| order(&pair[0]) < order(&pair[1]));
    let words: Vec<u32> = records.iter().flat_map(Silence::words).collect();
    let disordered = spoilt.given.answer.refusal == Refusal::Order.number();
    let accepted = disordered && rising && !words.is_empty() && words.len() <= *room;
    if accepted {
        spoilt.given.answer = Answer { found: records.len() as u64, ..Answer::default() };
        put_words(spoilt, &words);
    }
    accepted
}

/// Words that are refused by 7 packed, if their records rise with the ceiling in the order.
fn packed_twice(call: &Call, spoilt: &mut Compared) -> bool {
    let Call::Pack { words, room } = call else { return false };
    let disordered = spoilt.given.answer.refusal == Refusal::Order.number();
    let records: Vec<&[u32]> = words.chunks(SILENCE_WORDS).collect();
    let rising = records.windows(2).all(|pair| pair[0] < pair[1]);
    let accepted = disordered && rising && FIELD * records.len() <= *room;
    if accepted {
        spoilt.given.answer = Answer { found: records.len() as u64, ..Answer::default() };
    }
    accepted
}

fn packed_old(call: &Call, spoilt: &mut Compared) -> bool {
    let Call::Pack { words, .. } = call else { return false };
    let records = book::to_pack(words).unwrap_or_default();
    if spoilt.given.answer.refusal != 0 || records.iter().all(|record| record.ceiling() > 0) {
        return false;
    }
    let old = |record: &Silence| Silence { ceiling: record.ceiling.filter(|&ceiling| ceiling > 0), ..*record }.field();
    spoilt.given.lent.words = spoilt.before.words.clone();
    spoilt.given.lent.words.write(&records.iter().flat_map(old).collect::<Vec<u8>>());
    true
}

fn ceiling_lost(call: &Call, spoilt: &mut Compared) -> bool {
    let Call::Unpack { book, .. } = call else { return false };
    let records = book::read(book).unwrap_or_default();
    let Some(with) = records.iter().position(|record| record.ceiling() > 0) else { return false };
    spoilt.given.answer.refusal == 0 && set_word(spoilt, SILENCE_WORDS * with + 3, 0)
}
