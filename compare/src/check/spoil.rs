//! Ways to spoil a copy of what the library returned and wrote. The comparison must notice each.

use super::compared::{Compared, Left, Side, DISTANCE, ROTATION, TIES};
use crate::cases::call::Call;
use crate::memory::WORD;
use crate::second::book::{self, FIELD, SILENCE_WORDS};
use crate::second::meaning::FINDING_WORDS;

/// A way returns whether there was anything to spoil.
pub struct Way<C = Call, D = Compared> {
    pub name: &'static str,
    pub spoil: fn(&C, &mut D) -> bool,
}

pub(super) const fn way<C, D>(name: &'static str, spoil: fn(&C, &mut D) -> bool) -> Way<C, D> {
    Way { name, spoil }
}

/// Ways to spoil an accepted search.
pub static OF_SEARCHES: &[Way] = &[
    way("a finding dropped", finding_dropped),
    way("a rotation one too high", rotation_too_high),
    way("a distance one too low", distance_too_low),
    way("ties one too few", ties_too_few),
    way("ties of every rotation", ties_of_every_rotation),
    way("ties not written", ties_not_written),
    way("looks one too few", looks_too_few),
    way("found one too many", found_too_many),
    way("hidden counted from records", hidden_from_records),
    way("a hidden finding's words left behind the last shown", residue),
    way("a word written behind the last", word_behind),
    way("a byte written behind the lent area", byte_behind_area),
    way("a byte written before the lent area", byte_before_area),
    way("an input written to", input_written),
];

/// Ways to spoil a refusal and the calls of the book.
pub static OF_REFUSALS_AND_BOOKS: &[Way] = &[
    way("a refusal's number changed", refusal_number),
    way("a refusal's place changed", refusal_place),
    way("a refusal with a count", refusal_count),
    way("a refusal that writes", refusal_writes),
    way("a refusal taken for accepted", refusal_accepted),
    way("a byte of a packed book changed", packed_byte),
    way("a word of an unpacked book changed", |call, spoilt| unpacked_word(call, spoilt, 1)),
    way("a ceiling of an unpacked book changed", |call, spoilt| unpacked_word(call, spoilt, 3)),
];

/// The words of the shown findings.
fn shown_words(call: &Call, spoilt: &Compared) -> usize {
    FINDING_WORDS * spoilt.given.shown(call)
}

pub(super) fn set_word(spoilt: &mut Compared, place: usize, value: u32) -> bool {
    set_word_of(&mut spoilt.given.lent.words, place, value)
}

/// Sets a word of the area, or of the canaries behind it; returns whether there is one.
pub(super) fn set_word_of(words: &mut Side, place: usize, value: u32) -> bool {
    let at = words.front + WORD * place;
    let fits = at + WORD <= words.bytes.len();
    if fits {
        words.bytes[at..at + WORD].copy_from_slice(&value.to_ne_bytes());
    }
    fits
}

fn finding_dropped(call: &Call, spoilt: &mut Compared) -> bool {
    const FINDING: usize = WORD * FINDING_WORDS;
    let words = shown_words(call, spoilt);
    if words == 0 {
        return false;
    }
    let Compared { given, before, .. } = spoilt;
    let (from, to) = (before.words.front, before.words.front + WORD * words);
    given.lent.words.bytes.copy_within(from + FINDING..to, from);
    given.lent.words.bytes[to - FINDING..to].copy_from_slice(&before.words.bytes[to - FINDING..to]);
    given.answer.found -= 1;
    true
}

/// The place of one of the last shown finding's words.
fn of_last(call: &Call, spoilt: &Compared, which: usize) -> Option<usize> {
    let before = shown_words(call, spoilt).checked_sub(FINDING_WORDS);
    before.map(|before| before + which)
}

/// Changes a word of the last shown finding to what `other` makes of it, if it makes anything of it.
fn change_last(call: &Call, spoilt: &mut Compared, which: usize, other: impl Fn(u32) -> Option<u32>) -> bool {
    let Some(place) = of_last(call, spoilt, which) else { return false };
    other(spoilt.given.lent.words.word(place)).is_some_and(|value| set_word(spoilt, place, value))
}

fn rotation_too_high(call: &Call, spoilt: &mut Compared) -> bool {
    change_last(call, spoilt, ROTATION, |rotation| Some(rotation + 1))
}

fn distance_too_low(call: &Call, spoilt: &mut Compared) -> bool {
    change_last(call, spoilt, DISTANCE, |distance| distance.checked_sub(1))
}

fn ties_too_few(call: &Call, spoilt: &mut Compared) -> bool {
    change_last(call, spoilt, TIES, |ties| ties.checked_sub(1))
}

fn ties_of_every_rotation(call: &Call, spoilt: &mut Compared) -> bool {
    let rotations = call.search().map(|search| search.ring.len() as u32);
    change_last(call, spoilt, TIES, |ties| rotations.filter(|&all| all != ties))
}

fn ties_not_written(call: &Call, spoilt: &mut Compared) -> bool {
    let Some(place) = of_last(call, spoilt, TIES) else { return false };
    set_word(spoilt, place, spoilt.before.words.word(place))
}

fn looks_too_few(_: &Call, spoilt: &mut Compared) -> bool {
    let due = spoilt.given.answer.looks > 0;
    spoilt.given.answer.looks -= u64::from(due);
    due
}

fn found_too_many(_: &Call, spoilt: &mut Compared) -> bool {
    spoilt.given.answer.found += 1;
    true
}

fn hidden_from_records(call: &Call, spoilt: &mut Compared) -> bool {
    let Call::Report { book, .. } = call else { return false };
    let records = book::read(book).map_or(0, |records| records.len() as u64);
    let answer = &mut spoilt.given.answer;
    let differs = answer.refusal == 0 && answer.hidden != records;
    if differs {
        answer.hidden = records;
    }
    differs
}

fn residue(call: &Call, spoilt: &mut Compared) -> bool {
    let (hidden, behind) = (spoilt.given.answer.hidden, shown_words(call, spoilt));
    hidden > 0 && set_word(spoilt, behind, 1)
}

fn word_behind(call: &Call, spoilt: &mut Compared) -> bool {
    let behind = shown_words(call, spoilt);
    !matches!(call, Call::Pack { .. } | Call::Import { .. })
        && spoilt.given.answer.refusal == 0
        && set_word(spoilt, behind, 0)
        && spoilt.given.lent != spoilt.expected.lent
}

pub(super) fn byte_behind_area(call: &Call, spoilt: &mut Compared) -> bool {
    let length = match call {
        Call::Survey(search) | Call::Scan(search) | Call::Report { search, .. } => WORD * search.room,
        Call::Pack { room, .. } | Call::Import { room, .. } => *room,
        Call::Unpack { room, .. } => WORD * room,
    };
    let words = &mut spoilt.given.lent.words;
    words.bytes.get_mut(words.front + length).map(|byte| *byte ^= 1).is_some()
}

pub(super) fn byte_before_area(_: &Call, spoilt: &mut Compared) -> bool {
    let words = &mut spoilt.given.lent.words;
    words.front.checked_sub(1).map(|place| words.bytes[place] ^= 0x80).is_some()
}

/// Applies to a refusal only.
fn on_refusal(spoilt: &mut Compared, change: impl FnOnce(&mut Compared)) -> bool {
    let refused = spoilt.given.answer.refusal != 0;
    if refused {
        change(spoilt);
    }
    refused
}

fn refusal_number(_: &Call, spoilt: &mut Compared) -> bool {
    on_refusal(spoilt, |spoilt| spoilt.given.answer.refusal += 1)
}

fn refusal_place(_: &Call, spoilt: &mut Compared) -> bool {
    on_refusal(spoilt, |spoilt| spoilt.given.answer.place += 1)
}

fn refusal_count(_: &Call, spoilt: &mut Compared) -> bool {
    on_refusal(spoilt, |spoilt| spoilt.given.answer.looks += 1)
}

fn refusal_writes(_: &Call, spoilt: &mut Compared) -> bool {
    let Left { answer, lent, .. } = &mut spoilt.given;
    answer.refusal != 0 && lent.words.bytes.get_mut(lent.words.front).map(|byte| *byte ^= 0x10).is_some()
}

fn refusal_accepted(_: &Call, spoilt: &mut Compared) -> bool {
    on_refusal(spoilt, |spoilt| spoilt.given.answer = Default::default())
}

fn packed_byte(call: &Call, spoilt: &mut Compared) -> bool {
    let packed = matches!(call, Call::Pack { .. }) && spoilt.given.answer.found > 0;
    if packed {
        let Left { answer, lent, .. } = &mut spoilt.given;
        lent.words.bytes[lent.words.front + FIELD * answer.found as usize - 1] ^= 1;
    }
    packed
}

/// No ring number and no ceiling is 70,000.
fn unpacked_word(call: &Call, spoilt: &mut Compared, which: usize) -> bool {
    let last = (spoilt.given.answer.found as usize).checked_sub(1).filter(|_| matches!(call, Call::Unpack { .. }));
    last.is_some_and(|last| set_word(spoilt, SILENCE_WORDS * last + which, 70_000))
}

fn input_written(_: &Call, spoilt: &mut Compared) -> bool {
    spoilt.given.inputs_kept = false;
    true
}
