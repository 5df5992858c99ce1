//! Ways to spoil the answer of a closed call, or what it leaves in the join area: what a library that takes ticket 3 wrongly
//! would return and write. A way has something to spoil only where that differs from what is right.

use super::compared::{closed, Compared, Left, Side};
use super::misread::{AtMark, Misread};
use super::spoil::{way, Way};
use super::spoil_marks::put;
use crate::cases::call::{join_bytes, room, Call, Search};
use crate::second::book;
use crate::second::line::join;
use crate::second::meaning::{FINDING_WORDS, MARK};
use crate::second::refusals::LONGEST_LINE;
use crate::second::rules::{quick_scan, Searched};
use outlines::raw::Answer;
use outlines::Refusal;
use std::borrow::Cow;

pub static OF_CLOSED: &[Way] = &[
    way("closed: the seam's last window lost", last_window_lost),
    way("closed: the windows of the open line", open_windows),
    way("closed: crossing windows taken from the line", not_wrapped),
    way("closed: a mark over the seam not seen", mark_not_seen),
    way("closed: silences across the seam not looked up", silences_lost),
    way("closed: join area filled with m edges", |call, spoilt| joined(call, spoilt, of_m_edges)),
    way("closed: first and last edges exchanged", |call, spoilt| joined(call, spoilt, exchanged)),
    way("closed: join area one byte short", |call, spoilt| joined(call, spoilt, one_short)),
    way("closed: join area not written", |call, spoilt| joined(call, spoilt, |_| Vec::new())),
    way("closed: join area written for n < m", written_without_start),
    way("closed: a byte behind 2·m − 2 touched", byte_behind),
    way("closed: a byte before the join area touched", byte_before),
    way("closed: join area written before the book is read", |call, spoilt| {
        written_on_refusal(call, spoilt, &[Refusal::BookLength, Refusal::Field, Refusal::Order])
    }),
    way("closed: join area written before the room is asked", |call, spoilt| {
        written_on_refusal(call, spoilt, &[Refusal::RoomForFindings])
    }),
    way("closed: room 4·(n − m + 1)", room_of_open),
    way("closed: room 4·(n + m − 1)", room_of_longer),
    way("closed: a join area one byte short accepted", short_join_accepted),
    way("closed: a join byte required for m = 1", |call, spoilt| {
        let wrong = |search: &Search, bytes| search.ring.len() == 1 && bytes == 0 && !search.line.is_empty();
        refused_by_ten(call, spoilt, wrong)
    }),
    way("closed: 2·m join bytes required", |call, spoilt| {
        let wrong = |search: &Search, bytes| search.line.len() >= search.ring.len() && bytes < 2 * search.ring.len();
        refused_by_ten(call, spoilt, wrong)
    }),
    way("closed: 10 given for n < m", |call, spoilt| {
        let short = |search: &Search, bytes| bytes < join_bytes(search.ring.len());
        refused_by_ten(call, spoilt, |search, bytes| search.line.len() < search.ring.len() && short(search, bytes))
    }),
    way("closed: 10 before 4", ten_before_four),
    way("closed: the book's refusals before 10", book_before_ten),
    way("closed: looks wrong in both programs", looks_wrong_in_both),
    way("closed: a word wrong in both programs", word_wrong_in_both),
];

/// The one that needs the longest lines.
pub static OF_LONGEST: &[Way] = &[way("closed: refusal 3 by n + m − 1", three_by_longer)];

/// The search of an accepted closed call.
fn accepted<'a>(call: &'a Call, spoilt: &Compared) -> Option<&'a Search> {
    closed(call).filter(|_| spoilt.given.answer.refusal == 0)
}

/// The search of a closed call that is refused by this number.
fn refused_by<'a>(call: &'a Call, spoilt: &Compared, refusal: Refusal) -> Option<&'a Search> {
    closed(call).filter(|_| spoilt.given.answer.refusal == refusal.number())
}

/// Survey and scan with other windows.
fn search_again(call: &Call, misread: &Misread) -> Option<Searched> {
    match call {
        Call::Survey(_) => Some(misread.survey(false)),
        Call::Scan(_) => Some(misread.scan(AtMark::Leave)),
        _ => None,
    }
}

fn with_windows(call: &Call, spoilt: &mut Compared, misread: &Misread) -> bool {
    search_again(call, misread).is_some_and(|searched| put(spoilt, searched))
}

fn fewer_windows(call: &Call, spoilt: &mut Compared, fewer: impl Fn(&Search) -> usize) -> bool {
    let Some(search) = accepted(call, spoilt) else { return false };
    let (m, line) = (search.ring.len(), search.line());
    let windows = line.windows(m).saturating_sub(fewer(search));
    with_windows(call, spoilt, &Misread::with(search, windows, move |start| line.window(start, m)))
}

fn last_window_lost(call: &Call, spoilt: &mut Compared) -> bool {
    fewer_windows(call, spoilt, |_| 1)
}

fn open_windows(call: &Call, spoilt: &mut Compared) -> bool {
    fewer_windows(call, spoilt, |search| search.ring.len() - 1)
}

/// A window that would pass the line's end is its last m edges.
fn not_wrapped(call: &Call, spoilt: &mut Compared) -> bool {
    let Some(search) = accepted(call, spoilt) else { return false };
    let (m, n, line) = (search.ring.len(), search.line.len(), search.line());
    let window = move |start: usize| line.window(start.min(n - m), m);
    with_windows(call, spoilt, &Misread::with(search, line.windows(m), window))
}

/// A mark behind the seam is an edge like any other, of a code that the ring does not have.
fn mark_not_seen(call: &Call, spoilt: &mut Compared) -> bool {
    let Some(search) = accepted(call, spoilt) else { return false };
    let Some(other) = (0..MARK).find(|code| !search.ring.contains(code)) else { return false };
    let (m, n, line) = (search.ring.len(), search.line.len(), search.line());
    let window = move |start: usize| -> Cow<[u8]> {
        let seen = |q: usize, edge: u8| if start + q >= n && edge == MARK { other } else { edge };
        line.window(start, m).iter().enumerate().map(|(q, &edge)| seen(q, edge)).collect()
    };
    with_windows(call, spoilt, &Misread::with(search, line.windows(m), window))
}

fn silences_lost(call: &Call, spoilt: &mut Compared) -> bool {
    spoilt.given.answer.hidden -= spoilt.seam.hidden;
    matches!(call, Call::Report { .. }) && spoilt.seam.hidden > 0
}

/// The area itself, without its canaries.
fn area<'a>(side: &'a mut Side, search: &Search) -> &'a mut [u8] {
    let length = search.join.as_ref().map_or(0, Vec::len);
    &mut side.bytes[side.front..side.front + length]
}

/// Puts other bytes into the join area, as many as it has room for, in the place of what the library wrote; returns whether
/// they are others.
fn put_join(spoilt: &mut Compared, search: &Search, bytes: &[u8]) -> bool {
    let right = spoilt.given.clone();
    spoilt.given.lent.join = spoilt.before.join.clone();
    area(&mut spoilt.given.lent.join, search).iter_mut().zip(bytes).for_each(|(byte, &other)| *byte = other);
    spoilt.given != right
}

/// What an accepted call leaves in the join area for n ≥ m, made wrongly.
fn joined(call: &Call, spoilt: &mut Compared, bytes: fn(&Search) -> Vec<u8>) -> bool {
    let Some(search) = accepted(call, spoilt) else { return false };
    search.line.len() >= search.ring.len() && put_join(spoilt, search, &bytes(search))
}

fn of_m_edges(search: &Search) -> Vec<u8> {
    let (m, line) = (search.ring.len(), &search.line);
    [&line[line.len() - m..], &line[..m]].concat()
}

fn exchanged(search: &Search) -> Vec<u8> {
    let (m, line) = (search.ring.len(), &search.line);
    [&line[..m - 1], &line[line.len() - (m - 1)..]].concat()
}

fn one_short(search: &Search) -> Vec<u8> {
    let mut bytes = join(&search.line, search.ring.len());
    bytes.pop();
    bytes
}

fn written_without_start(call: &Call, spoilt: &mut Compared) -> bool {
    let Some(search) = accepted(call, spoilt) else { return false };
    search.line.len() < search.ring.len() && put_join(spoilt, search, &search.line)
}

/// The first byte of the area that keeps its value, or the canary behind the area.
fn byte_behind(call: &Call, spoilt: &mut Compared) -> bool {
    let Some(search) = accepted(call, spoilt) else { return false };
    let join = &mut spoilt.given.lent.join;
    let at = join.front + join_bytes(search.ring.len());
    search.line.len() >= search.ring.len() && join.bytes.get_mut(at).map(|byte| *byte ^= 1).is_some()
}

fn byte_before(call: &Call, spoilt: &mut Compared) -> bool {
    let join = &mut spoilt.given.lent.join;
    closed(call).is_some() && join.front.checked_sub(1).map(|place| join.bytes[place] ^= 0x80).is_some()
}

fn written_on_refusal(call: &Call, spoilt: &mut Compared, refusals: &[Refusal]) -> bool {
    let given = spoilt.given.answer.refusal;
    let Some(search) = closed(call).filter(|_| refusals.iter().any(|refusal| refusal.number() == given)) else {
        return false;
    };
    put_join(spoilt, search, &join(&search.line, search.ring.len()))
}

/// Makes a refused call an accepted one, with what the scan finds as far as there is room for it.
fn accept(spoilt: &mut Compared, search: &Search) -> bool {
    let mut searched = quick_scan(&search.ring, search.line(), search.allowance);
    searched.findings.truncate(search.room / FINDING_WORDS);
    put(spoilt, searched)
}

fn room_of_open(call: &Call, spoilt: &mut Compared) -> bool {
    let search = refused_by(call, spoilt, Refusal::RoomForFindings);
    let Some(search) = search.filter(|search| search.room >= room(search.ring.len(), search.line.len())) else {
        return false;
    };
    accept(spoilt, search)
}

fn refuse(spoilt: &mut Compared, refusal: Refusal) -> bool {
    spoilt.given.answer = Answer { refusal: refusal.number(), ..Answer::default() };
    spoilt.given.lent = spoilt.before.clone();
    true
}

fn room_of_longer(call: &Call, spoilt: &mut Compared) -> bool {
    let search = accepted(call, spoilt).filter(|search| search.line.len() >= search.ring.len());
    let short = search.is_some_and(|search| search.room < FINDING_WORDS * search.whole());
    short && refuse(spoilt, Refusal::RoomForFindings)
}

fn join_length(search: &Search) -> usize {
    search.join.as_ref().map_or(0, Vec::len)
}

fn short_join_accepted(call: &Call, spoilt: &mut Compared) -> bool {
    let search = refused_by(call, spoilt, Refusal::RoomForOutput);
    let Some(search) = search.filter(|search| join_length(search) + 1 == join_bytes(search.ring.len())) else {
        return false;
    };
    accept(spoilt, search)
}

/// An accepted call refused by 10 where a wrong test of the join area's length says so.
fn refused_by_ten(call: &Call, spoilt: &mut Compared, wrong: impl Fn(&Search, usize) -> bool) -> bool {
    let due = accepted(call, spoilt).is_some_and(|search| wrong(search, join_length(search)));
    due && refuse(spoilt, Refusal::RoomForOutput)
}

fn ten_before_four(call: &Call, spoilt: &mut Compared) -> bool {
    let search = refused_by(call, spoilt, Refusal::RoomForFindings);
    let short = search.is_some_and(|search| join_length(search) < join_bytes(search.ring.len()));
    short && refuse(spoilt, Refusal::RoomForOutput)
}

fn book_before_ten(call: &Call, spoilt: &mut Compared) -> bool {
    let Call::Report { book, .. } = call else { return false };
    let Some(refused) = refused_by(call, spoilt, Refusal::RoomForOutput).and(book::read(book).err()) else {
        return false;
    };
    spoilt.given.answer.refusal = refused.number;
    spoilt.given.answer.place = refused.place as u32;
    true
}

fn three_by_longer(call: &Call, spoilt: &mut Compared) -> bool {
    let longer = accepted(call, spoilt).is_some_and(|search| search.whole() > LONGEST_LINE);
    longer && refuse(spoilt, Refusal::LineLength)
}

/// The second program has the library's fault, and only the open call on the longer line shows it.
fn wrong_in_both(spoilt: &mut Compared, change: fn(&mut Left)) -> bool {
    if spoilt.opened.is_some() {
        [&mut spoilt.given, &mut spoilt.expected].into_iter().for_each(change);
    }
    spoilt.opened.is_some()
}

fn looks_wrong_in_both(_: &Call, spoilt: &mut Compared) -> bool {
    spoilt.given.answer.looks > 0 && wrong_in_both(spoilt, |left| left.answer.looks -= 1)
}

fn word_wrong_in_both(call: &Call, spoilt: &mut Compared) -> bool {
    let change = |left: &mut Left| left.lent.words.bytes[left.lent.words.front] ^= 1;
    spoilt.given.shown(call) > 0 && wrong_in_both(spoilt, change)
}
