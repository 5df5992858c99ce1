//! Ways to spoil the refusals of the two-way scan: another order, another place, a code or a room too many or too few.

use super::spoil::way;
use super::spoil_two_way::{put, scanned, TwoWaySpoil};
use super::two_way::Compared;
use crate::cases::call::{room, two_way_room, Search};
use crate::second::meaning::MARK;
use crate::second::refusals::{two_way, LONGEST_LINE};
use crate::second::reversed::NO_EDGE;
use outlines::raw::TwoWay;
use outlines::Refusal;

pub static OF_TWO_WAY_REFUSALS: &[TwoWaySpoil] = &[
    way("two-way: 14 at the last such code", |search, spoilt| {
        at_place(spoilt, search.ring.iter().rposition(|&code| code >= NO_EDGE))
    }),
    way("two-way: 14 at place 0", |_, spoilt| at_place(spoilt, Some(0))),
    way("two-way: 14 at the place counted from 1", |_, spoilt| {
        let place = spoilt.given.answer.place as usize;
        at_place(spoilt, Some(place + 1))
    }),
    way("two-way: 14 with the code as the place", |search, spoilt| {
        let place = search.ring.iter().find(|&&code| code >= NO_EDGE).map(|&code| code.into());
        at_place(spoilt, place)
    }),
    way("two-way: 14 before 12", |search, spoilt| fourteen_before(search, spoilt, Refusal::MarkInRing)),
    way("two-way: 14 before 2", |search, spoilt| fourteen_before(search, spoilt, Refusal::Allowance)),
    way("two-way: 14 before 1", |search, spoilt| fourteen_before(search, spoilt, Refusal::RingLength)),
    way("two-way: 14 after 3", |search, spoilt| {
        given_instead(spoilt, Refusal::LineLength, search.line.len() > LONGEST_LINE)
    }),
    way("two-way: 14 after 4", |search, spoilt| {
        let (m, n) = (search.ring.len(), search.line.len());
        let short = n >= m && n <= LONGEST_LINE && search.room < two_way_room(m, n);
        given_instead(spoilt, Refusal::RoomForFindings, short)
    }),
    way("two-way: 14 from 247 on", |search, spoilt| refused_by_ring(search, spoilt, |code| code >= NO_EDGE - 1)),
    way("two-way: 14 from 249 on", |search, spoilt| not_refused_for(search, spoilt, &[NO_EDGE])),
    way("two-way: 14 at 248 alone", |search, spoilt| not_refused_for(search, spoilt, &[249, 250, 251, 252, 253, 254])),
    way("two-way: 14 not for 254", |search, spoilt| not_refused_for(search, spoilt, &[254])),
    way("two-way: 14 not given", |search, spoilt| {
        not_refused_for(search, spoilt, &[248, 249, 250, 251, 252, 253, 254])
    }),
    way("two-way: 14 not given for n < m", |search, spoilt| {
        search.line.len() < search.ring.len() && not_refused_for(search, spoilt, &[248, 249, 250, 251, 252, 253, 254])
    }),
    way("two-way: 14 for a code of the line", |search, spoilt| {
        let place = search.line.iter().position(|code| (NO_EDGE..MARK).contains(code));
        spoilt.given.answer.refusal == 0 && place.is_some_and(|place| refuse(spoilt, Refusal::CodeInRing, place))
    }),
    way("two-way: 12 with the mark's place", |search, spoilt| {
        let place = search.ring.iter().position(|&code| code == MARK).filter(|&place| place > 0);
        let marked = spoilt.given.answer.refusal == Refusal::MarkInRing.number();
        marked && place.is_some_and(|place| refuse(spoilt, Refusal::MarkInRing, place))
    }),
    way("two-way: 4·(n − m + 1) words required", |search, spoilt| {
        let enough = search.room >= room(search.ring.len(), search.line.len());
        spoilt.given.answer.refusal == Refusal::RoomForFindings.number() && enough && accept(search, spoilt)
    }),
    way("two-way: one word short accepted", |search, spoilt| {
        let short = search.room + 1 == two_way_room(search.ring.len(), search.line.len());
        spoilt.given.answer.refusal == Refusal::RoomForFindings.number() && short && accept(search, spoilt)
    }),
    way("two-way: a word more required", |search, spoilt| {
        let exact = search.room == two_way_room(search.ring.len(), search.line.len());
        spoilt.given.answer.refusal == 0 && exact && refuse(spoilt, Refusal::RoomForFindings, 0)
    }),
    way("two-way: room required for n < m", |search, spoilt| {
        let none = search.line.len() < search.ring.len() && search.room == 0;
        spoilt.given.answer.refusal == 0 && none && refuse(spoilt, Refusal::RoomForFindings, 0)
    }),
    way("two-way: a refusal's number changed", |_, spoilt| on_refusal(spoilt, |answer| answer.refusal += 1)),
    way("two-way: a refusal's place changed", |_, spoilt| on_refusal(spoilt, |answer| answer.place += 1)),
    way("two-way: a refusal with forward found", |_, spoilt| on_refusal(spoilt, |answer| answer.forward_found += 1)),
    way("two-way: a refusal with forward looks", |_, spoilt| on_refusal(spoilt, |answer| answer.forward_looks += 1)),
    way("two-way: a refusal with backward found", |_, spoilt| on_refusal(spoilt, |answer| answer.backward_found += 1)),
    way("two-way: a refusal with backward looks", |_, spoilt| on_refusal(spoilt, |answer| answer.backward_looks += 1)),
    way("two-way: a refusal taken for accepted", |_, spoilt| on_refusal(spoilt, |answer| *answer = TwoWay::default())),
    way("two-way: a refusal that writes", |_, spoilt| {
        let words = &mut spoilt.given.lent.words;
        spoilt.given.answer.refusal != 0 && words.bytes.get_mut(words.front).map(|byte| *byte ^= 0x10).is_some()
    }),
];

/// Puts a refusal in the place of the library's answer; returns whether it is another.
fn refuse(spoilt: &mut Compared, refusal: Refusal, place: usize) -> bool {
    let right = spoilt.given.clone();
    spoilt.given.answer = TwoWay { refusal: refusal.number(), place: place as u32, ..TwoWay::default() };
    spoilt.given.lent = spoilt.before.clone();
    spoilt.given != right
}

fn refused_by_code(spoilt: &Compared) -> bool {
    spoilt.given.answer.refusal == Refusal::CodeInRing.number()
}

/// Refusal 14 with another place.
fn at_place(spoilt: &mut Compared, place: Option<usize>) -> bool {
    refused_by_code(spoilt) && place.is_some_and(|place| refuse(spoilt, Refusal::CodeInRing, place))
}

/// Refusal 14 in the place of one that comes before it. The mark is a code above 247 as well.
fn fourteen_before(search: &Search, spoilt: &mut Compared, other: Refusal) -> bool {
    let first = search.ring.iter().position(|&code| code >= NO_EDGE);
    let due = spoilt.given.answer.refusal == other.number();
    due && first.is_some_and(|first| refuse(spoilt, Refusal::CodeInRing, first))
}

/// A refusal that comes behind 14 in its place.
fn given_instead(spoilt: &mut Compared, other: Refusal, applies: bool) -> bool {
    refused_by_code(spoilt) && applies && refuse(spoilt, other, 0)
}

/// An accepted ring refused for a code that a wrong test finds.
fn refused_by_ring(search: &Search, spoilt: &mut Compared, wrong: fn(u8) -> bool) -> bool {
    let place = search.ring.iter().position(|&code| wrong(code));
    spoilt.given.answer.refusal == 0 && place.is_some_and(|place| refuse(spoilt, Refusal::CodeInRing, place))
}

/// The answer if 14 is not given for these codes: at another place, another refusal, or what both passes find.
fn not_refused_for(search: &Search, spoilt: &mut Compared, codes: &[u8]) -> bool {
    if !refused_by_code(spoilt) {
        return false;
    }
    let let_through = |&code: &u8| if codes.contains(&code) { 0 } else { code };
    let ring: Vec<u8> = search.ring.iter().map(let_through).collect();
    match two_way(&ring, &search.line, search.allowance, search.room) {
        Err(refused) => {
            let refusal = Refusal::numbered(refused.number).expect("a refusal of the table");
            refuse(spoilt, refusal, refused.place)
        }
        Ok(()) => accept(search, spoilt),
    }
}

/// Makes a refused call an accepted one, with what both passes find as far as there is room for it.
fn accept(search: &Search, spoilt: &mut Compared) -> bool {
    let (findings, looks) = scanned(search, &search.line);
    put(spoilt, search.room, &findings, looks)
}

fn on_refusal(spoilt: &mut Compared, change: fn(&mut TwoWay)) -> bool {
    let refused = spoilt.given.answer.refusal != 0;
    if refused {
        change(&mut spoilt.given.answer);
    }
    refused
}
