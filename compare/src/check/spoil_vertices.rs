//! Ways to spoil what an accepted import returned and wrote: what a library that takes ticket 7 wrongly would return and
//! write. A way has something to spoil only where that differs from what is right.

use super::bonds::edges;
use super::chains::at_start_0;
use super::compared::{Compared, DISTANCE};
use super::spoil::{byte_before_area, byte_behind_area, set_word_of, way, Way};
use super::two_way;
use crate::cases::chains::{Chain, Drawn};
use crate::cases::{Bond, Bound, Call};
use crate::second::meaning::FINDING_WORDS;
use crate::second::reversed::{reversed_code, CLASSES, OCTANTS};
use crate::second::vertices::{bit_length_less_one, class, code, octant, steps, Pair, RAYS};
use outlines::raw::Answer;

pub static OF_VERTICES: &[Way] = &[
    way("vertices: one octant on", |call, spoilt| by_octant(call, spoilt, |step| octant(step) + 1)),
    way("vertices: octants anticlockwise", |call, spoilt| by_octant(call, spoilt, |step| octant(mirrored(step)))),
    way("vertices: octants from east on", |call, spoilt| by_octant(call, spoilt, |step| octant(step) + 6)),
    way("vertices: octants of the opposite step", |call, spoilt| by_octant(call, spoilt, |step| octant(step) + 4)),
    way("vertices: quadrants", |call, spoilt| by_octant(call, spoilt, |step| octant(step) / 2 * 2)),
    way("vertices: a ray counted to the octant before it", |call, spoilt| before_ray(call, spoilt, |_| true)),
    way("vertices: an axis counted to the octant before it", |call, spoilt| {
        before_ray(call, spoilt, |ray| ray % 2 == 0)
    }),
    way("vertices: a diagonal counted to the octant before", |call, spoilt| {
        before_ray(call, spoilt, |ray| ray % 2 == 1)
    }),
    way("vertices: north counted to octant 7", |call, spoilt| before_ray(call, spoilt, |ray| ray == 0)),
    way("vertices: east before north", |call, spoilt| {
        by_step(call, spoilt, |step| Pair { north: step.east, east: step.north })
    }),
    way("vertices: signs lost", |call, spoilt| {
        by_octant(call, spoilt, |step| octant(Pair { north: step.north.abs(), east: step.east.abs() }))
    }),
    way("vertices: steps wrapped to 32 bits", |call, spoilt| {
        by_step(call, spoilt, |step| each(step, |number| i128::from(number as i32)))
    }),
    way("vertices: steps held within 32 bits", |call, spoilt| {
        by_step(call, spoilt, |step| each(step, |number| number.clamp(i32::MIN.into(), i32::MAX.into())))
    }),
    way("vertices: steps halved", |call, spoilt| by_step(call, spoilt, |step| each(step, halved))),
    way("vertices: class 31 kept", |call, spoilt| by_class(call, spoilt, |step| bit_length_less_one(step.larger()))),
    way("vertices: class 31 taken as 0", |call, spoilt| {
        by_class(call, spoilt, |step| bit_length_less_one(step.larger()) % CLASSES)
    }),
    way("vertices: class 30 taken as 29", |call, spoilt| by_class(call, spoilt, |step| class(step).min(CLASSES - 2))),
    way("vertices: the bit length as the class", |call, spoilt| {
        by_class(call, spoilt, |step| (class(step) + 1).min(CLASSES - 1))
    }),
    way("vertices: a class too low", |call, spoilt| by_class(call, spoilt, |step| class(step).saturating_sub(1))),
    way("vertices: the class rounded up", |call, spoilt| {
        by_class(call, spoilt, |step| class(Pair { north: 2 * step.larger() - 1, east: 0 }))
    }),
    way("vertices: the class of the smaller", |call, spoilt| {
        by_class(call, spoilt, |step| bit_length_less_one(step.north.abs().min(step.east.abs())).min(CLASSES - 1))
    }),
    way("vertices: the class of the step north", |call, spoilt| {
        by_class(call, spoilt, |step| class(Pair { east: 0, ..step }))
    }),
    way("vertices: the class of the sum", |call, spoilt| {
        by_class(call, spoilt, |step| class(Pair { north: step.north.abs() + step.east.abs(), east: 0 }))
    }),
    way("vertices: the class of the straight length", |call, spoilt| by_class(call, spoilt, of_straight_length)),
    way("vertices: the class of the greater with its sign", |call, spoilt| {
        by_class(call, spoilt, |step| bit_length_less_one(step.north.max(step.east)).min(CLASSES - 1))
    }),
    way("vertices: class and octant exchanged", |call, spoilt| {
        changed(call, spoilt, |edges| edges.iter().map(|edge| edge % OCTANTS * CLASSES + edge / OCTANTS).collect())
    }),
    way("vertices: the closing edge missing", |call, spoilt| {
        changed(call, spoilt, |edges| edges[..edges.len() - 1].to_vec())
    }),
    way("vertices: the closing edge first", |call, spoilt| {
        changed(call, spoilt, |edges| [&edges[edges.len() - 1..], &edges[..edges.len() - 1]].concat())
    }),
    way("vertices: the closing edge from the first vertex", |call, spoilt| {
        changed(call, spoilt, |edges| [&edges[..edges.len() - 1], &[reversed_code(edges[edges.len() - 1])]].concat())
    }),
    way("vertices: edges in opposite order", |call, spoilt| {
        changed(call, spoilt, |edges| edges.iter().rev().copied().collect())
    }),
    way("vertices: equal edges written once", |call, spoilt| {
        changed(call, spoilt, |edges| {
            let mut once = edges.to_vec();
            once.dedup();
            once
        })
    }),
    way("vertices: the last edge not written", last_not_written),
    way("vertices: found counts numbers", |call, spoilt| counted(call, spoilt, |answer| answer.found *= 2)),
    way("vertices: found not returned", |call, spoilt| counted(call, spoilt, |answer| answer.found = 0)),
    way("vertices: hidden returned", |call, spoilt| counted(call, spoilt, |answer| answer.hidden = 1)),
    way("vertices: looks returned", |call, spoilt| counted(call, spoilt, |answer| answer.looks = answer.found)),
    way("vertices: a place in an accepted answer", |call, spoilt| counted(call, spoilt, |answer| answer.place = 1)),
    way("vertices: a byte written behind the edges", byte_behind_edges),
    way("vertices: the rest of the area set to 0", rest_zeroed),
    way("vertices: a byte written behind the lent area", |call, spoilt| {
        is_import(call) && byte_behind_area(call, spoilt)
    }),
    way("vertices: a byte written before the lent area", |call, spoilt| {
        is_import(call) && byte_before_area(call, spoilt)
    }),
    way("vertices: a number written to", |call, spoilt| {
        spoilt.given.inputs_kept &= !is_import(call);
        is_import(call)
    }),
];

fn is_import(call: &Call) -> bool {
    matches!(call, Call::Import { .. })
}

/// The steps of an import that is accepted.
fn accepted(call: &Call, spoilt: &Compared) -> Option<Vec<Pair>> {
    let Call::Import { numbers, .. } = call else { return None };
    (spoilt.given.answer.refusal == 0).then(|| steps(numbers))
}

/// Puts an accepted answer with these edges in the place of the library's, as many of them as there is room for; returns
/// whether it is another.
pub(super) fn put(call: &Call, spoilt: &mut Compared, edges: &[u8]) -> bool {
    let Call::Import { room, .. } = call else { return false };
    let right = spoilt.given.clone();
    spoilt.given.answer = Answer { found: edges.len() as u64, ..Answer::default() };
    spoilt.given.lent = spoilt.before.clone();
    spoilt.given.lent.words.write(&edges[..edges.len().min(*room)]);
    spoilt.given != right
}

/// Every step coded by another rule.
fn by_code(call: &Call, spoilt: &mut Compared, rule: impl Fn(Pair) -> u8) -> bool {
    let Some(steps) = accepted(call, spoilt) else { return false };
    let edges: Vec<u8> = steps.into_iter().map(rule).collect();
    put(call, spoilt, &edges)
}

fn by_octant(call: &Call, spoilt: &mut Compared, rule: fn(Pair) -> u8) -> bool {
    by_code(call, spoilt, |step| OCTANTS * class(step) + rule(step) % OCTANTS)
}

fn by_class(call: &Call, spoilt: &mut Compared, rule: fn(Pair) -> u8) -> bool {
    by_code(call, spoilt, |step| OCTANTS * rule(step) + octant(step))
}

/// Another step in the place of each.
fn by_step(call: &Call, spoilt: &mut Compared, other: fn(Pair) -> Pair) -> bool {
    by_code(call, spoilt, |step| code(other(step)))
}

fn each(step: Pair, number: fn(i128) -> i128) -> Pair {
    Pair { north: number(step.north), east: number(step.east) }
}

/// Away from 0, so that no step is lost.
fn halved(number: i128) -> i128 {
    (number + number.signum()) / 2
}

fn mirrored(step: Pair) -> Pair {
    Pair { east: -step.east, ..step }
}

/// A step on the first ray of an octant, if it is one of these rays, in the octant before.
fn before_ray(call: &Call, spoilt: &mut Compared, which: fn(u8) -> bool) -> bool {
    by_code(call, spoilt, |step| {
        let octant = octant(step);
        let on_ray = RAYS[usize::from(octant)].side(step) == 0 && which(octant);
        OCTANTS * class(step) + (octant + if on_ray { OCTANTS - 1 } else { 0 }) % OCTANTS
    })
}

/// The class of the root of the sum of squares.
fn of_straight_length(step: Pair) -> u8 {
    let square = step.north * step.north + step.east * step.east;
    (bit_length_less_one(square) / 2).min(CLASSES - 1)
}

/// The edges changed as a whole.
fn changed(call: &Call, spoilt: &mut Compared, change: fn(&[u8]) -> Vec<u8>) -> bool {
    let right = edges(&spoilt.expected).to_vec();
    accepted(call, spoilt).is_some() && put(call, spoilt, &change(&right))
}

/// The answer with its counts changed.
fn counted(call: &Call, spoilt: &mut Compared, change: fn(&mut Answer)) -> bool {
    let due = accepted(call, spoilt).is_some();
    if due {
        change(&mut spoilt.given.answer);
    }
    due
}

fn last_not_written(call: &Call, spoilt: &mut Compared) -> bool {
    let right = edges(&spoilt.expected).to_vec();
    accepted(call, spoilt).is_some() && {
        put(call, spoilt, &right[..right.len() - 1]);
        spoilt.given.answer = spoilt.expected.answer;
        spoilt.given != spoilt.expected
    }
}

fn byte_behind_edges(call: &Call, spoilt: &mut Compared) -> bool {
    let behind = accepted(call, spoilt).map(|steps| spoilt.given.lent.words.front + steps.len());
    behind.and_then(|place| spoilt.given.lent.words.bytes.get_mut(place)).map(|byte| *byte ^= 1).is_some()
}

fn rest_zeroed(call: &Call, spoilt: &mut Compared) -> bool {
    let Call::Import { room, .. } = call else { return false };
    let Some(steps) = accepted(call, spoilt).filter(|steps| steps.len() < *room) else { return false };
    let area = &mut spoilt.given.lent.words;
    area.bytes[area.front + steps.len()..area.front + room].fill(0);
    true
}

/// Ways to spoil two imports in the library and in the second program alike, which only their bond shows.
pub static OF_BONDS: &[Way<Bound, [Compared; 2]>] = &[
    way("vertices: moved, an edge wrong in both programs", |bound, spoilt| {
        wrong_in_both(bound, spoilt, |bond| bond == Bond::Same)
    }),
    way("vertices: another first, wrong in both programs", |bound, spoilt| {
        wrong_in_both(bound, spoilt, |bond| matches!(bond, Bond::From(_)))
    }),
    way("vertices: opposite, wrong in both programs", |bound, spoilt| {
        wrong_in_both(bound, spoilt, |bond| bond == Bond::Opposite)
    }),
    way("vertices: turned, wrong in both programs", |bound, spoilt| {
        wrong_in_both(bound, spoilt, |bond| bond == Bond::Quarter)
    }),
    way("vertices: doubled, wrong in both programs", |bound, spoilt| {
        wrong_in_both(bound, spoilt, |bond| bond == Bond::Doubled)
    }),
    way("vertices: anticlockwise in both programs", |bound, spoilt| {
        ruled_in_both(bound, spoilt, Bond::Quarter, |step| OCTANTS * class(step) + octant(mirrored(step)))
    }),
    way("vertices: class 31 kept in both programs", |bound, spoilt| {
        ruled_in_both(bound, spoilt, Bond::Doubled, |step| OCTANTS * bit_length_less_one(step.larger()) + octant(step))
    }),
];

/// Puts these edges into the answers of both programs.
fn put_in_both(call: &Call, spoilt: &mut Compared, edges: &[u8]) -> bool {
    let other = put(call, spoilt, edges);
    spoilt.expected = spoilt.given.clone();
    other
}

/// The last edge of the second import one octant on.
fn wrong_in_both((calls, bond): &Bound, spoilt: &mut [Compared; 2], which: fn(Bond) -> bool) -> bool {
    let mut other = edges(&spoilt[1].expected).to_vec();
    let Some(last) = other.last_mut().filter(|_| which(*bond) && is_import(&calls[1])) else { return false };
    *last = *last / OCTANTS * OCTANTS + (*last + 1) % OCTANTS;
    put_in_both(&calls[1], &mut spoilt[1], &other)
}

/// Both imports coded by another rule.
fn ruled_in_both((calls, bond): &Bound, spoilt: &mut [Compared; 2], due: Bond, rule: fn(Pair) -> u8) -> bool {
    let mut other = false;
    for (call, spoilt) in calls.iter().zip(spoilt).filter(|_| *bond == due) {
        let edges: Vec<u8> = accepted(call, spoilt).unwrap_or_default().into_iter().map(rule).collect();
        other |= put_in_both(call, spoilt, &edges);
    }
    other
}

/// Ways to spoil the scan at the end of a chain in both programs alike.
pub static OF_CHAINS: &[Way<Chain, two_way::Compared>] = &[
    way("vertices: a copy moved away in both programs", |chain, spoilt| first_word(chain, spoilt, 0)),
    way("vertices: a copy's distance 3 in both programs", |chain, spoilt| first_word(chain, spoilt, DISTANCE)),
];

/// Changes a word of the finding at start 0, in the pass that must have it.
fn first_word(chain: &Chain, spoilt: &mut two_way::Compared, which: usize) -> bool {
    let [forward, _] = at_start_0(spoilt);
    let found = spoilt.expected.answer.forward_found as usize;
    let place = match chain.drawn {
        Drawn::Other => return false,
        Drawn::Opposite => FINDING_WORDS * found,
        Drawn::Alike | Drawn::Edited if forward.is_some() => 0,
        Drawn::Alike | Drawn::Edited => return false,
    };
    [&mut spoilt.given, &mut spoilt.expected]
        .into_iter()
        .all(|left| set_word_of(&mut left.lent.words, place + which, 3))
}
