//! Ways to spoil the refusals of the import: another order, another place, a count or a room too many or too few.

use super::compared::Compared;
use super::spoil::{way, Way};
use super::spoil_vertices::put;
use crate::cases::Call;
use crate::second::refusals::{refuse_if, Refused, FEWEST_VERTICES, MOST_VERTICES};
use crate::second::vertices::{code, equal_neighbours, import, steps, vertices, Pair};
use outlines::raw::Answer;
use outlines::Refusal;

pub static OF_VERTICES_REFUSALS: &[Way] = &[
    way("vertices: an odd number left out", |call, spoilt| {
        counted_as(call, spoilt, |numbers| (numbers.len() % 2 == 1).then(|| numbers.len() - 1))
    }),
    way("vertices: no number accepted", |call, spoilt| let_through(call, spoilt, |count| count == 0)),
    way("vertices: 2 vertices accepted", |call, spoilt| let_through(call, spoilt, |count| count == 2)),
    way("vertices: 4,097 vertices accepted", |call, spoilt| let_through(call, spoilt, |count| count == 4_097)),
    way("vertices: no greatest count", |call, spoilt| let_through(call, spoilt, |count| count > MOST_VERTICES)),
    way("vertices: a count of 16 bits", |call, spoilt| {
        counted_as(call, spoilt, |numbers| (numbers.len() > 131_072).then(|| numbers.len() - 131_072))
    }),
    way("vertices: 3 vertices refused", |call, spoilt| count_refused(call, spoilt, |count| count == FEWEST_VERTICES)),
    way("vertices: 4,096 vertices refused", |call, spoilt| count_refused(call, spoilt, |count| count == MOST_VERTICES)),
    way("vertices: 4,096 numbers at most", |call, spoilt| {
        count_refused(call, spoilt, |count| count > MOST_VERTICES / 2)
    }),
    way("vertices: 15 at the count", |call, spoilt| {
        at_place(call, spoilt, Refusal::VertexCount, |numbers, _| numbers.len() / 2)
    }),
    way("vertices: 10 at the count", |call, spoilt| {
        at_place(call, spoilt, Refusal::RoomForOutput, |numbers, _| numbers.len() / 2)
    }),
    way("vertices: 10 at the room", |call, spoilt| {
        let Call::Import { room, .. } = call else { return false };
        given_instead(call, spoilt, Refusal::RoomForOutput, |_| Some((Refusal::RoomForOutput, *room)))
    }),
    way("vertices: 16 before 15", |call, spoilt| {
        given_instead(call, spoilt, Refusal::VertexCount, |numbers| {
            equal_neighbours(numbers).first().map(|&place| (Refusal::EqualNeighbours, place))
        })
    }),
    way("vertices: 10 before 15", |call, spoilt| room_first(call, spoilt, Refusal::VertexCount)),
    way("vertices: 10 before 16", |call, spoilt| room_first(call, spoilt, Refusal::EqualNeighbours)),
    way("vertices: 16 at the place of the number", |call, spoilt| at_equal(call, spoilt, |_, place| 2 * place)),
    way("vertices: 16 at the place from 1", |call, spoilt| at_equal(call, spoilt, |_, place| place + 1)),
    way("vertices: 16 at the pair's second vertex", |call, spoilt| {
        at_equal(call, spoilt, |numbers, place| (place + 1) % (numbers.len() / 2))
    }),
    way("vertices: 16 at the last pair", |call, spoilt| {
        at_equal(call, spoilt, |numbers, place| equal_neighbours(numbers).last().copied().unwrap_or(place))
    }),
    way("vertices: 16 at place 0", |call, spoilt| at_equal(call, spoilt, |_, _| 0)),
    way("vertices: the closing pair at place 0", |call, spoilt| {
        at_equal(call, spoilt, |numbers, place| if is_closing(numbers, place) { 0 } else { place })
    }),
    way("vertices: the closing pair at the count", |call, spoilt| {
        at_equal(call, spoilt, |numbers, place| place + usize::from(is_closing(numbers, place)))
    }),
    way("vertices: the closing pair first", |call, spoilt| {
        at_equal(call, spoilt, |numbers, place| {
            equal_neighbours(numbers).into_iter().find(|&pair| is_closing(numbers, pair)).unwrap_or(place)
        })
    }),
    way("vertices: the closing pair forgotten", |call, spoilt| not_equal(call, spoilt, is_closing)),
    way("vertices: the first pair forgotten", |call, spoilt| not_equal(call, spoilt, |_, place| place == 0)),
    way("vertices: 16 not given", |call, spoilt| not_equal(call, spoilt, |_, _| true)),
    way("vertices: 16 for vertices that are no neighbours", |call, spoilt| {
        equal_refused(call, spoilt, |numbers| {
            let vertices = vertices(numbers);
            (0..vertices.len()).find(|&at| vertices[at + 1..].contains(&vertices[at]))
        })
    }),
    way("vertices: 16 for equal norths", |call, spoilt| equal_step(call, spoilt, |step| step.north == 0)),
    way("vertices: 16 for equal easts", |call, spoilt| equal_step(call, spoilt, |step| step.east == 0)),
    way("vertices: 16 for equal numbers side by side", |call, spoilt| {
        equal_refused(call, spoilt, |numbers| numbers.windows(2).position(|pair| pair[0] == pair[1]))
    }),
    way("vertices: a byte short accepted", |call, spoilt| accepted_with(call, spoilt, |count, room| room + 1 == count)),
    way("vertices: no room accepted", |call, spoilt| accepted_with(call, spoilt, |_, room| room == 0)),
    way("vertices: a byte more required", |call, spoilt| room_refused(call, spoilt, |count, room| room == count)),
    way("vertices: a byte for each number required", |call, spoilt| {
        room_refused(call, spoilt, |count, room| room < 2 * count)
    }),
    way("vertices: edges before equal neighbours written", |call, spoilt| {
        let place = spoilt.given.answer.place as usize;
        written_anyway(call, spoilt, Refusal::EqualNeighbours, place)
    }),
    way("vertices: as many edges as fit written", |call, spoilt| {
        written_anyway(call, spoilt, Refusal::RoomForOutput, MOST_VERTICES)
    }),
    way("vertices: edges of too many vertices written", |call, spoilt| {
        written_anyway(call, spoilt, Refusal::VertexCount, MOST_VERTICES)
    }),
    way("vertices: a refusal with found", |call, spoilt| on_refusal(call, spoilt, |answer| answer.found += 3)),
    way("vertices: a refusal with hidden", |call, spoilt| on_refusal(call, spoilt, |answer| answer.hidden += 1)),
    way("vertices: a refusal with looks", |call, spoilt| on_refusal(call, spoilt, |answer| answer.looks += 1)),
    way("vertices: a refusal's number changed", |call, spoilt| on_refusal(call, spoilt, |answer| answer.refusal += 1)),
    way("vertices: a refusal taken for accepted", |call, spoilt| {
        on_refusal(call, spoilt, |answer| *answer = Answer::default())
    }),
];

/// The numbers of an import that came back with this refusal.
fn refused_by<'a>(call: &'a Call, spoilt: &Compared, refusal: Refusal) -> Option<&'a [i32]> {
    let Call::Import { numbers, .. } = call else { return None };
    (spoilt.given.answer.refusal == refusal.number()).then_some(numbers)
}

fn accepted<'a>(call: &'a Call, spoilt: &Compared) -> Option<&'a [i32]> {
    let Call::Import { numbers, .. } = call else { return None };
    (spoilt.given.answer.refusal == 0).then_some(numbers)
}

/// Puts a refusal in the place of the library's answer; returns whether it is another.
fn refuse(spoilt: &mut Compared, refusal: Refusal, place: usize) -> bool {
    let right = spoilt.given.clone();
    spoilt.given.answer = Answer { refusal: refusal.number(), place: place as u32, ..Answer::default() };
    spoilt.given.lent = spoilt.before.clone();
    spoilt.given != right
}

/// Puts a refusal or edges in the place of the library's answer.
fn judge(call: &Call, spoilt: &mut Compared, judged: Result<Vec<u8>, Refused>) -> bool {
    match judged {
        Ok(edges) => put(call, spoilt, &edges),
        Err(Refused { number, place }) => {
            let refusal = Refusal::numbered(number).expect("a refusal of the table");
            refuse(spoilt, refusal, place)
        }
    }
}

fn is_closing(numbers: &[i32], place: usize) -> bool {
    place + 1 == numbers.len() / 2
}

/// The codes of all steps; a step of nothing is 0.
fn codes(numbers: &[i32]) -> Vec<u8> {
    steps(numbers).into_iter().map(|step| if step.larger() == 0 { 0 } else { code(step) }).collect()
}

/// What comes behind 15: 16 for this pair, 10, or the edges.
fn behind_15(numbers: &[i32], room: usize, equal: Option<usize>) -> Result<Vec<u8>, Refused> {
    refuse_if(equal.is_some(), 16, equal.unwrap_or(0))?;
    refuse_if(room < numbers.len() / 2, 10, 0)?;
    Ok(codes(numbers))
}

/// Numbers refused by 15, judged as if there were only the first `count` of them.
fn counted_as(call: &Call, spoilt: &mut Compared, count: fn(&[i32]) -> Option<usize>) -> bool {
    let (Some(numbers), Call::Import { room, .. }) = (refused_by(call, spoilt, Refusal::VertexCount), call) else {
        return false;
    };
    count(numbers).is_some_and(|count| {
        let judged = import(&numbers[..count], *room).map(|imported| imported.written);
        judge(call, spoilt, judged)
    })
}

/// Numbers refused by 15, an even count of them, judged as if this count of vertices were right.
fn let_through(call: &Call, spoilt: &mut Compared, count: fn(usize) -> bool) -> bool {
    let (Some(numbers), Call::Import { room, .. }) = (refused_by(call, spoilt, Refusal::VertexCount), call) else {
        return false;
    };
    if numbers.len() % 2 == 1 || !count(numbers.len() / 2) {
        return false;
    }
    let equal = equal_neighbours(numbers).first().copied();
    judge(call, spoilt, behind_15(numbers, *room, equal))
}

/// An accepted count refused.
fn count_refused(call: &Call, spoilt: &mut Compared, count: fn(usize) -> bool) -> bool {
    let wrong = accepted(call, spoilt).is_some_and(|numbers| count(numbers.len() / 2));
    wrong && refuse(spoilt, Refusal::VertexCount, 0)
}

/// A refusal with another place, which is made from the numbers and the right place.
fn at_place(call: &Call, spoilt: &mut Compared, refusal: Refusal, other: fn(&[i32], usize) -> usize) -> bool {
    let place = spoilt.given.answer.place as usize;
    refused_by(call, spoilt, refusal).is_some_and(|numbers| refuse(spoilt, refusal, other(numbers, place)))
}

fn at_equal(call: &Call, spoilt: &mut Compared, other: fn(&[i32], usize) -> usize) -> bool {
    at_place(call, spoilt, Refusal::EqualNeighbours, other)
}

/// Another refusal and place instead of this one, if they apply.
fn given_instead(
    call: &Call,
    spoilt: &mut Compared,
    refusal: Refusal,
    other: impl Fn(&[i32]) -> Option<(Refusal, usize)>,
) -> bool {
    let other = refused_by(call, spoilt, refusal).and_then(other);
    other.is_some_and(|(refusal, place)| refuse(spoilt, refusal, place))
}

fn room_first(call: &Call, spoilt: &mut Compared, refusal: Refusal) -> bool {
    let Call::Import { room, .. } = call else { return false };
    given_instead(call, spoilt, refusal, |numbers| (*room < numbers.len() / 2).then_some((Refusal::RoomForOutput, 0)))
}

/// The answer if 16 is not given for these pairs: for a later one, or 10, or the edges.
fn not_equal(call: &Call, spoilt: &mut Compared, forgotten: fn(&[i32], usize) -> bool) -> bool {
    let (Some(numbers), Call::Import { room, .. }) = (refused_by(call, spoilt, Refusal::EqualNeighbours), call) else {
        return false;
    };
    let left = equal_neighbours(numbers).into_iter().find(|&place| !forgotten(numbers, place));
    judge(call, spoilt, behind_15(numbers, *room, left))
}

/// An accepted import refused by 16, at the place that a wrong test finds.
fn equal_refused(call: &Call, spoilt: &mut Compared, wrong: fn(&[i32]) -> Option<usize>) -> bool {
    let place = accepted(call, spoilt).and_then(wrong);
    place.is_some_and(|place| refuse(spoilt, Refusal::EqualNeighbours, place))
}

fn equal_step(call: &Call, spoilt: &mut Compared, wrong: fn(&Pair) -> bool) -> bool {
    let place = accepted(call, spoilt).and_then(|numbers| steps(numbers).iter().position(wrong));
    place.is_some_and(|place| refuse(spoilt, Refusal::EqualNeighbours, place))
}

/// An import with too little room accepted, and as many edges written as there is room for.
fn accepted_with(call: &Call, spoilt: &mut Compared, which: fn(usize, usize) -> bool) -> bool {
    let (Some(numbers), Call::Import { room, .. }) = (refused_by(call, spoilt, Refusal::RoomForOutput), call) else {
        return false;
    };
    which(numbers.len() / 2, *room) && put(call, spoilt, &codes(numbers))
}

/// An accepted import refused for its room.
fn room_refused(call: &Call, spoilt: &mut Compared, which: fn(usize, usize) -> bool) -> bool {
    let (Some(numbers), Call::Import { room, .. }) = (accepted(call, spoilt), call) else { return false };
    which(numbers.len() / 2, *room) && refuse(spoilt, Refusal::RoomForOutput, 0)
}

/// A refusal that has written edges before it was given: the first ones, as many as `most` and the room admit.
fn written_anyway(call: &Call, spoilt: &mut Compared, refusal: Refusal, most: usize) -> bool {
    let (Some(numbers), Call::Import { room, .. }) = (refused_by(call, spoilt, refusal), call) else { return false };
    let mut edges = codes(numbers);
    edges.truncate(most.min(*room));
    spoilt.given.lent.words.write(&edges);
    !edges.is_empty()
}

fn on_refusal(call: &Call, spoilt: &mut Compared, change: fn(&mut Answer)) -> bool {
    let refused = matches!(call, Call::Import { .. }) && spoilt.given.answer.refusal != 0;
    if refused {
        change(&mut spoilt.given.answer);
    }
    refused
}
