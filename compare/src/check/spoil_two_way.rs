//! Ways to spoil what an accepted two-way scan returned and wrote: what a library that takes ticket 6 wrongly would return and
//! write. A way has something to spoil only where that differs from what is right.

use super::compared::{Left, DISTANCE, ROTATION, TIES};
use super::misread::{AtMark, Misread};
use super::spoil::{set_word_of, way, Way};
use super::two_way::{of_passes, passes, Compared, Pass};
use crate::cases::call::{room, Search};
use crate::memory::{bytes_of, WORD};
use crate::second::line::Line;
use crate::second::meaning::{FINDING_WORDS, MARK};
use crate::second::reversed::{reversed, reversed_code, NO_EDGE, OCTANTS};
use crate::second::rules::{quick_scan, Searched};
use outlines::raw::TwoWay;

pub type TwoWaySpoil = Way<Search, Compared>;

pub static OF_TWO_WAY: &[TwoWaySpoil] = &[
    way("two-way: the ring not reversed", |search, spoilt| for_ring(search, spoilt, |ring| ring.to_vec())),
    way("two-way: the order kept", |search, spoilt| {
        for_ring(search, spoilt, |ring| ring.iter().map(|&code| reversed_code(code)).collect())
    }),
    way("two-way: the octants kept", |search, spoilt| for_ring(search, spoilt, |ring| turned(ring, |code| code))),
    way("two-way: octants turned by 2", |search, spoilt| {
        for_ring(search, spoilt, |ring| turned(ring, |code| with_octant(code, code + 2)))
    }),
    way("two-way: octants turned into the next class", |search, spoilt| {
        for_ring(search, spoilt, |ring| turned(ring, |code| code + 4))
    }),
    way("two-way: octants mirrored", |search, spoilt| {
        for_ring(search, spoilt, |ring| turned(ring, |code| with_octant(code, OCTANTS - code % OCTANTS)))
    }),
    way("two-way: the class changed", |search, spoilt| {
        for_ring(search, spoilt, |ring| turned(ring, |code| with_octant(NO_EDGE - 1 - code, code + 4)))
    }),
    way("two-way: the class lost", |search, spoilt| {
        for_ring(search, spoilt, |ring| turned(ring, |code| with_octant(0, code + 4)))
    }),
    way("two-way: reversed from the first edge on", |search, spoilt| {
        for_ring(search, spoilt, |ring| {
            let mut other = reversed(ring);
            other.rotate_right(1);
            other
        })
    }),
    way("two-way: rotations counted on the ring", |search, spoilt| {
        backward_words(search, spoilt, |search, finding| {
            finding[ROTATION] = search.ring.len() as u32 - 1 - finding[ROTATION];
        })
    }),
    way("two-way: rotations counted the other way round", |search, spoilt| {
        backward_words(search, spoilt, |search, finding| {
            let m = search.ring.len() as u32;
            finding[ROTATION] = (m - finding[ROTATION]) % m;
        })
    }),
    way("two-way: backward starts from the line's end", |search, spoilt| {
        backward_words(search, spoilt, |search, finding| {
            finding[0] = (search.line.len() - search.ring.len()) as u32 - finding[0];
        })
    }),
    way("two-way: a mark is a break backward", |search, spoilt| marked(search, spoilt, AtMark::Break)),
    way("two-way: a mark stepped over backward", |search, spoilt| marked(search, spoilt, AtMark::StepOver)),
    way("two-way: codes above 247 in the line are marks", no_edges_as_marks),
    way("two-way: backward findings first", |_, spoilt| rewritten(spoilt, |[forward, backward]| [backward, forward])),
    way("two-way: findings of both passes by start", |_, spoilt| rewritten(spoilt, by_start)),
    way("two-way: backward findings by falling start", |_, spoilt| {
        changed(spoilt, |[forward, backward]| [forward, backward.into_iter().rev().collect()])
    }),
    way("two-way: a start of both passes listed once", |_, spoilt| changed(spoilt, listed_once)),
    way("two-way: a finding's room between the passes", |_, spoilt| apart(spoilt, |found| found + 1)),
    way("two-way: backward findings from the middle on", |search, spoilt| {
        let starts = room(search.ring.len(), search.line.len()) / FINDING_WORDS;
        apart(spoilt, |_| starts)
    }),
    way("two-way: found exchanged", |_, spoilt| {
        counted(spoilt, |[f, b]| [Pass { found: b.found, ..f }, Pass { found: f.found, ..b }])
    }),
    way("two-way: looks exchanged", |_, spoilt| {
        counted(spoilt, |[f, b]| [Pass { looks: b.looks, ..f }, Pass { looks: f.looks, ..b }])
    }),
    way("two-way: backward looks doubled", |_, spoilt| counted(spoilt, |[f, b]| [f, Pass { looks: 2 * b.looks, ..b }])),
    way("two-way: backward looks not counted", |_, spoilt| counted(spoilt, |[f, b]| [f, Pass { looks: 0, ..b }])),
    way("two-way: looks of both passes together", |_, spoilt| {
        counted(spoilt, |[f, b]| [f, Pass { looks: f.looks + b.looks, ..b }])
    }),
    way("two-way: found of both passes together", |_, spoilt| {
        counted(spoilt, |[f, b]| [f, Pass { found: f.found + b.found, ..b }])
    }),
    way("two-way: a forward finding dropped", |_, spoilt| {
        changed(spoilt, |[forward, backward]| [forward.into_iter().skip(1).collect(), backward])
    }),
    way("two-way: a backward finding dropped", |_, spoilt| {
        changed(spoilt, |[forward, backward]| [forward, backward.into_iter().skip(1).collect()])
    }),
    way("two-way: a rotation one too high", |_, spoilt| one_word(spoilt, ROTATION)),
    way("two-way: a distance one too high", |_, spoilt| one_word(spoilt, DISTANCE)),
    way("two-way: ties one too many", |_, spoilt| one_word(spoilt, TIES)),
    way("two-way: a word written behind the last", word_behind),
    way("two-way: a byte written behind the lent area", byte_behind_area),
    way("two-way: a byte written before the lent area", byte_before_area),
    way("two-way: an input written to", |_, spoilt| {
        spoilt.given.inputs_kept = false;
        true
    }),
    way("two-way: forward looks wrong in both programs", |_, spoilt| {
        wrong_in_both(spoilt, |left| left.answer.forward_looks = left.answer.forward_looks.saturating_sub(1))
    }),
    way("two-way: backward looks wrong in both programs", |_, spoilt| {
        wrong_in_both(spoilt, |left| left.answer.backward_looks = left.answer.backward_looks.saturating_sub(1))
    }),
    way("two-way: a forward word wrong in both programs", |_, spoilt| {
        wrong_in_both(spoilt, |left| word_of_pass(left, false))
    }),
    way("two-way: a backward word wrong in both programs", |_, spoilt| {
        wrong_in_both(spoilt, |left| word_of_pass(left, true))
    }),
];

/// The words of a finding.
type Words = Vec<u32>;
/// The findings of both passes.
type Both = [Vec<Words>; 2];

fn accepted(spoilt: &Compared) -> bool {
    spoilt.given.answer.refusal == 0
}

fn findings(spoilt: &Compared) -> Both {
    spoilt.expected_words().map(|words| words.chunks(FINDING_WORDS).map(<[u32]>::to_vec).collect())
}

/// Writes these findings, as many as there is room for, in the place of those that the library wrote.
fn write(spoilt: &mut Compared, room: usize, findings: &Both) {
    let mut words = findings.concat().concat();
    words.truncate(room);
    spoilt.given.lent.words = spoilt.before.words.clone();
    spoilt.given.lent.words.write(&bytes_of(&words));
}

/// Puts another answer in the place of the library's, with these looks; returns whether it is another.
pub(super) fn put(spoilt: &mut Compared, room: usize, findings: &Both, looks: [u64; 2]) -> bool {
    let right = spoilt.given.clone();
    let [forward, backward] = [0, 1].map(|pass| Pass { found: findings[pass].len() as u64, looks: looks[pass] });
    spoilt.given.answer = of_passes([forward, backward]);
    write(spoilt, room, findings);
    spoilt.given != right
}

/// What both passes find in this line, and their looks.
pub(super) fn scanned(search: &Search, line: &[u8]) -> (Both, [u64; 2]) {
    let scan = |ring: &[u8]| in_words(quick_scan(ring, Line::open(line), search.allowance));
    let [(forward, looks), (backward, backward_looks)] = [scan(&search.ring), scan(&reversed(&search.ring))];
    ([forward, backward], [looks, backward_looks])
}

/// The findings of a pass as words, and its looks.
fn in_words(searched: Searched) -> (Vec<Words>, u64) {
    (searched.findings.iter().map(|finding| finding.words().to_vec()).collect(), searched.looks)
}

/// The backward pass made otherwise.
fn backward(search: &Search, spoilt: &mut Compared, searched: Searched) -> bool {
    let [forward, _] = findings(spoilt);
    let (words, looks) = in_words(searched);
    let forward_looks = spoilt.given.answer.forward_looks;
    put(spoilt, search.room, &[forward, words], [forward_looks, looks])
}

/// The backward pass for another ring than the reversed one.
fn for_ring(search: &Search, spoilt: &mut Compared, other: fn(&[u8]) -> Vec<u8>) -> bool {
    accepted(spoilt) && {
        let searched = quick_scan(&other(&search.ring), Line::open(&search.line), search.allowance);
        backward(search, spoilt, searched)
    }
}

/// The backward pass with marks misread.
fn marked(search: &Search, spoilt: &mut Compared, at_mark: AtMark) -> bool {
    accepted(spoilt) && {
        let search = Search { ring: reversed(&search.ring), ..search.clone() };
        let searched = Misread::new(&search).scan(at_mark);
        backward(&search, spoilt, searched)
    }
}

/// Both passes of the line with a mark for each code above 247.
fn no_edges_as_marks(search: &Search, spoilt: &mut Compared) -> bool {
    let marked = |&code: &u8| if code >= NO_EDGE { MARK } else { code };
    let line: Vec<u8> = search.line.iter().map(marked).collect();
    accepted(spoilt) && {
        let (findings, looks) = scanned(search, &line);
        put(spoilt, search.room, &findings, looks)
    }
}

/// The ring in opposite order, with another rule for its codes.
fn turned(ring: &[u8], code: fn(u8) -> u8) -> Vec<u8> {
    ring.iter().rev().map(|&edge| code(edge)).collect()
}

/// The class of one code with the octant of another.
fn with_octant(class: u8, octant: u8) -> u8 {
    class - class % OCTANTS + octant % OCTANTS
}

/// The answer with its findings changed, and its looks as they are.
fn changed(spoilt: &mut Compared, change: impl Fn(Both) -> Both) -> bool {
    let (both, looks) = (findings(spoilt), passes(&spoilt.given.answer).map(|pass| pass.looks));
    accepted(spoilt) && put(spoilt, usize::MAX, &change(both), looks)
}

/// The findings written in another order, and the answer as it is.
fn rewritten(spoilt: &mut Compared, change: fn(Both) -> Both) -> bool {
    let right = spoilt.given.clone();
    let other = change(findings(spoilt));
    accepted(spoilt) && {
        write(spoilt, usize::MAX, &other);
        spoilt.given != right
    }
}

fn backward_words(search: &Search, spoilt: &mut Compared, change: fn(&Search, &mut Words)) -> bool {
    changed(spoilt, |[forward, mut backward]| {
        backward.iter_mut().for_each(|finding| change(search, finding));
        [forward, backward]
    })
}

/// All findings in the order of their starts.
fn by_start([forward, backward]: Both) -> Both {
    let mut all = [forward, backward].concat();
    all.sort_by_key(|finding| finding[0]);
    [all, Vec::new()]
}

fn listed_once([forward, backward]: Both) -> Both {
    let new = |finding: &Words| forward.iter().all(|other| other[0] != finding[0]);
    let backward = backward.into_iter().filter(new).collect();
    [forward, backward]
}

/// The backward findings at another place than behind the forward ones: behind as many findings as `place` says.
fn apart(spoilt: &mut Compared, place: impl Fn(usize) -> usize) -> bool {
    let ([forward, backward], right) = (findings(spoilt), spoilt.given.clone());
    let from = FINDING_WORDS * place(forward.len());
    let words = backward.concat();
    let bytes = &spoilt.given.lent.words;
    if !accepted(spoilt) || bytes.front + WORD * (from + words.len()) > bytes.bytes.len() {
        return false;
    }
    write(spoilt, usize::MAX, &[forward, Vec::new()]);
    for (at, &word) in words.iter().enumerate() {
        assert!(set_word_of(&mut spoilt.given.lent.words, from + at, word), "room for every word");
    }
    spoilt.given != right
}

/// The answer with its counts changed.
fn counted(spoilt: &mut Compared, change: impl Fn([Pass; 2]) -> [Pass; 2]) -> bool {
    let right = spoilt.given.answer;
    if accepted(spoilt) {
        spoilt.given.answer = of_passes(change(passes(&right)));
    }
    spoilt.given.answer != right
}

/// One word of the last finding, which is a backward one if there are any.
fn one_word(spoilt: &mut Compared, which: usize) -> bool {
    let last = findings(spoilt).concat().len().checked_sub(1).filter(|_| accepted(spoilt));
    last.is_some_and(|last| {
        let (lent, place) = (&mut spoilt.given.lent.words, FINDING_WORDS * last + which);
        let other = lent.word(place) + 1;
        set_word_of(lent, place, other)
    })
}

fn word_behind(_: &Search, spoilt: &mut Compared) -> bool {
    let behind = FINDING_WORDS * findings(spoilt).concat().len();
    accepted(spoilt)
        && set_word_of(&mut spoilt.given.lent.words, behind, 0)
        && spoilt.given.lent != spoilt.expected.lent
}

fn byte_behind_area(search: &Search, spoilt: &mut Compared) -> bool {
    let words = &mut spoilt.given.lent.words;
    words.bytes.get_mut(words.front + WORD * search.room).map(|byte| *byte ^= 1).is_some()
}

fn byte_before_area(_: &Search, spoilt: &mut Compared) -> bool {
    let words = &mut spoilt.given.lent.words;
    words.front.checked_sub(1).map(|place| words.bytes[place] ^= 0x80).is_some()
}

/// The second program has the library's fault, and only the plain scans show it.
fn wrong_in_both(spoilt: &mut Compared, change: fn(&mut Left<TwoWay>)) -> bool {
    let right = spoilt.given.clone();
    [&mut spoilt.given, &mut spoilt.expected].into_iter().for_each(change);
    accepted(spoilt) && spoilt.given != right
}

/// Changes the first word of a pass that has a finding.
fn word_of_pass(left: &mut Left<TwoWay>, of_backward: bool) {
    let [forward, backward] = passes(&left.answer).map(|pass| pass.found as usize);
    let (found, from) = if of_backward { (backward, forward) } else { (forward, 0) };
    if found > 0 {
        let place = FINDING_WORDS * from;
        let other = left.lent.words.word(place) ^ 1;
        set_word_of(&mut left.lent.words, place, other);
    }
}
