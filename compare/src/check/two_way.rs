//! One two-way scan of the library compared with the second program, and with the library's own plain scans.

use super::areas::{Areas, Parts};
use super::calls::ask_library;
use super::compared::{Judged, Left, Lent};
use crate::cases::call::{Call, Search};
use crate::library::ask_two_way;
use crate::memory::{bytes_of, Placement};
use crate::second::calls::Answered;
use crate::second::meaning::FINDING_WORDS;
use crate::second::refusals::Refused;
use crate::second::reversed::reversed;
use crate::second::rules::Marks;
use crate::second::samples::bound;
use crate::second::two_way::{scan_two_way, Passes};
use outlines::raw::{Answer, TwoWay};

#[derive(Clone)]
pub struct Compared {
    pub expected: Left<TwoWay>,
    pub given: Left<TwoWay>,
    /// The lent areas before the call.
    pub before: Lent,
    /// What the library's plain scan left for the ring and for the reversed ring, if the call is accepted.
    pub plain: Option<[Left; 2]>,
    /// What the second program met of marks in each pass.
    pub marks: [Marks; 2],
}

/// What a pass counts.
#[derive(Clone, Copy, Debug, PartialEq, Eq)]
pub struct Pass {
    pub found: u64,
    pub looks: u64,
}

/// The two passes of an answer: forward, backward.
pub fn passes(answer: &TwoWay) -> [Pass; 2] {
    let TwoWay { forward_found, forward_looks, backward_found, backward_looks, .. } = *answer;
    [Pass { found: forward_found, looks: forward_looks }, Pass { found: backward_found, looks: backward_looks }]
}

/// The accepted answer with these passes.
pub fn of_passes([forward, backward]: [Pass; 2]) -> TwoWay {
    TwoWay {
        forward_found: forward.found,
        forward_looks: forward.looks,
        backward_found: backward.found,
        backward_looks: backward.looks,
        ..TwoWay::default()
    }
}

fn answer_of(outcome: &Result<Passes, Refused>) -> TwoWay {
    let pass = |answered: &Answered<u32>| Pass { found: answered.found as u64, looks: answered.looks };
    match outcome {
        Err(refused) => TwoWay { refusal: refused.number, place: refused.place as u32, ..TwoWay::default() },
        Ok(Passes { forward, backward }) => of_passes([forward, backward].map(pass)),
    }
}

/// The second program's answer for a search.
fn ask_second(search: &Search) -> Result<Passes, Refused> {
    let Search { ring, line, allowance, room, .. } = search;
    scan_two_way(ring, line, *allowance, *room)
}

/// The words of an answer, pass by pass.
fn words_of(left: &Left<TwoWay>) -> [Vec<u32>; 2] {
    let [forward, backward] = passes(&left.answer).map(|pass| FINDING_WORDS * pass.found as usize);
    let words = |from: usize, to: usize| (from..to).map(|place| left.lent.words.word(place)).collect();
    [words(0, forward), words(forward, forward + backward)]
}

impl Compared {
    /// The findings that the second program expects, pass by pass, as words.
    pub fn expected_words(&self) -> [Vec<u32>; 2] {
        words_of(&self.expected)
    }

    /// "each as by demand 2 for that ring" (ticket 6): a pass has the found, the looks and the words of the plain scan.
    fn unlike_plain(&self) -> Option<String> {
        let (words, answers) = (words_of(&self.given), passes(&self.given.answer));
        let plain = self.plain.as_ref()?.iter().zip(["forward", "backward"]);
        for ((plain, name), (words, pass)) in plain.zip(words.iter().zip(answers)) {
            let right = Answer { found: pass.found, looks: pass.looks, ..Answer::default() };
            if plain.answer != right {
                return Some(format!("{name} {pass:?}, the plain scan {:?}", plain.answer));
            }
            if let Some(place) = (0..words.len()).find(|&place| words[place] != plain.lent.words.word(place)) {
                return Some(format!("{name} word {place} is not that of the plain scan"));
            }
        }
        None
    }
}

/// "Each pass has its own [..] bound" (ticket 6), that of the plain scan.
fn looks_out_of_bounds(search: &Search, answer: &TwoWay) -> Option<String> {
    let (m, n) = (search.ring.len() as u64, search.line.len() as u64);
    let most = if answer.refusal != 0 || n < m { 0 } else { bound(m, n) };
    let beyond = passes(answer).into_iter().find(|pass| pass.looks > most)?;
    Some(format!("{} looks, the bound is {most}", beyond.looks))
}

impl Judged<Search> for Compared {
    fn difference(&self, search: &Search) -> Option<String> {
        let left = self.given.unlike(&self.expected);
        left.or_else(|| looks_out_of_bounds(search, &self.given.answer)).or_else(|| self.unlike_plain())
    }
}

fn ask_library_two_way(search: &Search, placement: Placement, areas: &mut Areas) -> (Left<TwoWay>, Lent) {
    areas.call(&Parts::of_search(search, &[]), placement, |areas, empty| {
        let Areas { ring, line, lent, .. } = areas;
        let search = outlines::Search { ring: ring.bytes(), line: line.bytes(), allowance: search.allowance };
        ask_two_way(search, lent.words_mut(), empty)
    })
}

pub fn compare(search: &Search, placement: Placement, areas: &mut Areas) -> Compared {
    let (given, before) = ask_library_two_way(search, placement, areas);
    let outcome = ask_second(search);
    let answer = answer_of(&outcome);
    let plain = outcome.is_ok().then(|| {
        [search.ring.clone(), reversed(&search.ring)].map(|ring| {
            let scan = Call::Scan(Search { ring, ..search.clone() });
            ask_library(&scan, placement, areas).0
        })
    });
    let passes = outcome.unwrap_or_default();
    let mut lent = before.clone();
    lent.words.write(&bytes_of(&passes.written()));
    let marks = [passes.forward.marks, passes.backward.marks];
    Compared { expected: Left { answer, lent, inputs_kept: true }, given, before, plain, marks }
}
