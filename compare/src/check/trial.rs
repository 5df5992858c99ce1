//! The comparison put to the test: it must notice each way of spoiling an answer.

use super::areas::Areas;
use super::bonds::{compare_two, edges};
use super::calls::{compare, compare_three};
use super::compared::{Compared, Judged};
use super::crash;
use super::program::{self, Slot};
use super::run::Plan;
use super::spoil::{Way, OF_REFUSALS_AND_BOOKS, OF_SEARCHES};
use super::spoil_books::OF_BOOKS;
use super::spoil_closed::{OF_CLOSED, OF_LONGEST};
use super::spoil_marks::OF_MARKS;
use super::spoil_two_way::OF_TWO_WAY;
use super::spoil_two_way_refusals::OF_TWO_WAY_REFUSALS;
use super::spoil_vertices::{OF_BONDS, OF_CHAINS, OF_VERTICES};
use super::spoil_vertices_refusals::OF_VERTICES_REFUSALS;
use super::two_way;
use crate::cases::call::Search;
use crate::cases::chains::Chain;
use crate::cases::{Bound, Call, Case};
use crate::memory::{Area, Placement};
use crate::rows::Lines;
use std::process::{Command, Stdio};

/// Cases of each kind that are spoilt.
const SHARE: u64 = 150;
/// The same for the program, where each case costs a process.
const SHARE_OF_INPUTS: u64 = 12;
/// The same for long rings and lines, whose areas are copied for every way; and of these, for the longest.
const SHARE_OF_LONG: u64 = 16;
const SHARE_OF_LONGEST: u64 = 2;

/// What was spoilt and, of that, noticed.
#[derive(Clone, Copy, Default)]
struct Noticed {
    spoilt: u64,
    noticed: u64,
}

impl Noticed {
    fn add(&mut self, noticed: bool) {
        self.spoilt += 1;
        self.noticed += u64::from(noticed);
    }
}

/// Some ways on trial, with what was noticed of each.
struct Trial<C: 'static = Call, D: 'static = Compared> {
    ways: &'static [Way<C, D>],
    noticed: Vec<Noticed>,
}

impl<C: 'static, D: Judged<C> + 'static> Trial<C, D> {
    fn new(ways: &'static [Way<C, D>]) -> Trial<C, D> {
        Trial { ways, noticed: vec![Noticed::default(); ways.len()] }
    }

    /// Only an answer that agrees is spoilt: in another one there is a difference anyway.
    fn spoil(&mut self, call: &C, compared: &D) {
        if compared.difference(call).is_some() {
            return;
        }
        for (way, noticed) in self.ways.iter().zip(&mut self.noticed) {
            let mut spoilt = compared.clone();
            if (way.spoil)(call, &mut spoilt) {
                noticed.add(spoilt.difference(call).is_some());
            }
        }
    }

    fn told(&self, prefix: &str) -> Vec<bool> {
        let ways = self.ways.iter().zip(&self.noticed);
        ways.map(|(way, &noticed)| told(&format!("{prefix}{}", way.name), noticed)).collect()
    }
}

/// Lines too long to be copied for every way.
fn long(call: &Call) -> bool {
    call.search().is_some_and(|search| search.line.len() > 5_000)
}

/// Whether a two-way scan lends more words than can be copied for every way.
fn wide(search: &Search) -> bool {
    search.room > 20_000
}

/// The cases of a kind that are spoilt: all of a small one, else some from all over it. They are not a fixed step apart, which
/// might miss one of the calls or refusals that come in turn: the step is the golden section of the count.
fn spread(number: u64, count: u64) -> u64 {
    const GOLDEN: u64 = 0x9E37_79B9_7F4A_7C15;
    if count <= SHARE {
        return number;
    }
    (u128::from(number.wrapping_mul(GOLDEN)) * u128::from(count) >> 64) as u64
}

/// How many cases of a kind of three calls are spoilt.
fn share_of(calls: &[Call; 3]) -> u64 {
    if long(&calls[0]) {
        SHARE_OF_LONGEST
    } else {
        SHARE_OF_LONG
    }
}

type TextWay = (&'static str, fn(&mut Vec<u8>) -> bool);

/// Drops the last number of the line behind the heading, if it is a finding's: only those begin with a digit.
fn without_ties(text: &mut Vec<u8>) -> bool {
    let mut lines = text.split_inclusive(|&byte| byte == b'\n');
    let (Some(heading), Some(line)) = (lines.next(), lines.next()) else { return false };
    let ties = line.iter().rposition(|&byte| byte == b' ');
    let (Some(ties), true) = (ties, line[0].is_ascii_digit()) else { return false };
    let (from, to) = (heading.len() + ties, heading.len() + line.len() - 1);
    text.drain(from..to);
    true
}

/// The same for the program's text.
const TEXT_WAYS: [TextWay; 5] = [
    ("output: the last line's end missing", |text| text.pop().is_some()),
    ("output: the last number one too high", |text| {
        let digit = text.iter().rposition(u8::is_ascii_digit);
        digit.map(|place| text[place] = b'0' + (text[place] - b'0' + 1) % 10).is_some()
    }),
    ("output: a line more", |text| {
        text.extend(b"0 0 0 1\n");
        true
    }),
    ("output: a finding without its ties", without_ties),
    ("output: line ends CR LF", |text| {
        let lines = text.iter().position(|&byte| byte == b'\n');
        lines.map(|place| text.insert(place, b'\r')).is_some()
    }),
];

fn spoil_output(plan: &Plan, case: &Case, ways: &mut [Noticed]) {
    let (Case::Input(input), Some(program)) = (case, &plan.program) else { return };
    let expected = program::expected(input);
    let given = program::run(program, input, &Slot::default());
    let Some(text) = given.ok().filter(|text| *text == expected) else { return };
    for ((_, spoil), noticed) in TEXT_WAYS.iter().zip(ways) {
        let mut spoilt = text.clone();
        if spoil(&mut spoilt) {
            noticed.add(program::difference(&Ok(spoilt), &expected).is_some());
        }
    }
}

const OVERSTEPS: [(&str, &str); 3] = [
    ("behind", "a byte read behind a guarded slice"),
    ("before", "a byte read before a guarded slice"),
    ("input", "a byte written into a read-only input"),
];

/// Oversteps a guard. The process must end by that.
pub fn overstep(which: &str) {
    crash::watch();
    let mut area = Area::new(100);
    let before = which == "before";
    area.lay(if before { Placement::Before } else { Placement::Behind }, 0, &[1; 10]);
    if which == "input" {
        area.scribble();
    } else {
        area.overstep(before);
    }
}

fn guard_holds(which: &str) -> bool {
    let Ok(this) = std::env::current_exe() else { return false };
    let run = Command::new(this).args(["--overstep", which]).stdout(Stdio::null()).status();
    run.is_ok_and(|status| status.code() == Some(crash::STATUS))
}

/// A way passes if it found something to spoil and every spoilt copy was noticed.
fn told(name: &str, noticed: Noticed) -> bool {
    let Noticed { spoilt, noticed } = noticed;
    println!("{name:<52} {spoilt:>6} spoilt, {noticed} noticed");
    spoilt > 0 && noticed == spoilt
}

type LinesWay = (&'static str, fn(&mut Vec<String>));

/// The same for the stored lines of the samples.
const LINES_WAYS: [LinesWay; 4] = [
    ("samples: a digit of a line changed", |lines| {
        let line = lines.len() / 2;
        lines[line] = lines[line].replacen('0', "1", 1);
    }),
    ("samples: a line missing", |lines| drop(lines.remove(0))),
    ("samples: a line more", |lines| lines.push("\n".to_string())),
    ("samples: the last line's end missing", |lines| {
        let last = lines.len() - 1;
        lines[last].pop();
    }),
];

fn spoil_lines(samples: Lines) -> Vec<bool> {
    let trial = |&(name, spoil): &LinesWay| {
        let mut spoilt = Lines { made: samples.made.clone(), stored: samples.made.clone() };
        spoil(&mut spoilt.stored);
        let mut noticed = Noticed::default();
        noticed.add(!spoilt.differences().is_empty());
        told(name, noticed)
    };
    LINES_WAYS.iter().map(trial).collect()
}

/// All ways on trial but those for the samples and the guards.
struct Trials {
    of_calls: [Trial; 7],
    of_two_way: [Trial<Search, two_way::Compared>; 2],
    of_bonds: Trial<Bound, [Compared; 2]>,
    of_chains: Trial<Chain, two_way::Compared>,
    of_long: [Trial; 2],
    of_text: [Noticed; TEXT_WAYS.len()],
    areas: Areas,
}

impl Trials {
    fn new() -> Trials {
        Trials {
            of_calls: [
                OF_SEARCHES,
                OF_MARKS,
                OF_CLOSED,
                OF_REFUSALS_AND_BOOKS,
                OF_BOOKS,
                OF_VERTICES,
                OF_VERTICES_REFUSALS,
            ]
            .map(Trial::new),
            of_two_way: [OF_TWO_WAY, OF_TWO_WAY_REFUSALS].map(Trial::new),
            of_bonds: Trial::new(OF_BONDS),
            of_chains: Trial::new(OF_CHAINS),
            of_long: [OF_SEARCHES, OF_LONGEST].map(Trial::new),
            of_text: [Noticed::default(); TEXT_WAYS.len()],
            areas: Areas::new(),
        }
    }

    fn spoil_call(&mut self, call: &Call, placement: Placement) {
        let compared = compare(call, placement, &mut self.areas);
        self.of_calls.iter_mut().for_each(|trial| trial.spoil(call, &compared));
    }

    fn spoil_bound(&mut self, bound: &Bound, placement: Placement) {
        bound.0.iter().for_each(|call| self.spoil_call(call, placement));
        let compared = compare_two(&bound.0, placement, &mut self.areas);
        self.of_bonds.spoil(bound, &compared);
    }

    fn spoil_chain(&mut self, chain: &Chain, placement: Placement) {
        let import = |call: &Call| compare(call, placement, &mut self.areas).expected;
        let imported: Vec<Vec<u8>> = chain.imports().iter().map(import).map(|left| edges(&left).to_vec()).collect();
        let compared = two_way::compare(&chain.search(&imported), placement, &mut self.areas);
        self.of_chains.spoil(chain, &compared);
    }

    /// Spoils the case of this number in its kind.
    fn spoil(&mut self, plan: &Plan, case: &Case, number: u64) {
        match case {
            Case::Call(call, placement) if !long(call) => self.spoil_call(call, *placement),
            Case::Two(bound, placement) => self.spoil_bound(bound, *placement),
            Case::Chain(chain, placement) => self.spoil_chain(chain, *placement),
            Case::TwoWay(search, placement) if !wide(search) => {
                let compared = two_way::compare(search, *placement, &mut self.areas);
                self.of_two_way.iter_mut().for_each(|trial| trial.spoil(search, &compared));
            }
            Case::Three(calls, placement) if number < share_of(calls) => {
                let compared = compare_three(calls, *placement, &mut self.areas);
                for (call, compared) in calls.iter().zip(&compared) {
                    self.of_long.iter_mut().for_each(|trial| trial.spoil(call, compared));
                }
            }
            Case::Input(_) if number < SHARE_OF_INPUTS => spoil_output(plan, case, &mut self.of_text),
            _ => {}
        }
    }

    fn told(&self, with_program: bool) -> Vec<bool> {
        let mut results: Vec<bool> = self.of_calls.iter().flat_map(|trial| trial.told("")).collect();
        results.extend(self.of_two_way.iter().flat_map(|trial| trial.told("")));
        results.extend(self.of_bonds.told(""));
        results.extend(self.of_chains.told(""));
        results.extend(self.of_long.iter().flat_map(|trial| trial.told("long: ")));
        if with_program {
            results.extend(TEXT_WAYS.iter().zip(self.of_text).map(|(way, noticed)| told(way.0, noticed)));
        }
        results
    }
}

/// Prints a line for each way; returns the ways that passed and that failed.
pub fn run_trial(plan: &Plan, samples: Option<Lines>) -> (usize, usize) {
    let mut trials = Trials::new();
    for kind in &plan.kinds {
        for number in 0..SHARE.min(kind.count) {
            trials.spoil(plan, &kind.case(plan.seed, spread(number, kind.count)), number);
        }
    }
    let mut results = trials.told(plan.program.is_some());
    results.extend(samples.map(spoil_lines).unwrap_or_default());
    for (which, name) in OVERSTEPS {
        let mut noticed = Noticed::default();
        noticed.add(guard_holds(which));
        results.push(told(name, noticed));
    }
    let passed = results.iter().filter(|&&passed| passed).count();
    (passed, results.len() - passed)
}
