//! The cases, each made from the seed and its number alone.

mod books;
mod bounds;
pub mod call;
mod ceilings;
pub mod chains;
mod closed;
mod closed_faults;
mod closed_kinds;
mod closed_limits;
mod closed_places;
mod describe;
pub mod draw;
mod faults;
pub mod input;
mod input_faults;
mod inputs;
mod kinds;
mod long;
mod mark_places;
mod marks;
mod nulls;
mod packing;
mod searches;
mod silences;
mod ties;
mod two_way;
mod two_way_faults;
mod two_way_kinds;
mod two_way_limits;
mod two_way_places;
pub mod vertices;
mod vertices_counts;
mod vertices_kinds;
mod vertices_laws;
mod vertices_steps;

use crate::memory::Placement;
pub use call::Call;
use call::Search;
use chains::Chain;
use draw::Draw;
pub use input::Input;

/// What must hold between the answers of two reports, or of two imports.
#[derive(Clone, Copy, Debug, PartialEq, Eq)]
pub enum Bond {
    /// The same answer, and the same words or edges.
    Same,
    /// The first hides the finding at this start, the second shows it.
    ShownAgain(u32),
    /// The second has the first one's edges from this one on.
    From(usize),
    /// The second is drawn the other way round, from the last vertex: it has the reversed ring's edges from the second on.
    Opposite,
    /// The second is turned clockwise by a quarter: each octant is two further on.
    Quarter,
    /// The second is twice the size: each class is one higher, but none above 30.
    Doubled,
}

/// Two calls, and what must hold between their answers.
pub type Bound = ([Call; 2], Bond);

pub enum Case {
    Call(Call, Placement),
    /// The two-way scan of a search.
    TwoWay(Search, Placement),
    /// Survey, scan and report of one search.
    Three([Call; 3], Placement),
    /// Two reports or two imports, and what must hold between their answers.
    Two(Bound, Placement),
    /// Imports, and the two-way scan of what comes out of them.
    Chain(Chain, Placement),
    /// Words packed by the library and unpacked by it again.
    RoundTrip(Vec<u32>),
    /// A good book unpacked by the library, packed and unpacked again.
    BookTrip(Vec<u8>),
    Input(Input),
    /// Whether the second program gives what document 01 prints, or what was counted by hand; and the sample's number.
    Sample(fn(usize) -> bool, usize),
}

impl Case {
    /// The library's calls and the program's runs that the case takes.
    pub fn calls_and_runs(&self) -> (u64, u64) {
        match self {
            Case::Call(..) | Case::TwoWay(..) => (1, 0),
            Case::Three(..) => (3, 0),
            Case::Two(..) => (2, 0),
            Case::Chain(chain, _) => (2 + chain.boundaries.len() as u64, 0),
            Case::RoundTrip(_) => (2, 0),
            Case::BookTrip(_) => (3, 0),
            Case::Input(_) => (0, 1),
            Case::Sample(..) => (0, 0),
        }
    }
}

enum Make {
    Call(fn(u64, &mut Draw) -> Call),
    NullCall(fn(u64, &mut Draw) -> Call),
    TwoWay(fn(u64, &mut Draw) -> Search),
    NullTwoWay(fn(u64, &mut Draw) -> Search),
    Three(fn(u64, &mut Draw) -> [Call; 3]),
    Two(fn(u64, &mut Draw) -> Bound),
    Chain(fn(u64, &mut Draw) -> Chain),
    RoundTrip(fn(u64, &mut Draw) -> Vec<u32>),
    BookTrip(fn(u64, &mut Draw) -> Vec<u8>),
    Input(fn(u64, &mut Draw) -> Input),
    Sample(fn(usize) -> bool),
}

pub struct Kind {
    pub name: &'static str,
    pub count: u64,
    make: Make,
}

/// Which cases a run has.
#[derive(Clone, Copy, PartialEq, Eq)]
pub enum Choice {
    /// Every kind.
    All,
    /// Every kind but the program's inputs. These come last, so that a case keeps its number in a run without them.
    Calls,
    /// Long rings and lines alone, a hundred times as many. The first of them are those of the other runs.
    Long,
}

fn calls() -> impl Iterator<Item = &'static Kind> {
    let later = two_way_kinds::TWO_WAY.iter().chain(vertices_kinds::VERTICES);
    kinds::CALLS.iter().chain(closed_kinds::CLOSED).chain(later)
}

pub fn kinds(choice: Choice) -> Vec<&'static Kind> {
    match choice {
        Choice::All => calls().chain(kinds::INPUTS).collect(),
        Choice::Calls => calls().collect(),
        Choice::Long => kinds::LONG.iter().collect(),
    }
}

/// A case's kind, by its place among the kinds, and the case's index within it.
pub fn locate(kinds: &[&Kind], number: u64) -> Option<(usize, u64)> {
    let mut index = number;
    for (place, kind) in kinds.iter().enumerate() {
        if index < kind.count {
            return Some((place, index));
        }
        index -= kind.count;
    }
    None
}

/// Three calls in four lie open between canaries, one in four flush against an inaccessible page.
fn placement(draw: &mut Draw) -> Placement {
    match draw.below(8) {
        0 => Placement::Behind,
        1 => Placement::Before,
        _ => Placement::Open,
    }
}

impl Kind {
    pub fn case(&self, seed: u64, index: u64) -> Case {
        let mut draw = Draw::new(seed, self.name, index);
        match self.make {
            Make::Call(make) => {
                let placement = placement(&mut draw);
                Case::Call(make(index, &mut draw), placement)
            }
            Make::TwoWay(make) => {
                let placement = placement(&mut draw);
                Case::TwoWay(make(index, &mut draw), placement)
            }
            Make::Three(make) => {
                let placement = placement(&mut draw);
                Case::Three(make(index, &mut draw), placement)
            }
            Make::Two(make) => {
                let placement = placement(&mut draw);
                Case::Two(make(index, &mut draw), placement)
            }
            Make::Chain(make) => {
                let placement = placement(&mut draw);
                Case::Chain(make(index, &mut draw), placement)
            }
            Make::NullCall(make) => Case::Call(make(index, &mut draw), Placement::Null),
            Make::NullTwoWay(make) => Case::TwoWay(make(index, &mut draw), Placement::Null),
            Make::RoundTrip(make) => Case::RoundTrip(make(index, &mut draw)),
            Make::BookTrip(make) => Case::BookTrip(make(index, &mut draw)),
            Make::Input(make) => Case::Input(make(index, &mut draw)),
            Make::Sample(holds) => Case::Sample(holds, index as usize),
        }
    }
}
