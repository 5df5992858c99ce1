//! What was compared of the import of vertices.

use super::chains::at_start_0;
use super::compared::Compared;
use super::two_way;
use crate::cases::call::Call;
use crate::cases::chains::{Chain, Drawn};
use crate::cases::{Bond, Bound};
use crate::second::refusals::{FEWEST_VERTICES, MOST_VERTICES};
use crate::second::reversed::{CLASSES, NO_EDGE, OCTANTS};
use crate::second::vertices::{
    bit_length_less_one, code, equal_neighbours, last_ray, octant, steps, vertices, Pair, RAYS,
};
use outlines::Refusal;

/// Sums over the accepted imports, over the refused ones, and over pairs and chains of them.
#[derive(Clone, Copy)]
enum Sum {
    Class31,
    WidestNorth,
    WidestEast,
    WidestSouth,
    WidestWest,
    Straight,
    Back,
    Apart,
    Fewest,
    Most,
    Exact,
    Spare,
    Above16BitsOfRoom,
    NoNumber,
    Odd,
    OddWithinLimits,
    Two,
    OneTooMany,
    Above16Bits,
    CountAndEqual,
    CountAndRoom,
    FirstPair,
    MiddlePair,
    ClosingPair,
    ClosingPairOfMost,
    Above8Bits,
    SeveralPairs,
    ClosingPairAndOther,
    EqualAndRoom,
    NoRoom,
    OneShort,
    Moved,
    FromAnother,
    Opposite,
    Quarter,
    Doubled,
    ChainForward,
    ChainBackward,
    ChainEdited,
    ChainWithout,
}

/// A name for each sum. A run with every kind of case fails if one of them is 0.
const SUMS: [&str; 40] = [
    "edges whose class 31 is taken as 30",
    "steps of 2^32 - 1 north",
    "steps of 2^32 - 1 east",
    "steps of 2^32 - 1 south",
    "steps of 2^32 - 1 west",
    "edges that go straight on",
    "edges that go straight back",
    "imports with equal vertices that are no neighbours",
    "imports of 3 vertices",
    "imports of 4,096 vertices",
    "imports with exactly the room required",
    "imports with bytes to spare",
    "imports with more than 65,535 bytes lent",
    "refusals 15 of no number",
    "refusals 15 of an odd count",
    "refusals 15 of an odd count alone",
    "refusals 15 of 2 vertices",
    "refusals 15 of 4,097 vertices",
    "refusals 15 of more than 65,536 vertices",
    "refusals 15 with equal neighbours",
    "refusals 15 with too little room",
    "refusals 16 for the first pair",
    "refusals 16 for a pair in the middle",
    "refusals 16 for the closing pair",
    "refusals 16 for the closing pair of 4,096",
    "refusals 16 above place 255",
    "refusals 16 with another pair behind",
    "refusals 16 with the closing pair behind",
    "refusals 16 with too little room",
    "refusals 10 of an import without room",
    "refusals 10 of an import by one byte",
    "outlines moved",
    "outlines from another vertex",
    "outlines in opposite order",
    "outlines turned",
    "outlines doubled",
    "chains that find the ring forward",
    "chains that find the ring backward",
    "chains that find the ring with a vertex moved",
    "chains that do not find the ring",
];

const CODES: usize = NO_EDGE as usize;

pub struct Imports {
    sums: [u64; SUMS.len()],
    /// How often each code came out: at all, as the closing edge, for a step on the octant's first ray, and for one next to
    /// its last.
    codes: [[u64; CODES]; 4],
}

impl Default for Imports {
    fn default() -> Imports {
        Imports { sums: [0; SUMS.len()], codes: [[0; CODES]; 4] }
    }
}

/// The kinds of edges that are counted by code. No step of class 0 lies between two rays.
const BY_CODE: [(&str, u8); 4] =
    [("edges", 0), ("closing edges", 0), ("edges on the first ray", 0), ("edges beside the last ray", OCTANTS)];

fn any_equal(numbers: &[i32]) -> bool {
    let mut vertices: Vec<(i128, i128)> = vertices(numbers).iter().map(|vertex| (vertex.north, vertex.east)).collect();
    vertices.sort_unstable();
    vertices.windows(2).any(|pair| pair[0] == pair[1])
}

impl Imports {
    fn add(&mut self, sum: Sum, more: u64) {
        self.sums[sum as usize] += more;
    }

    fn add_if(&mut self, pairs: &[(Sum, bool)]) {
        pairs.iter().for_each(|&(sum, occurred)| self.add(sum, u64::from(occurred)));
    }

    pub fn add_call(&mut self, call: &Call, compared: &Compared) {
        let Call::Import { numbers, room } = call else { return };
        let answer = &compared.expected.answer;
        match Refusal::numbered(answer.refusal) {
            None => self.add_accepted(numbers, *room),
            Some(Refusal::VertexCount) => self.add_count(numbers, *room),
            Some(Refusal::EqualNeighbours) => self.add_equal(numbers, *room, answer.place as usize),
            Some(Refusal::RoomForOutput) => {
                self.add_if(&[(Sum::NoRoom, *room == 0), (Sum::OneShort, *room + 1 == numbers.len() / 2)]);
            }
            Some(_) => {}
        }
    }

    fn add_accepted(&mut self, numbers: &[i32], room: usize) {
        let steps = steps(numbers);
        let count = steps.len();
        for (at, &step) in steps.iter().enumerate() {
            self.add_step(step, at + 1 == count);
            self.add_turn(step, steps[(at + 1) % count]);
        }
        self.add_if(&[
            (Sum::Apart, any_equal(numbers)),
            (Sum::Fewest, count == FEWEST_VERTICES),
            (Sum::Most, count == MOST_VERTICES),
            (Sum::Exact, room == count),
            (Sum::Spare, room > count),
            (Sum::Above16BitsOfRoom, room > 65_535),
        ]);
    }

    fn add_step(&mut self, step: Pair, closing: bool) {
        let (code, octant) = (code(step), octant(step));
        let on_ray = RAYS[usize::from(octant)].side(step) == 0;
        let beside = last_ray(octant).side(step) == -1;
        for (counts, occurred) in self.codes.iter_mut().zip([true, closing, on_ray, beside]) {
            counts[usize::from(code)] += u64::from(occurred);
        }
        let widest = (1 << 32) - 1;
        self.add_if(&[
            (Sum::Class31, bit_length_less_one(step.larger()) == CLASSES),
            (Sum::WidestNorth, step.north == widest),
            (Sum::WidestEast, step.east == widest),
            (Sum::WidestSouth, step.north == -widest),
            (Sum::WidestWest, step.east == -widest),
        ]);
    }

    /// Two steps one after the other on one line.
    fn add_turn(&mut self, step: Pair, next: Pair) {
        let (on_line, on) = (step.side(next) == 0, step.north * next.north + step.east * next.east > 0);
        self.add_if(&[(Sum::Straight, on_line && on), (Sum::Back, on_line && !on)]);
    }

    fn add_count(&mut self, numbers: &[i32], room: usize) {
        let (count, odd) = (numbers.len() / 2, numbers.len() % 2 == 1);
        self.add_if(&[
            (Sum::NoNumber, numbers.is_empty()),
            (Sum::Odd, odd),
            (Sum::OddWithinLimits, odd && (FEWEST_VERTICES..=MOST_VERTICES).contains(&count)),
            (Sum::Two, !odd && count + 1 == FEWEST_VERTICES),
            (Sum::OneTooMany, !odd && count == MOST_VERTICES + 1),
            (Sum::Above16Bits, !odd && count > 65_536),
            (Sum::CountAndEqual, count > 1 && !equal_neighbours(numbers).is_empty()),
            (Sum::CountAndRoom, room < count),
        ]);
    }

    fn add_equal(&mut self, numbers: &[i32], room: usize, place: usize) {
        let (count, pairs) = (numbers.len() / 2, equal_neighbours(numbers));
        let closing = place + 1 == count;
        self.add_if(&[
            (Sum::FirstPair, place == 0),
            (Sum::MiddlePair, place > 0 && !closing),
            (Sum::ClosingPair, closing),
            (Sum::ClosingPairOfMost, closing && count == MOST_VERTICES),
            (Sum::Above8Bits, place > 255),
            (Sum::SeveralPairs, pairs.len() > 1),
            (Sum::ClosingPairAndOther, !closing && pairs.contains(&(count - 1))),
            (Sum::EqualAndRoom, room < count),
        ]);
    }

    /// Two imports that were accepted, by what holds between them.
    pub fn add_bound(&mut self, (calls, bond): &Bound, compared: &[Compared; 2]) {
        let accepted =
            |(call, one): (&Call, &Compared)| matches!(call, Call::Import { .. }) && one.expected.answer.refusal == 0;
        let imported = calls.iter().zip(compared).all(accepted);
        let sum = match bond {
            Bond::Same => Sum::Moved,
            Bond::From(_) => Sum::FromAnother,
            Bond::Opposite => Sum::Opposite,
            Bond::Quarter => Sum::Quarter,
            Bond::Doubled => Sum::Doubled,
            Bond::ShownAgain(_) => return,
        };
        self.add(sum, u64::from(imported));
    }

    pub fn add_chain(&mut self, chain: &Chain, compared: &two_way::Compared) {
        let [forward, backward] = at_start_0(compared);
        self.add_if(&[
            (Sum::ChainForward, chain.drawn == Drawn::Alike && forward == Some(0)),
            (Sum::ChainBackward, chain.drawn == Drawn::Opposite && backward == Some(0)),
            (Sum::ChainEdited, chain.drawn == Drawn::Edited && forward.is_some_and(|distance| distance > 0)),
            (Sum::ChainWithout, compared.expected_words().concat().is_empty()),
        ]);
    }

    pub fn join(&mut self, other: Imports) {
        self.sums.iter_mut().zip(other.sums).for_each(|(sum, more)| *sum += more);
        let counts = self.codes.iter_mut().flatten().zip(other.codes.into_iter().flatten());
        counts.for_each(|(count, more)| *count += more);
    }

    pub fn print(&self) {
        let of = |sum: Sum| self.sums[sum as usize];
        let [all, closing, on_ray, beside] = self.codes.map(|counts| counts.iter().sum::<u64>());
        println!(
            "imported edges: {all}, of them closing: {closing}, on a first ray: {on_ray}, beside a last ray: {beside}"
        );
        let widest: u64 = [Sum::WidestNorth, Sum::WidestEast, Sum::WidestSouth, Sum::WidestWest].map(of).iter().sum();
        println!("edges of class 31 taken as 30: {}; steps of 2^32 - 1: {widest}", of(Sum::Class31));
        let [straight, back] = [Sum::Straight, Sum::Back].map(of);
        println!("edges that go straight on: {straight}, straight back: {back}");
        let [first, middle, closing] = [Sum::FirstPair, Sum::MiddlePair, Sum::ClosingPair].map(of);
        println!("refusals 16 for the first pair: {first}, in the middle: {middle}, for the closing pair: {closing}");
        let [forward, backward, edited] = [Sum::ChainForward, Sum::ChainBackward, Sum::ChainEdited].map(of);
        println!("rings found again after their import: {forward} forward, {backward} backward, {edited} with a vertex moved");
    }

    /// What no case led to: sums that are 0, and codes that never came out.
    pub fn missing(&self) -> Vec<String> {
        let sums = SUMS.iter().zip(self.sums).filter(|(_, sum)| *sum == 0).map(|(name, _)| name.to_string());
        let codes = self.codes.iter().zip(BY_CODE).filter_map(|(counts, (name, first))| {
            let never = (usize::from(first)..CODES).find(|&code| counts[code] == 0)?;
            Some(format!("{name} of code {never}"))
        });
        sums.chain(codes).collect()
    }
}
