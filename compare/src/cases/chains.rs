//! Chains: a ring and some boundaries are imported from their vertices, and the two-way scan seeks the ring in the
//! boundaries, which have a mark between them.

use super::call::Search;
use super::draw::Draw;
use super::vertices::{boundary, Vertex};
use super::vertices_laws::elsewhere;
use super::Call;
use crate::second::meaning::MARK;
use crate::second::refusals::FEWEST_VERTICES;

/// What the first boundary is beside the ring, and hence what the scan must find at start 0.
#[derive(Clone, Copy, Debug, PartialEq, Eq)]
pub enum Drawn {
    /// The ring at another place and from another vertex: an exact copy, forward.
    Alike,
    /// The same, the other way round: an exact copy, backward.
    Opposite,
    /// As Alike, with one vertex moved: a copy in which at most two edges differ.
    Edited,
    /// Any other boundary, or the ring at twice its size: nothing is said of it.
    Other,
}

#[derive(Clone, Debug)]
pub struct Chain {
    pub ring: Vec<i32>,
    pub boundaries: Vec<Vec<i32>>,
    pub allowance: usize,
    pub drawn: Drawn,
}

impl Chain {
    /// The ring and the boundaries, each with exactly the room required.
    pub fn imports(&self) -> Vec<Call> {
        let import = |numbers: &Vec<i32>| Call::Import { numbers: numbers.clone(), room: numbers.len() / 2 };
        [&self.ring].into_iter().chain(&self.boundaries).map(import).collect()
    }

    /// The search of what came out of the imports.
    pub fn search(&self, edges: &[Vec<u8>]) -> Search {
        Search::new(edges[0].clone(), edges[1..].join(&MARK), self.allowance).two_way()
    }
}

/// A vertex moved a little, unless it would then equal a neighbour.
fn edited(draw: &mut Draw, mut vertices: Vec<Vertex>) -> Vec<Vertex> {
    let (count, place) = (vertices.len(), draw.below(vertices.len()));
    let by = [0; 2].map(|_| draw.below(7) as i32 - 3);
    let moved = [0, 1].map(|axis| vertices[place][axis].saturating_add(by[axis]));
    let neighbours = [vertices[(place + 1) % count], vertices[(place + count - 1) % count]];
    if !neighbours.contains(&moved) {
        vertices[place] = moved;
    }
    vertices
}

/// The ring as one of the boundaries.
fn drawn_as(draw: &mut Draw, ring: &[Vertex], drawn: Drawn) -> Vec<Vertex> {
    let mut copy = elsewhere(draw, ring);
    copy.rotate_left(draw.below(ring.len()));
    match drawn {
        Drawn::Alike => copy,
        Drawn::Opposite => copy.into_iter().rev().collect(),
        Drawn::Edited => edited(draw, copy),
        Drawn::Other if draw.chance(3) => ring.iter().map(|vertex| vertex.map(|number| 2 * number)).collect(),
        Drawn::Other => {
            let count = draw.between(FEWEST_VERTICES, 80);
            boundary(draw, count, 6)
        }
    }
}

pub fn chain(index: u64, draw: &mut Draw) -> Chain {
    const DRAWN: [Drawn; 4] = [Drawn::Alike, Drawn::Opposite, Drawn::Edited, Drawn::Other];
    let drawn = DRAWN[(index % 4) as usize];
    let count = if draw.chance(40) { 256 } else { draw.between(FEWEST_VERTICES, 40) };
    let bits = draw.one(&[2, 3, 5, 12, 28, 31]);
    let ring = boundary(draw, count, bits);
    let mut boundaries = vec![drawn_as(draw, &ring, drawn).concat()];
    for _ in 0..draw.below(3) {
        let other = draw.one(&DRAWN);
        boundaries.push(drawn_as(draw, &ring, other).concat());
    }
    let (few, least) = (draw.allowance(count), if drawn == Drawn::Edited { 2 } else { 0 });
    Chain { ring: ring.concat(), boundaries, allowance: few.max(least), drawn }
}
