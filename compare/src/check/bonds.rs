//! What must hold between the answers of two reports, or of two imports.

use super::areas::Areas;
use super::calls::compare;
use super::compared::{Compared, Judged, Left};
use crate::cases::{Bond, Bound, Call};
use crate::memory::Placement;
use crate::second::meaning::FINDING_WORDS;
use crate::second::reversed::{reversed, CLASSES, OCTANTS};

/// The starts of the findings that the library's report shows.
fn shown(call: &Call, compared: &Compared) -> Vec<u32> {
    let words = &compared.given.lent.words;
    (0..compared.given.shown(call)).map(|finding| words.word(FINDING_WORDS * finding)).collect()
}

/// The edges that an import wrote; a refused one wrote none.
pub fn edges(given: &Left) -> &[u8] {
    let area = &given.lent.words;
    &area.bytes[area.front..][..given.answer.found as usize]
}

/// The same edges from one of them on.
fn from(first: usize, edges: &[u8]) -> Vec<u8> {
    edges.iter().copied().cycle().skip(first).take(edges.len()).collect()
}

/// The edges that the second import must have, by those of the first.
fn due(bond: Bond, edges: &[u8]) -> Option<Vec<u8>> {
    let each =
        |code: fn(u8, u8) -> u8| -> Vec<u8> { edges.iter().map(|edge| code(edge / OCTANTS, edge % OCTANTS)).collect() };
    match bond {
        Bond::Same | Bond::ShownAgain(_) => None,
        Bond::From(first) => Some(from(first, edges)),
        Bond::Opposite => Some(from(1, &reversed(edges))),
        Bond::Quarter => Some(each(|class, octant| OCTANTS * class + (octant + 2) % OCTANTS)),
        Bond::Doubled => Some(each(|class, octant| OCTANTS * (class + 1).min(CLASSES - 1) + octant)),
    }
}

/// How the answers break their bond, if they do.
fn unbound(bond: Bond, calls: &[Call; 2], compared: &[Compared; 2]) -> Option<String> {
    let [first, second] = compared.each_ref().map(|compared| &compared.given);
    let wrong = match bond {
        Bond::Same if first.answer != second.answer || first.lent.words != second.lent.words => {
            "the two answers differ".to_string()
        }
        Bond::ShownAgain(start) if shown(&calls[0], &compared[0]).contains(&start) => {
            format!("start {start} is shown before the edit")
        }
        Bond::ShownAgain(start) if !shown(&calls[1], &compared[1]).contains(&start) => {
            format!("start {start} is not shown after the edit")
        }
        _ => {
            let due = due(bond, edges(first))?;
            let place = (0..due.len()).find(|&place| edges(second).get(place) != Some(&due[place]))?;
            format!("edge {place} of the second import is not {}, which the first one's edges lead to", due[place])
        }
    };
    Some(wrong)
}

impl Judged<Bound> for [Compared; 2] {
    fn difference(&self, (calls, bond): &Bound) -> Option<String> {
        let each = calls.iter().zip(self).find_map(|(call, compared)| compared.difference(call));
        each.or_else(|| unbound(*bond, calls, self))
    }
}

pub fn compare_two(calls: &[Call; 2], placement: Placement, areas: &mut Areas) -> [Compared; 2] {
    calls.each_ref().map(|call| compare(call, placement, areas))
}
