//! The lines of imported vertices, and of a scan of what was imported. The samples import the ring and the line of such a scan
//! before it.

use super::given::{how_many, vertices};
use super::lines::{line, room};
use super::table::Row;
use super::two_way;
use crate::second::vertices::import;

pub fn imported(row: &Row) -> String {
    let numbers = vertices(row.text("numbers"));
    let outcome = import(&numbers[..how_many(row, numbers.len())], room(row));
    line(outcome, 1, |answered| format!(" edges {}", answered.found))
}

/// The edges of a list of vertices that is imported without refusal.
fn edges(row: &Row, name: &str) -> Vec<u8> {
    let imported = import(&vertices(row.text(name)), usize::MAX);
    imported.unwrap_or_else(|refused| panic!("the {name} is refused: {refused:?}")).written
}

pub fn scanned(row: &Row) -> String {
    two_way::scan(&edges(row, "ring"), &edges(row, "line"), row)
}
