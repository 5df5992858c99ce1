//! The comparison: the library and the program on one side, the second program on the other.

pub mod areas;
mod bonds;
mod book_ledger;
pub mod calls;
mod chains;
mod closed_ledger;
pub mod compared;
pub mod crash;
pub mod ledger;
mod misread;
pub mod program;
pub mod run;
pub mod spoil;
mod spoil_books;
mod spoil_closed;
mod spoil_marks;
mod spoil_two_way;
mod spoil_two_way_refusals;
mod spoil_vertices;
mod spoil_vertices_refusals;
pub mod trial;
mod trips;
pub mod two_way;
mod two_way_ledger;
mod vertices_ledger;
