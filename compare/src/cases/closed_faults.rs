//! Every refusal of the closed calls alone, and every two at once.

use super::call::{cell_and_ring, closed_room, join_bytes, room, Call, Search};
use super::closed::join_area;
use super::draw::Draw;
use super::faults::{faulty_book, faulty_search, pair, OF_BOOK};

const OF_SEARCH: [u32; 6] = [1, 12, 2, 3, 4, 10];
const OF_REPORT: [u32; 9] = [1, 12, 2, 3, 4, 10, 5, 6, 7];

/// The faulty search of open mode in closed mode. Where 4 is not wanted the room is exact or more, where 10 is not wanted the
/// join area. A ring of one edge cannot be refused by 10.
fn faulty(draw: &mut Draw, faults: [u32; 2]) -> Search {
    let open = faulty_search(draw, faults);
    let (m, n) = (open.ring.len(), open.line.len());
    let (needed, most) = (join_bytes(m), closed_room(m, n));
    let short = needed.saturating_sub(draw.between(1, 3));
    let join = if faults.contains(&10) { draw.one(&[short, needed.saturating_sub(1), m / 2, 0]) } else { needed };
    let more = draw.one(&[0, 0, 1, 30]);
    let length = if join == needed { needed + more } else { join };
    let area = join_area(draw, &open.ring, length);
    let mut search = open.closed(area);
    if faults.contains(&4) {
        // The room of open mode is enough for n = m only if m = 1.
        let of_open = room(m, n).min(most.saturating_sub(1));
        let few = draw.between(1, 8);
        search.room = draw.one(&[most.saturating_sub(1), most.saturating_sub(few), of_open, of_open, 0]);
    }
    search
}

pub fn of_search(index: u64, draw: &mut Draw) -> Call {
    let search = faulty(draw, pair(&OF_SEARCH, index / 2));
    if index % 2 == 0 {
        Call::Survey(search)
    } else {
        Call::Scan(search)
    }
}

pub fn of_report(index: u64, draw: &mut Draw) -> Call {
    let faults = pair(&OF_REPORT, index);
    let search = faulty(draw, faults);
    let (cell, ring_number) = cell_and_ring(draw);
    let book = faulty_book(draw, faults, cell, ring_number);
    Call::Report { cell, ring_number, search, book }
}

/// With a line shorter than the ring the join area may be of any length, and the book is read all the same.
pub fn of_report_without_start(index: u64, draw: &mut Draw) -> Call {
    let faults = pair(&OF_BOOK, index);
    let m = draw.between(2, 256);
    let n = draw.below(m);
    let any = draw.below(2 * m);
    let length = draw.one(&[0, any, join_bytes(m)]);
    let area = join_area(draw, &[1, 2], length);
    let search = Search::new(vec![1; m], vec![1; n], draw.below(m)).closed(area);
    Call::Report { cell: 7, ring_number: 2, search, book: faulty_book(draw, faults, 7, 2) }
}
