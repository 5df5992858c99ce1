//! The kinds of case in closed mode. Many are open cases with their line closed.

use super::kinds::kind;
use super::{books, Call, Draw, Kind, Make};
use super::{bounds, ceilings, closed, closed_faults, closed_limits, closed_places, marks, searches, ties};
use crate::second::by_hand;
use closed::close;

pub const LONG: &str = "closed: long rings and lines";

pub static CLOSED: &[Kind] = &[
    kind("closed: lines by hand, second program", by_hand::COUNT as u64, Make::Sample(by_hand::holds)),
    kind("closed: lines by hand, library, and open", closed::LIBRARY_BY_HAND, Make::Call(closed::by_hand)),
    kind("closed: limits of ring, line, room and join area", closed_limits::LIMITS, Make::Call(closed_limits::limits)),
    kind("closed: lines of 65,536 edges", closed_limits::LONGEST, Make::Three(closed_limits::longest)),
    kind("closed: every line over two letters and the mark", closed::EVERY_SMALL, Make::Call(closed::every_small)),
    kind("closed: copies across the seam", 9_000, Make::Call(closed::across_seam)),
    kind("closed: random rings over 1 to 255 letters", 6_000, Make::Call(random)),
    kind("closed: periodic rings", 4_500, Make::Call(periodic)),
    kind("closed: rings of a part over and over", 600, Make::Call(parts)),
    kind("closed: windows that several rotations share", 600, Make::Call(shared_windows)),
    kind("closed: ring lengths about machine words", 585, Make::Call(about_words)),
    kind("closed: planted rotated copies", 3_000, Make::Call(planted)),
    kind("closed: lines against the look bound", 2_700, Make::Call(against_bound)),
    kind("closed: lines about the ring's length", 2_400, Make::Call(short_lines)),
    kind("closed: boundaries between marks", 3_000, Make::Call(boundaries)),
    kind("closed: marks read after breaks", 1_500, Make::Call(after_breaks)),
    kind("closed: lines of marks alone", 300, Make::Call(alone)),
    kind("closed: a mark at each place about the seam", closed_places::MARKED, Make::Call(closed_places::marked)),
    kind("closed: join areas of each length", closed_places::JOINS, Make::Call(closed_places::joins)),
    kind("closed: room between that of open and closed", 1_500, Make::Call(closed_limits::rooms)),
    kind("closed: refusals of survey and scan, one and two", 2_160, Make::Call(closed_faults::of_search)),
    kind("closed: refusals of the report, one and two", 3_240, Make::Call(closed_faults::of_report)),
    kind("closed: refusals of the report without a start", 450, Make::Call(closed_faults::of_report_without_start)),
    kind("closed: silences at each place", closed_places::SILENCED, Make::Call(closed_places::silenced)),
    kind("closed: silences that hide and that do not", 3_000, Make::Call(hiding)),
    kind("closed: silences that name windows with marks", 1_500, Make::Call(hiding_nothing)),
    kind("closed: silenced copies that an edit makes worse", 600, Make::Two(ceilings::closed_made_worse)),
    kind("closed: null pointers for empty slices", 20 * closed_places::NULLS, Make::NullCall(closed_places::nulls)),
    kind(LONG, 20, Make::Three(closed_limits::long)),
];

/// An open case with its line closed.
macro_rules! closing {
    ($($name:ident: $open:path;)*) => {
        $(fn $name(index: u64, draw: &mut Draw) -> Call {
            let call = $open(index, draw);
            close(draw, call)
        })*
    };
}

closing! {
    random: searches::random;
    periodic: searches::periodic;
    parts: ties::parts;
    shared_windows: ties::shared_windows;
    about_words: searches::about_words;
    planted: searches::planted;
    against_bound: bounds::against_bound;
    short_lines: searches::short_lines;
    boundaries: marks::boundaries;
    after_breaks: marks::after_breaks;
    alone: marks::alone;
    hiding: books::hiding;
    hiding_nothing: books::hiding_nothing;
}
