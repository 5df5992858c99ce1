//! The kinds of case and how many there are of each.

use super::call::{in_turn, Call, Search};
use super::draw::Draw;
use super::{
    books, bounds, ceilings, closed_kinds, closed_limits, faults, input_faults, inputs, long, mark_places, marks, nulls,
};
use super::{packing, searches, ties, two_way_kinds, two_way_limits, Kind, Make};
use crate::second::ceilings_by_hand;
use crate::second::samples::{self, silenced, Sample, SAMPLES, SILENCED};

pub static CALLS: &[Kind] = &[
    kind("samples printed in document 01, second program", samples::COUNT as u64, Make::Sample(samples::holds)),
    kind("samples printed in document 01, library", LIBRARY_SAMPLES, Make::Call(sample)),
    kind("limits that document 01 names", bounds::LIMITS, Make::Call(bounds::limits)),
    kind("lines of 65,535 to 65,537 edges", 72, Make::Call(searches::longest_lines)),
    kind("every ring and line over two letters, every k", searches::EVERY_SMALL, Make::Call(searches::every_small)),
    kind(
        "every line over two letters and the mark, every k",
        mark_places::EVERY_SMALL,
        Make::Call(mark_places::every_small),
    ),
    kind("random rings over 1 to 255 letters", 15_000, Make::Call(searches::random)),
    kind("periodic rings", 9_000, Make::Call(searches::periodic)),
    kind("rings of a part over and over, up to 256 edges", 1_500, Make::Call(ties::parts)),
    kind("windows that several rotations share", 1_500, Make::Call(ties::shared_windows)),
    kind("ring lengths about machine words", 1_170, Make::Call(searches::about_words)),
    kind("planted rotated copies", 15_000, Make::Call(searches::planted)),
    kind("lines against the look bound", 5_400, Make::Call(bounds::against_bound)),
    kind("lines about the ring's length", 3_000, Make::Call(searches::short_lines)),
    kind("boundaries between marks", 9_000, Make::Call(marks::boundaries)),
    kind("marks read after breaks, and last of a window", 4_500, Make::Call(marks::after_breaks)),
    kind("lines of marks alone", 600, Make::Call(marks::alone)),
    kind("a mark at each place about a copy", mark_places::ABOUT_COPY, Make::Call(mark_places::about_copy)),
    kind("a mark at each place of a ring", mark_places::OF_RINGS, Make::Call(mark_places::of_rings)),
    kind("marks in the longest lines", mark_places::LIMITS, Make::Call(mark_places::limits)),
    kind("refusals of survey and scan, one and two", 2_500, Make::Call(faults::of_search)),
    kind("refusals of the report, one and two", 3_200, Make::Call(faults::of_report)),
    kind("refusals of the report without a start", 450, Make::Call(faults::of_report_without_start)),
    kind("refusals of the unpacker, one and two", 1_600, Make::Call(faults::of_unpack)),
    kind("refusals of the packer, one and two", 3_200, Make::Call(faults::of_pack)),
    kind("books damaged at each byte", books::DAMAGED, Make::Call(books::damaged)),
    kind("books cut at each length", books::CUT, Make::Call(books::cut)),
    kind("whole books", 2_000, Make::Call(books::whole)),
    kind("silences that hide and that do not", 8_000, Make::Call(books::hiding)),
    kind("silences that name windows with marks", 3_000, Make::Call(books::hiding_nothing)),
    kind("ceilings by hand, second program", ceilings_by_hand::COUNT as u64, Make::Sample(ceilings_by_hand::holds)),
    kind("ceilings by hand, library", ceilings::LIBRARY_BY_HAND, Make::Call(ceilings::by_hand)),
    kind("ceilings about each distance", ceilings::EACH_DISTANCE, Make::Call(ceilings::each_distance)),
    kind("one address twice", ceilings::ONE_ADDRESS, Make::Call(ceilings::one_address)),
    kind("fields of each tag and length", ceilings::HEADERS, Make::Call(ceilings::headers)),
    kind("silences under either tag", 600, Make::Two(ceilings::either_tag)),
    kind("silenced copies that an edit makes worse", 600, Make::Two(ceilings::made_worse)),
    kind("words to pack", 6_000, Make::Call(packing::packing)),
    kind("null pointers for empty slices", 30 * nulls::CHOICES, Make::NullCall(nulls::each_choice)),
    kind("round trips of pack and unpack", 1_500, Make::RoundTrip(packing::round_trip)),
    kind("round trips of whole books", 500, Make::BookTrip(ceilings::book_trip)),
    kind("long rings and lines", 200, Make::Three(long::long)),
];

pub static LONG: &[Kind] = &[
    kind("long rings and lines", 20_000, Make::Three(long::long)),
    kind(closed_kinds::LONG, 2_000, Make::Three(closed_limits::long)),
    kind(two_way_kinds::LONG, 2_000, Make::TwoWay(two_way_limits::long)),
];

pub static INPUTS: &[Kind] = &[
    kind("inputs: right ones", 4_000, Make::Input(inputs::right)),
    kind("inputs: every allowance", inputs::ALLOWANCES, Make::Input(inputs::allowances)),
    kind("inputs: the example, whole, changed and cut", inputs::EXAMPLES, Make::Input(inputs::example)),
    kind("inputs: ring and line lengths", inputs::LENGTHS, Make::Input(inputs::lengths)),
    kind(
        "inputs: faults of the five fields",
        100 * input_faults::FIELD_FAULTS,
        Make::Input(input_faults::field_faults),
    ),
    kind("inputs: books good and damaged", 1_440, Make::Input(input_faults::books)),
    kind("inputs: refusals, one and two", 1_470, Make::Input(input_faults::pairs)),
    kind("inputs: about 32,768 bytes and longer", inputs::LONG, Make::Input(inputs::long)),
    kind("inputs: written in pieces", 600, Make::Input(inputs::pieces)),
    kind("inputs: none, descriptor 0 closed or a folder", 60, Make::Input(inputs::none)),
];

pub const fn kind(name: &'static str, count: u64, make: Make) -> Kind {
    Kind { name, count, make }
}

const SEARCHES: u64 = 3 * SAMPLES.len() as u64;
const LIBRARY_SAMPLES: u64 = SEARCHES + SILENCED as u64;

/// P1 to P12 as survey, scan and report; then P2 with its silence, under each tag.
fn sample(index: u64, draw: &mut Draw) -> Call {
    let search = |sample: &Sample| {
        let (ring, line) = (sample.ring.as_bytes().to_vec(), sample.line.as_bytes().to_vec());
        Search::new(ring, line, sample.allowance)
    };
    if index < SEARCHES {
        return in_turn(index, draw, search(&SAMPLES[(index / 3) as usize]));
    }
    let (book, cell) = silenced((index - SEARCHES) as usize);
    Call::Report { cell, ring_number: 2, search: search(&SAMPLES[1]), book }
}
