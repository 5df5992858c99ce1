//! The kinds of case of the two-way scan.

use super::kinds::kind;
use super::{two_way, two_way_faults, two_way_limits, two_way_places, Kind, Make};
use crate::second::two_way_by_hand;

pub const LONG: &str = "two-way: long rings and lines";

pub static TWO_WAY: &[Kind] = &[
    kind("two-way: by hand, second program", two_way_by_hand::COUNT as u64, Make::Sample(two_way_by_hand::holds)),
    kind("two-way: by hand, library", two_way::LIBRARY_BY_HAND, Make::TwoWay(two_way::by_hand)),
    kind("two-way: limits of ring, line and room", two_way_limits::LIMITS, Make::TwoWay(two_way_limits::limits)),
    kind("two-way: lines of 65,536 edges", two_way_limits::LONGEST, Make::TwoWay(two_way_limits::longest)),
    kind("two-way: every line over two edges and the mark", two_way::EVERY_SMALL, Make::TwoWay(two_way::every_small)),
    kind("two-way: random rings of edges", 6_000, Make::TwoWay(two_way::random)),
    kind("two-way: copies forward, backward and both", 9_000, Make::TwoWay(two_way::planted)),
    kind("two-way: rings that are their own reverse", 3_000, Make::TwoWay(two_way::own_reverse)),
    kind("two-way: periodic rings", 3_000, Make::TwoWay(two_way::periodic)),
    kind("two-way: lines against the look bound", 1_800, Make::TwoWay(two_way::against_bound)),
    kind("two-way: boundaries between marks", 3_000, Make::TwoWay(two_way::boundaries)),
    kind("two-way: each code as a ring of one edge", two_way_places::ONE_EDGE, Make::TwoWay(two_way_places::one_edge)),
    kind("two-way: each code at each of 7 places", two_way_places::EACH_CODE, Make::TwoWay(two_way_places::each_code)),
    kind("two-way: no edge at each place of a ring", two_way_places::NO_EDGES, Make::TwoWay(two_way_places::no_edges)),
    kind("two-way: each place about a copy", two_way_places::ABOUT_COPY, Make::TwoWay(two_way_places::about_copy)),
    kind("two-way: room from one pass to both", 1_500, Make::TwoWay(two_way_limits::rooms)),
    kind("two-way: refusals, one and two", 1_800, Make::TwoWay(two_way_faults::one_and_two)),
    kind("two-way: refusals without a start", 480, Make::TwoWay(two_way_faults::without_start)),
    kind(
        "two-way: 14 with each other refusal",
        two_way_faults::ABOUT_FOURTEEN,
        Make::TwoWay(two_way_faults::about_fourteen),
    ),
    kind(
        "two-way: null pointers for empty slices",
        30 * two_way_places::NULLS,
        Make::NullTwoWay(two_way_places::nulls),
    ),
    kind(LONG, 40, Make::TwoWay(two_way_limits::long)),
];
