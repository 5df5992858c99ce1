//! The kinds of case of the import of vertices.

use super::kinds::kind;
use super::{chains, vertices, vertices_counts, vertices_laws, vertices_steps, Kind, Make};
use crate::second::vertices_by_hand;

pub static VERTICES: &[Kind] = &[
    kind("vertices: by hand, second program", vertices_by_hand::COUNT as u64, Make::Sample(vertices_by_hand::holds)),
    kind("vertices: by hand, library", vertices::LIBRARY_BY_HAND, Make::Call(vertices::by_hand)),
    kind("vertices: every three and four of a small field", vertices::EVERY_SMALL, Make::Call(vertices::every_small)),
    kind("vertices: each ray and beside it", vertices_steps::ABOUT_RAYS, Make::Call(vertices_steps::about_rays)),
    kind("vertices: numbers at the ends and far apart", 6_000, Make::Call(vertices_steps::far)),
    kind("vertices: boundaries of every size", 8_000, Make::Call(vertices::random)),
    kind("vertices: all on one line", 2_000, Make::Call(vertices::collinear)),
    kind("vertices: counts of numbers", vertices_counts::EACH_COUNT, Make::Call(vertices_counts::each_count)),
    kind("vertices: equal neighbours at each place", vertices_counts::EQUAL, Make::Call(vertices_counts::equal)),
    kind("vertices: equal neighbours of 4,096", 60, Make::Call(vertices_counts::equal_of_most)),
    kind("vertices: neighbours that are nearly equal", 3_000, Make::Call(vertices_counts::nearly_equal)),
    kind("vertices: room", 2_000, Make::Call(vertices_counts::rooms)),
    kind("vertices: refusals, one and two", 1_800, Make::Call(vertices_counts::one_and_two)),
    kind(
        "vertices: null pointers for empty slices",
        30 * vertices_counts::NULLS,
        Make::NullCall(vertices_counts::nulls),
    ),
    kind("vertices: an outline at another place", 2_500, Make::Two(vertices_laws::moved)),
    kind("vertices: from another vertex", 2_500, Make::Two(vertices_laws::from_another_vertex)),
    kind("vertices: in opposite order", 2_500, Make::Two(vertices_laws::opposite)),
    kind("vertices: turned by a quarter", 1_500, Make::Two(vertices_laws::quarter)),
    kind("vertices: twice the size", 1_500, Make::Two(vertices_laws::doubled)),
    kind("vertices: imported and scanned two ways", 2_000, Make::Chain(chains::chain)),
];
