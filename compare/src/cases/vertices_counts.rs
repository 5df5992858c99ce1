//! Boundaries to import that may be refused: counts of numbers, equal neighbours, room, and every two faults at once.

use super::call::Call;
use super::draw::Draw;
use super::faults::pair;
use super::mark_places::{places, ring_and_place};
use super::vertices::{boundary, lent, vertex, Vertex};
use crate::second::refusals::{FEWEST_VERTICES, MOST_VERTICES};

/// Counts of numbers beside those up to 20: about 4,096 numbers, 4,096 vertices, 65,536 numbers and 65,536 vertices.
const COUNTS: [usize; 21] = [
    4_095, 4_096, 4_097, 8_189, 8_190, 8_191, 8_192, 8_193, 8_194, 8_195, 8_196, 10_000, 16_384, 65_536, 65_542,
    65_543, 131_072, 131_076, 131_078, 131_079, 131_080,
];
const SMALL_COUNTS: usize = 21;
const CONTENTS: u64 = 3;
const ROOMS: u64 = 3;
pub const EACH_COUNT: u64 = (SMALL_COUNTS + COUNTS.len()) as u64 * CONTENTS * ROOMS;

/// Each of these counts of numbers: without equal neighbours, with two of them equal, and all of them 0; with no room,
/// exactly the room required, and more.
pub fn each_count(index: u64, draw: &mut Draw) -> Call {
    let (room, content, which) = (index % ROOMS, index / ROOMS % CONTENTS, (index / ROOMS / CONTENTS) as usize);
    let count = if which < SMALL_COUNTS { which } else { COUNTS[which - SMALL_COUNTS] };
    let vertices = count.div_ceil(2);
    let bits = draw.between(2, 32);
    let mut boundary = if vertices < FEWEST_VERTICES {
        (0..vertices).map(|_| vertex(draw, bits)).collect()
    } else {
        boundary(draw, vertices, bits)
    };
    match content {
        1 if vertices > 0 => {
            let place = draw.below(vertices);
            make_equal(&mut boundary, place);
        }
        2 => boundary.fill([0; 2]),
        _ => {}
    }
    let mut numbers = boundary.concat();
    numbers.truncate(count);
    Call::Import { numbers, room: [0, count / 2, count / 2 + draw.between(1, 70)][room as usize] }
}

/// Makes the vertex behind this one equal to it; the first one is behind the last.
fn make_equal(vertices: &mut [Vertex], place: usize) {
    let next = (place + 1) % vertices.len();
    vertices[next] = vertices[place];
}

const SIZES: [usize; 7] = [3, 4, 5, 7, 12, 64, 100];
const PLACES: u64 = places(&SIZES, 1);
const SHAPES: u64 = 5;
pub const EQUAL: u64 = 4 * SHAPES * PLACES;

/// Equal neighbours at each place: alone; with another pair at any place; with the closing pair; three in a row; with the first
/// pair. In one case of four there is too little room as well.
pub fn equal(index: u64, draw: &mut Draw) -> Call {
    let (count, place) = ring_and_place(&SIZES, 1, index / SHAPES % PLACES);
    let bits = draw.between(2, 32);
    let mut vertices = boundary(draw, count, bits);
    make_equal(&mut vertices, place);
    match index % SHAPES {
        1 => make_equal(&mut vertices, draw.below(count)),
        2 => make_equal(&mut vertices, count - 1),
        3 => make_equal(&mut vertices, (place + 1) % count),
        4 => make_equal(&mut vertices, 0),
        _ => {}
    }
    let room = if draw.chance(4) { draw.below(count) } else { count };
    Call::Import { numbers: vertices.concat(), room }
}

/// Equal neighbours of 4,096 vertices: the first pair, the closing pair, any one, two, or none.
pub fn equal_of_most(index: u64, draw: &mut Draw) -> Call {
    let mut vertices = boundary(draw, MOST_VERTICES, 32);
    let any = draw.below(MOST_VERTICES);
    let equal = match index % 5 {
        0 => vec![0],
        1 => vec![MOST_VERTICES - 1],
        2 => vec![any],
        3 => vec![any, MOST_VERTICES - 1],
        _ => Vec::new(),
    };
    equal.into_iter().for_each(|place| make_equal(&mut vertices, place));
    lent(draw, &vertices)
}

/// Neighbours that are nearly equal, which is no fault: they share north, or east, or have the two exchanged, or one's east
/// is the next one's north; or a vertex stands again, with others between.
pub fn nearly_equal(index: u64, draw: &mut Draw) -> Call {
    let (count, bits) = (draw.between(FEWEST_VERTICES, 9), draw.between(2, 32));
    let mut vertices = boundary(draw, count, bits);
    let place = draw.below(count);
    let (next, behind) = ((place + 1) % count, (place + 2) % count);
    let [north, east] = vertices[place];
    let other = vertices[next];
    match index % 5 {
        0 => vertices[next] = [north, other[1]],
        1 => vertices[next] = [other[0], east],
        2 => vertices[next] = [east, north],
        3 => vertices[next] = [east, other[1]],
        _ => vertices[behind] = [north, east],
    }
    lent(draw, &vertices)
}

/// Room: none, a byte, half, a byte short, exact, a byte more, a byte for each number, and much more; in one case of 25 above
/// 65,536.
pub fn rooms(index: u64, draw: &mut Draw) -> Call {
    let count = if index % 100 == 99 { MOST_VERTICES } else { draw.between(FEWEST_VERTICES, 40) };
    let bits = draw.between(2, 32);
    let numbers = boundary(draw, count, bits).concat();
    let (few, wide) = (draw.between(0, count), 65_536 + draw.below(count));
    let room = draw.one(&[0, 1, few, count / 2, count - 1, count - 1, count, count + 1, 2 * count, 2 * count + 200]);
    Call::Import { numbers, room: if index % 25 == 0 { wide } else { room } }
}

const OF_IMPORT: [u32; 3] = [15, 16, 10];

/// Each refusal alone, and every two at once.
pub fn one_and_two(index: u64, draw: &mut Draw) -> Call {
    let faults = pair(&OF_IMPORT, index);
    let has = |number: u32| faults.contains(&number);
    let (few, many) = (draw.between(1, 2), draw.between(MOST_VERTICES + 1, MOST_VERTICES + 9));
    let (right, odd) = (draw.between(FEWEST_VERTICES, 30), draw.below(3));
    let count = if has(15) && odd > 0 { draw.one(&[few, few, few, many]) } else { right };
    let mut vertices = if count < FEWEST_VERTICES { vec![[1, 2], [3, 4]] } else { boundary(draw, count, 32) };
    if has(16) {
        make_equal(&mut vertices, draw.below(count));
    }
    vertices.truncate(count);
    let mut numbers = vertices.concat();
    if has(15) && odd == 0 {
        // A number too many, or one too few.
        let all = numbers.len();
        numbers.resize(draw.one(&[all - 1, all + 1]), numbers[0]);
    }
    let short = draw.one(&[0, 1, 2, count - 1]).min(count - 1);
    Call::Import { numbers, room: if has(10) { short } else { count + draw.below(3) } }
}

/// Each choice of numbers and room empty.
pub const NULLS: u64 = 4;

/// An empty slice is passed as a null pointer.
pub fn nulls(index: u64, draw: &mut Draw) -> Call {
    let count = draw.between(1, 9);
    let vertices = if index & 1 == 1 || count < FEWEST_VERTICES { Vec::new() } else { boundary(draw, count, 32) };
    Call::Import { numbers: vertices.concat(), room: if index & 2 == 2 { 0 } else { count } }
}
