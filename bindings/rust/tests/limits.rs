//! Every limit and one more, and the rooms: exact, and one less.

mod common;

use common::{SEARCHES, field, old_field, refused};
use outlines::*;

#[test]
fn limits_fit_one_another() {
    assert_eq!(MOST_SILENCES * SILENCE_BYTES, MOST_BOOK);
    assert_eq!(MOST_RECORDS, MOST_BOOK / old_field(0).len());
    assert_eq!(SILENCE_BYTES, field(0, 0).len());
    assert_eq!((MOST_RING_NUMBER, MOST_CEILING), (u16::MAX, u16::MAX));
    assert_eq!(SILENCE_WORDS, <[u32; 4]>::from(Silence { cell: 0, ring_number: 0, start: 0, ceiling: 0 }).len());
}

#[test]
fn edges_of_a_ring() {
    let line = [1; 300];
    for searching in &SEARCHES {
        let given = |m: usize| searching.refused(Search { ring: &line[..m], line: &line, allowance: 0 });
        assert_eq!([given(1), given(MOST_RING)], [None; 2], "{}", searching.name);
        assert_eq!([given(0), given(MOST_RING + 1)], [Some(refused(Refusal::RingLength, 0)); 2], "{}", searching.name);
    }
}

#[test]
fn bytes_of_a_line() {
    let bytes = vec![1; MOST_LINE + 1];
    for searching in &SEARCHES {
        let given = |n: usize| searching.refused(Search { ring: b"ab", line: &bytes[..n], allowance: 0 });
        assert_eq!([given(0), given(MOST_LINE)], [None; 2], "{}", searching.name);
        assert_eq!(given(MOST_LINE + 1), Some(refused(Refusal::LineLength, 0)), "{}", searching.name);
    }
}

#[test]
fn longest_ring_in_the_longest_line() {
    let line: Vec<u8> = (0..MOST_LINE).map(|place| (place % 240) as u8).collect();
    for searching in &SEARCHES {
        let given = searching.refused(Search { ring: &line[..MOST_RING], line: &line, allowance: MOST_RING - 1 });
        assert_eq!(given, None, "{}", searching.name);
    }
}

#[test]
fn allowance_below_the_edges() {
    for searching in &SEARCHES {
        let given = |allowance| searching.refused(Search { ring: b"abc", line: b"abcabc", allowance });
        assert_eq!(given(2), None, "{}", searching.name);
        assert_eq!(given(3), Some(refused(Refusal::Allowance, 0)), "{}", searching.name);
    }
}

#[test]
fn codes_of_a_ring() {
    let [others @ .., two_way] = &SEARCHES;
    let search = |ring| Search { ring, line: b"abc", allowance: 0 };
    for searching in others {
        assert_eq!(searching.refused(search(&[MARK - 1])), None, "{}", searching.name);
        assert_eq!(searching.refused(search(&[MARK])), Some(refused(Refusal::MarkInRing, 0)), "{}", searching.name);
    }
    assert_eq!(two_way.refused(search(&[MOST_CODE])), None);
    assert_eq!(two_way.refused(search(&[MOST_CODE + 1])), Some(refused(Refusal::CodeInRing, 0)));
    assert_eq!(two_way.refused(search(&[MARK])), Some(refused(Refusal::MarkInRing, 0)));
}

/// m and n, then the words of an open line, of a closed line and of a two-way scan, and the bytes of the join area.
const ROOMS: [[usize; 6]; 11] = [
    [1, 0, 0, 0, 0, 0],
    [1, 1, 4, 4, 8, 0],
    [2, 1, 0, 0, 0, 0],
    [2, 3, 8, 12, 16, 2],
    [7, 27, 84, 108, 168, 12],
    [256, 255, 0, 0, 0, 0],
    [256, 256, 4, 1_024, 8, 510],
    [1, 65_536, 262_144, 262_144, 524_288, 0],
    [256, 65_536, 261_124, 262_144, 522_248, 510],
    // Refused, whatever is lent: a line too long, and a ring without edges.
    [1, 65_537, 0, 0, 0, 0],
    [0, 5, 24, 20, 48, 0],
];

#[test]
fn rooms_are_those_of_the_header() {
    let bytes = vec![1; MOST_LINE + 1];
    for [m, n, open, closed, two_way, join] in ROOMS {
        let search = Search { ring: &bytes[..m], line: &bytes[..n], allowance: 0 };
        let rooms = [search.room(), search.room_closed(), search.room_two_way(), search.room_join()];
        assert_eq!(rooms, [open, closed, two_way, join], "m {m}, n {n}");
    }
    // Neither a ring nor a line of any length makes a room wrap.
    let long = vec![0; 1 << 20];
    let search = |ring, line| Search { ring, line, allowance: 0 };
    assert_eq!(search(&long, &bytes).room(), 0);
    assert_eq!(search(&long, &long).room_join(), 0);
    assert_eq!(search(&long[..60_000], &bytes[..MOST_LINE]).room_join(), 119_998);
    assert_eq!(search(&long[..0], &bytes[..0]).room_join(), 0);
}

#[test]
fn rooms_are_exact() {
    let line = [1; 300];
    for searching in &SEARCHES {
        for (m, n) in [(1, 1), (1, 9), (2, 2), (3, 7), (64, 100), (65, 300), (256, 256), (256, 300)] {
            let search = Search { ring: &line[..m], line: &line[..n], allowance: m / 2 };
            let (join, words) = ((searching.room_join)(&search), (searching.room)(&search));
            let given = |join, words| searching.refused_with(search, &[], join, words);
            let name = format!("{}, m {m}, n {n}", searching.name);
            assert_eq!([given(join, words), given(join + 1, words + 1)], [None; 2], "{name}");
            assert_eq!(given(join, words - 1), Some(refused(Refusal::RoomForFindings, 0)), "{name}");
            if join > 0 {
                assert_eq!(given(join - 1, words), Some(refused(Refusal::RoomForOutput, 0)), "{name}");
            }
        }
    }
}

#[test]
fn no_room_is_needed_where_the_line_is_shorter_than_the_ring() {
    for searching in &SEARCHES {
        let search = Search { ring: b"abc", line: b"ab", allowance: 0 };
        assert_eq!(searching.refused_with(search, &[], 0, 0), None, "{}", searching.name);
    }
}

#[test]
fn bytes_of_a_book() {
    let search = Search { ring: b"abc", line: b"zabcz", allowance: 0 };
    let mut words = vec![0; SILENCE_WORDS * MOST_RECORDS];
    let longest: Vec<u8> = (0..MOST_SILENCES as u32).flat_map(|start| field(start, 0)).collect();
    let most: Vec<u8> = (0..MOST_RECORDS as u32).flat_map(old_field).collect();
    // As many, with five of tag 22 among them.
    let mixed = [&most[..13 * 1_148], &(1_148..1_153).flat_map(|start| field(start, 0)).collect::<Vec<u8>>()].concat();
    assert_eq!((longest.len(), most.len(), mixed.len()), (MOST_BOOK, 14_989, 14_999));
    for (book, records) in [(&longest, MOST_SILENCES), (&most, MOST_RECORDS), (&mixed, MOST_RECORDS)] {
        assert_eq!(unpack(book, &mut words).map(|counts| counts.found), Ok(records as u64));
        assert_eq!(report(7, 2, search, book, &mut words).map(|counts| counts.hidden), Ok(1));
    }
    let one_more = [&most[..], &old_field(MOST_RECORDS as u32)].concat();
    for book in [[&longest[..], &[0]].concat(), one_more] {
        assert_eq!(unpack(&book, &mut words), Err(refused(Refusal::BookLength, 0)));
        assert_eq!(report(7, 2, search, &book, &mut words), Err(refused(Refusal::BookLength, 0)));
    }
}

#[test]
fn silences_to_pack() {
    let words = |count: usize| -> Vec<u32> { (0..count as u32).flat_map(|start| [7, 2, start, 0]).collect() };
    let mut book = vec![0; MOST_BOOK + SILENCE_BYTES];
    assert_eq!(pack(&words(MOST_SILENCES), &mut book).map(|counts| counts.found), Ok(1_000));
    assert_eq!(pack(&words(MOST_SILENCES + 1), &mut book), Err(refused(Refusal::WordsToPack, 0)));
    assert_eq!(pack(&[], &mut []).map(|counts| counts.found), Ok(0));
}

#[test]
fn numbers_to_pack() {
    let mut book = [0; SILENCE_BYTES];
    let (ring_number, ceiling) = (u32::from(MOST_RING_NUMBER), u32::from(MOST_CEILING));
    assert!(pack(&[u32::MAX, ring_number, u32::MAX, ceiling], &mut book).is_ok());
    assert_eq!(pack(&[0, ring_number + 1, 0, 0], &mut book), Err(refused(Refusal::NumberToPack, 0)));
    assert_eq!(pack(&[0, 0, 0, ceiling + 1], &mut book), Err(refused(Refusal::NumberToPack, 0)));
}

#[test]
fn room_for_books_and_edges_is_exact() {
    let words = [7, 2, 1, 0, 7, 2, 2, 0];
    let packed = |room: usize| pack(&words, &mut vec![0; room]).err();
    assert_eq!(
        [packed(2 * SILENCE_BYTES - 1), packed(2 * SILENCE_BYTES)],
        [Some(refused(Refusal::RoomForOutput, 0)), None]
    );

    let book = [old_field(1), field(2, 0)].concat();
    let unpacked = |room: usize| unpack(&book, &mut vec![0; room]).err();
    let needed = 2 * SILENCE_WORDS;
    assert_eq!([unpacked(needed - 1), unpacked(needed)], [Some(refused(Refusal::RoomForOutput, 0)), None]);

    let imported = |room: usize| import_vertices(&[0, 0, 5, 0, 5, -3], &mut vec![0; room]).err();
    assert_eq!([imported(2), imported(3)], [Some(refused(Refusal::RoomForOutput, 0)), None]);
}

#[test]
fn vertices_of_a_boundary() {
    let numbers: Vec<i32> = (0..=MOST_VERTICES as i32).flat_map(|vertex| [vertex, vertex * vertex]).collect();
    let mut edges = vec![0; MOST_VERTICES + 1];
    let mut imported =
        |vertices: usize| import_vertices(&numbers[..2 * vertices], &mut edges).map(|counts| counts.found);
    assert_eq!(imported(FEWEST_VERTICES), Ok(FEWEST_VERTICES as u64));
    assert_eq!(imported(MOST_VERTICES), Ok(MOST_VERTICES as u64));
    assert_eq!(imported(FEWEST_VERTICES - 1), Err(refused(Refusal::VertexCount, 0)));
    assert_eq!(imported(MOST_VERTICES + 1), Err(refused(Refusal::VertexCount, 0)));
}
