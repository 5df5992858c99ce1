//! Every refusal that a call can give, provoked by name: its place, its order among the others, and that lent areas keep their values.
//! Then the texts of refusals and their use as errors.

mod common;

use common::{SEARCHES, field, kept, old_field, refused, watched};
use outlines::raw::{Answer, TwoWay};
use outlines::*;
use std::error::Error;

const GOOD: Search = Search { ring: b"abc", line: b"zzabczz", allowance: 1 };

/// Every searching call refuses this search so, with room enough. The place is 0.
fn every_search_refuses(search: Search, refusal: Refusal) {
    for searching in &SEARCHES {
        assert_eq!(searching.refused(search), Some(refused(refusal, 0)), "{}", searching.name);
    }
}

/// The reports and unpack refuse this book so.
fn every_reader_refuses(book: &[u8], refusal: Refusal, place: u32) {
    for searching in SEARCHES.iter().filter(|searching| searching.name.starts_with("report")) {
        let given = searching.refused_with(GOOD, book, 100, 100);
        assert_eq!(given, Some(refused(refusal, place)), "{}", searching.name);
    }
    let mut words = watched(4_612);
    assert_eq!(unpack(book, &mut words), Err(refused(refusal, place)));
    assert!(kept(&words));
}

fn pack_refuses(words: &[u32], room: usize, refusal: Refusal, place: u32) {
    let mut bytes = watched(room);
    assert_eq!(pack(words, &mut bytes), Err(refused(refusal, place)));
    assert!(kept(&bytes));
}

fn import_refuses(numbers: &[i32], room: usize, refusal: Refusal, place: u32) {
    let mut edges = watched(room);
    assert_eq!(import_vertices(numbers, &mut edges), Err(refused(refusal, place)));
    assert!(kept(&edges));
}

#[test]
fn ring_without_edges_or_with_too_many() {
    every_search_refuses(Search { ring: b"", ..GOOD }, Refusal::RingLength);
    every_search_refuses(Search { ring: &[1; 257], ..GOOD }, Refusal::RingLength);
}

#[test]
fn allowance_of_all_edges() {
    every_search_refuses(Search { allowance: 3, ..GOOD }, Refusal::Allowance);
    every_search_refuses(Search { allowance: usize::MAX, ..GOOD }, Refusal::Allowance);
}

#[test]
fn line_too_long() {
    every_search_refuses(Search { line: &[0; 65_537], ..GOOD }, Refusal::LineLength);
}

#[test]
fn words_too_few() {
    for searching in &SEARCHES {
        let given = searching.refused_with(GOOD, &[], 4, (searching.room)(&GOOD) - 1);
        assert_eq!(given, Some(refused(Refusal::RoomForFindings, 0)), "{}", searching.name);
    }
}

#[test]
fn book_too_long() {
    every_reader_refuses(&[0; 15_001], Refusal::BookLength, 0);
}

#[test]
fn field_malformed_or_cut_off() {
    let good = field(1, 0);
    every_reader_refuses(b"!", Refusal::Field, 0);
    every_reader_refuses(&good[..14], Refusal::Field, 0);
    every_reader_refuses(&[&good[..], &[0x23]].concat(), Refusal::Field, 15);
    every_reader_refuses(&[&old_field(1)[..], &good[..3]].concat(), Refusal::Field, 13);
    // Tag 22 with the length of tag 21.
    every_reader_refuses(&[&[0x22, 0x00, 0x0A][..], &good[3..]].concat(), Refusal::Field, 0);
}

#[test]
fn records_out_of_order() {
    every_reader_refuses(&[field(1, 0), field(1, 5)].concat(), Refusal::Order, 15);
    every_reader_refuses(&[old_field(1), field(2, 0), field(0, 0)].concat(), Refusal::Order, 28);
    pack_refuses(&[7, 2, 1, 0, 7, 2, 1, 9], 30, Refusal::Order, 1);
    pack_refuses(&[7, 2, 1, 0, 7, 3, 0, 0, 7, 2, 9, 0], 45, Refusal::Order, 2);
}

#[test]
fn words_to_pack_that_are_no_records() {
    pack_refuses(&[7, 2, 1], 15, Refusal::WordsToPack, 0);
    pack_refuses(&[0; 4_004], 15_015, Refusal::WordsToPack, 0);
}

#[test]
fn numbers_to_pack_that_are_too_large() {
    pack_refuses(&[7, 2, 1, 0, 7, 65_536, 2, 0], 30, Refusal::NumberToPack, 1);
    pack_refuses(&[7, 2, 1, 65_536], 15, Refusal::NumberToPack, 0);
}

#[test]
fn output_without_room() {
    pack_refuses(&[7, 2, 1, 0], 14, Refusal::RoomForOutput, 0);
    import_refuses(&[0, 0, 5, 0, 5, -3], 2, Refusal::RoomForOutput, 0);
    let mut words = watched(3);
    assert_eq!(unpack(&field(1, 0), &mut words), Err(refused(Refusal::RoomForOutput, 0)));
    assert!(kept(&words));
    for searching in SEARCHES.iter().filter(|searching| searching.name.ends_with("closed")) {
        let given = searching.refused_with(GOOD, &[], 3, 100);
        assert_eq!(given, Some(refused(Refusal::RoomForOutput, 0)), "{}", searching.name);
    }
}

#[test]
fn mark_in_the_ring() {
    every_search_refuses(Search { ring: &[1, 2, MARK], ..GOOD }, Refusal::MarkInRing);
}

#[test]
fn code_in_the_ring_that_has_no_direction() {
    let [.., two_way] = &SEARCHES;
    for (ring, place) in [([248, 0, 254], 0), ([0, 250, 248], 1), ([0, 1, 254], 2)] {
        assert_eq!(two_way.refused(Search { ring: &ring, ..GOOD }), Some(refused(Refusal::CodeInRing, place)));
    }
}

#[test]
fn vertices_too_few_too_many_or_half() {
    import_refuses(&[], 0, Refusal::VertexCount, 0);
    import_refuses(&[0, 0, 5, 0], 4, Refusal::VertexCount, 0);
    import_refuses(&[0, 0, 5, 0, 5, -3, 1], 4, Refusal::VertexCount, 0);
    let many: Vec<i32> = (0..2 * 4_097).collect();
    import_refuses(&many, 4_097, Refusal::VertexCount, 0);
}

#[test]
fn equal_neighbours() {
    import_refuses(&[0, 0, 5, 0, 5, 0, 5, -3], 4, Refusal::EqualNeighbours, 1);
    import_refuses(&[0, 0, 5, 0, 5, -3, 0, 0], 4, Refusal::EqualNeighbours, 3);
}

/// A search with faults.
struct Given {
    ring: Vec<u8>,
    line: Vec<u8>,
    allowance: usize,
    words: usize,
    join: usize,
    book: Vec<u8>,
}

/// Each mends one fault.
const MENDINGS: [fn(&mut Given); 10] = [
    |given| given.ring.truncate(MOST_RING),
    |given| given.ring[9] = 1,
    |given| given.allowance = 0,
    |given| given.ring[5] = 1,
    |given| given.line.truncate(MOST_LINE),
    |given| given.words = 8 * MOST_LINE,
    |given| given.join = 2 * MOST_RING,
    |given| given.book = [field(2, 0), field(1, 0)].concat()[1..].to_vec(),
    |given| given.book = [field(2, 0), field(1, 0)].concat(),
    |given| given.book = [field(1, 0), field(2, 0)].concat(),
];

#[test]
fn the_first_refusal_in_order_is_given() {
    for searching in &SEARCHES {
        let (mut ring, line, book) = (vec![1; MOST_RING + 1], vec![0; MOST_LINE + 1], vec![0; MOST_BOOK + 1]);
        (ring[5], ring[9]) = (250, MARK);
        let mut given = Given { ring, line, allowance: MOST_RING, words: 0, join: 0, book };
        let mut numbers = Vec::new();
        for mend in MENDINGS {
            let search = Search { ring: &given.ring, line: &given.line, allowance: given.allowance };
            let refused = searching.refused_with(search, &given.book, given.join, given.words);
            numbers.extend(refused.map(|refused| refused.refusal.number()));
            mend(&mut given);
        }
        numbers.dedup();
        assert_eq!(numbers, searching.order, "{}", searching.name);
        let search = Search { ring: &given.ring, line: &given.line, allowance: given.allowance };
        assert_eq!(searching.refused_with(search, &given.book, given.join, given.words), None, "{}", searching.name);
    }
}

#[test]
fn the_first_refusal_of_words_books_and_vertices_is_given() {
    pack_refuses(&[7, 65_536, 1, 0, 7], 0, Refusal::WordsToPack, 0);
    pack_refuses(&[7, 2, 1, 0, 7, 2, 0, 65_536], 0, Refusal::NumberToPack, 1);
    pack_refuses(&[7, 2, 1, 0, 7, 2, 1, 0, 7, 65_536, 9, 0], 0, Refusal::Order, 1);
    pack_refuses(&[7, 2, 1, 0], 0, Refusal::RoomForOutput, 0);

    let out_of_order = [field(2, 0), field(1, 0)].concat();
    let unpacked = |book: &[u8]| unpack(book, &mut []).unwrap_err();
    assert_eq!(unpacked(&[&out_of_order[..], &[0; 15_000]].concat()), refused(Refusal::BookLength, 0));
    assert_eq!(unpacked(&[&out_of_order[..], b"!"].concat()), refused(Refusal::Order, 15));
    assert_eq!(unpacked(&[b"!", &out_of_order[..]].concat()), refused(Refusal::Field, 0));
    assert_eq!(unpacked(&field(1, 0)), refused(Refusal::RoomForOutput, 0));

    import_refuses(&[0, 0, 0, 0, 0], 0, Refusal::VertexCount, 0);
    import_refuses(&[0; 6], 0, Refusal::EqualNeighbours, 0);
    import_refuses(&[0, 0, 5, 0, 5, -3], 0, Refusal::RoomForOutput, 0);
}

#[test]
fn a_number_finds_its_refusal() {
    for &refusal in Refusal::ALL {
        assert_eq!(Refusal::numbered(refusal.number()), Some(refusal));
    }
    assert_eq!(Refusal::ALL.len(), 15);
    for number in [0, 13, 17, u32::MAX] {
        assert_eq!(Refusal::numbered(number), None);
    }
}

#[test]
fn refusals_print_their_text() {
    assert_eq!(Refusal::CodeInRing.to_string(), "the ring holds a code above 247");
    assert_eq!(format!("[{:>34}]", Refusal::CodeInRing), "[   the ring holds a code above 247]");
    let text = refused(Refusal::CodeInRing, 3).to_string();
    assert_eq!(text, "the ring holds a code above 247 (refusal 14, place 3)");
    for &refusal in Refusal::ALL {
        let text = format!("{refusal} (refusal {}, place 9)", refusal.number());
        assert_eq!(refused(refusal, 9).to_string(), text);
    }
}

#[test]
fn refused_is_an_error_of_any_program() {
    fn fails() -> Result<Counts, Box<dyn Error + Send + Sync>> {
        Ok(scan(Search { allowance: 3, ..GOOD }, &mut [])?)
    }
    let error = fails().unwrap_err();
    assert_eq!(error.to_string(), "the allowance is not below the number of ring edges (refusal 2, place 0)");
    assert!(error.source().is_none());
    assert_eq!(error.downcast_ref::<Refused>(), Some(&refused(Refusal::Allowance, 0)));
    let alone: Box<dyn Error> = Box::new(Refusal::Allowance);
    assert_eq!(alone.to_string(), "the allowance is not below the number of ring edges");
}

#[test]
#[should_panic(expected = "the library refused by 13 at place 5")]
fn a_number_outside_the_table_is_no_answer() {
    let _ = Answer { refusal: 13, place: 5, ..Answer::default() }.result();
}

#[test]
#[should_panic(expected = "the library refused by 17 at place 0")]
fn a_number_outside_the_table_is_no_answer_of_two_passes() {
    let _ = TwoWay { refusal: 17, ..TwoWay::default() }.result();
}
