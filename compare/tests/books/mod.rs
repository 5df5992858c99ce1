//! Books of both tags: the rules in C and in Rust beside the second program, and ticket 4 by hand.
use crate::common::{field, Numbers};
use crate::{FINDING_WORDS, UNWRITTEN, VERSIONS};
use compare::peers::{Answer, Question};
use compare::second::calls::{pack, unpack, Answered, Search};
use compare::second::ceilings_by_hand::{holds, BY_HAND, COUNT};
use compare::second::refusals::Refused;
use compare::second::samples;

/// The report of the second program, with which those of the rules in C and in Rust must agree.
fn check_book(ring: &[u8], line: &[u8], k: usize, book: &[u8]) -> Result<Answered<u32>, Refused> {
    let room = FINDING_WORDS * line.len();
    let given = Search::new(ring, line, k, room).report(7, 2, book);
    let right = match &given {
        Ok(Answered { found, hidden, looks, .. }) => {
            Answer { found: *found, hidden: *hidden, looks: *looks as usize, ..Answer::default() }
        }
        Err(refused) => Answer { refusal: refused.number as usize, place: refused.place, ..Answer::default() },
    };
    let mut wanted = given.as_ref().map_or(Vec::new(), |given| given.written.clone());
    wanted.resize(room, UNWRITTEN);
    for version in VERSIONS {
        let mut words = vec![UNWRITTEN; room];
        let question = Question { cell: 7, ring_number: 2, ring, line, k, book };
        assert_eq!((version.report)(&question, &mut words), right, "{book:?}");
        assert_eq!(words, wanted, "{book:?}");
    }
    given
}

#[test]
fn samples_and_ceilings_by_hand() {
    assert!((0..samples::COUNT).all(samples::holds));
    assert!((0..COUNT).all(holds));
    for row in BY_HAND.iter().filter(|row| !row.closed) {
        check_book(row.ring.as_bytes(), row.line.as_bytes(), row.allowance, &row.book()).expect("no refusal");
    }
}

/// Up to five fields of either tag with starts that mostly rise, of which now and then a byte is changed or the last ones are
/// cut. Starts 0 to 4 are findings, 1 and 2 of them at distance 1.
#[test]
fn whole_and_damaged_books() {
    let mut numbers = Numbers(0xb00c);
    let mut answers = [0; 8];
    for _ in 0..60_000 {
        let mut start = 0;
        let mut book = Vec::new();
        for _ in 0..numbers.below(6) {
            let ceiling = [None, Some(0), Some(1), Some(256)][numbers.below(4)];
            book.extend(field(7, 2, start, ceiling));
            start += u32::from(numbers.below(8) > 0);
        }
        if !book.is_empty() && numbers.below(2) == 0 {
            let place = numbers.below(book.len());
            book[place] = [0, 1, 2, 0x0A, 0x0C, 0x20, 0x21, 0x22, 0x23][numbers.below(9)];
        }
        if numbers.below(4) == 0 {
            book.truncate(numbers.below(book.len() + 1));
        }
        let answer = check_book(&[1, 1], &[1, 1, 9, 1, 1, 1], 1, &book);
        answers[answer.err().map_or(0, |refused| refused.number as usize)] += 1;
    }
    assert!([0, 6, 7].iter().all(|&number| answers[number] > 1_000), "{answers:?}");
}

/// Records of tag 21 and of tag 22, and whether a book of them is too long.
#[test]
fn the_longest_books() {
    let rows = [
        (0, 1_000, 15_000, false),
        (0, 1_001, 15_015, true),
        (1_153, 0, 14_989, false),
        (1_154, 0, 15_002, true),
        (8, 993, 14_999, false),
        (15, 987, 15_000, false),
        (7, 994, 15_001, true),
    ];
    for (old, new, length, too_long) in rows {
        let one = |start: u32| field(7, 2, start, if start < old { None } else { Some(1) });
        let book: Vec<u8> = (0..old + new).flat_map(one).collect();
        assert_eq!(book.len(), length);
        let refused = if too_long { Some(Refused { number: 5, place: 0 }) } else { None };
        assert_eq!(check_book(&[1, 1], &[1, 1, 9, 1, 1, 1], 1, &book).err(), refused);
        let records = (old + new) as usize;
        let unpacked = unpack(&book, 4 * records);
        assert_eq!(unpacked.as_ref().err().copied(), refused);
        assert!(too_long || unpack(&book, 4 * records - 1).is_err_and(|refused| refused.number == 10));
        if let Ok(given) = unpacked {
            let packed = pack(&given.written, 15 * records).map(|packed| packed.written.len());
            let refused = Refused { number: 8, place: 0 };
            assert_eq!(packed, if records > 1_000 { Err(refused) } else { Ok(15 * records) });
        }
    }
}

/// A field with its header changed, or cut, behind a whole one: refusal 6 at its offset. Unchanged it is read.
#[test]
fn fields_by_hand() {
    let whole = field(7, 2, 0, Some(1));
    let headers = [[0x22, 0, 10], [0x21, 0, 12], [0x20, 0, 10], [0x23, 0, 12], [0x22, 1, 12], [0x22, 12, 0]];
    for ceiling in [None, Some(1)] {
        let next = field(7, 2, 1, ceiling);
        for header in headers {
            let book = [&whole[..], &header, &next[3..]].concat();
            assert_eq!(check_book(&[1], &[1], 0, &book).err(), Some(Refused { number: 6, place: 15 }));
        }
        for cut in 1..next.len() {
            let book = [&whole[..], &next[..cut]].concat();
            assert_eq!(check_book(&[1], &[1], 0, &book).err(), Some(Refused { number: 6, place: 15 }));
            assert_eq!(check_book(&[1], &[1], 0, &next[..cut]).err(), Some(Refused { number: 6, place: 0 }));
        }
        assert_eq!(check_book(&[1], &[1], 0, &[whole.clone(), next].concat()).map(|given| given.hidden), Ok(1));
    }
}

/// Words to pack, the bytes lent, and the packed bytes or the refusal.
type PackedRow<'a> = (&'a [u32], usize, Result<Vec<u8>, Refused>);

#[test]
fn packing_by_hand() {
    let fields = |records: &[Vec<u8>]| Ok(records.concat());
    let refused = |number, place| Err(Refused { number, place });
    let rows: [PackedRow; 17] = [
        (&[], 0, Ok(Vec::new())),
        (&[7, 2, 10, 1], 15, Ok(vec![0x22, 0, 12, 0, 0, 0, 7, 0, 2, 0, 0, 0, 10, 0, 1])),
        (&[7, 2, 10, 1], 14, refused(10, 0)),
        (&[7, 2, 10, 65_535], 15, fields(&[field(7, 2, 10, Some(65_535))])),
        (&[7, 2, 10, 65_536], 0, refused(9, 0)),
        (&[7, 65_536, 10, 0], 15, refused(9, 0)),
        (&[7, 2, 1, 0, 7, 65_536, 2, 65_536], 30, refused(9, 1)),
        (&[7, 2, 1, 9, 7, 2, 2, 0], 30, fields(&[field(7, 2, 1, Some(9)), field(7, 2, 2, Some(0))])),
        (&[7, 2, 1, 0, 7, 2, 1, 1], 30, refused(7, 1)),
        (&[7, 2, 1, 1, 7, 2, 1, 0], 30, refused(7, 1)),
        (&[7, 2, 1, 1, 7, 2, 1, 1], 0, refused(7, 1)),
        (&[7, 2, 1, 1, 7, 2, 0, 65_536], 30, refused(9, 1)),
        (&[7, 2, 1, 1, 7, 2, 0, 2, 7, 2, 3, 65_536], 45, refused(7, 1)),
        (&[7, 2, 10], 15, refused(8, 0)),
        (&[7], 15, refused(8, 0)),
        (&[7, 65_536, 10, 0, 1], 15, refused(8, 0)),
        (&[9; 4_004], 0, refused(8, 0)),
    ];
    for (words, room, wanted) in rows {
        assert_eq!(pack(words, room).map(|given| given.written), wanted, "{words:?} in {room}");
    }
}

/// "For books of at most 1,000 records the round trip is then of values, and of bytes where tag 21 is absent" (ticket 4).
#[test]
fn round_trips() {
    let mixed = [field(7, 2, 1, None), field(7, 2, 2, Some(9)), field(7, 3, 0, Some(0))].concat();
    let unpacked = unpack(&mixed, 12).expect("no refusal").written;
    assert_eq!(unpacked, [7, 2, 1, 0, 7, 2, 2, 9, 7, 3, 0, 0]);
    let packed = pack(&unpacked, 45).expect("no refusal").written;
    assert_eq!(packed, [field(7, 2, 1, Some(0)), field(7, 2, 2, Some(9)), field(7, 3, 0, Some(0))].concat());
    assert_eq!(unpack(&packed, 12).expect("no refusal").written, unpacked);
    let again = unpack(&packed, 12).and_then(|given| pack(&given.written, 45));
    assert_eq!(again.expect("no refusal").written, packed);
}
