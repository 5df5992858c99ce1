//! Silences with ceilings: about each distance, two at one address, in fields of each length; and pairs of reports whose answers
//! depend on each other.

use super::books::{mixed_book, read_both_ways};
use super::call::{cell_and_ring, Call, Search};
use super::closed::closed;
use super::draw::Draw;
use super::searches::{repeated, ring_and_line};
use super::silences::{any_ceiling, book_of, laid_out, silences};
use super::Bond;
use crate::second::book::{Silence, FIELD};
use crate::second::ceilings_by_hand::{ByHand, BY_HAND, CELL, RING_NUMBER};
use crate::second::meaning::MARK;
use crate::second::refusals::LONGEST_RING;

pub const LIBRARY_BY_HAND: u64 = BY_HAND.len() as u64;

/// The rows worked out by hand.
pub fn by_hand(index: u64, draw: &mut Draw) -> Call {
    let row = &BY_HAND[index as usize];
    let ByHand { ring, line, allowance, .. } = row;
    let search = Search::new(ring.as_bytes().to_vec(), line.as_bytes().to_vec(), *allowance);
    let search = if row.closed { closed(draw, search) } else { search };
    Call::Report { cell: CELL, ring_number: RING_NUMBER, search, book: row.book() }
}

const CEILINGS: u64 = 8;
pub const EACH_DISTANCE: u64 = LONGEST_RING as u64 * CEILINGS;

/// The line is a copy of the longest ring with 0 to 255 edges of a code that the ring lacks. Its distance is their number, and
/// the silence at its start has a ceiling about that distance.
pub fn each_distance(index: u64, draw: &mut Draw) -> Call {
    let (distance, m) = ((index / CEILINGS) as u16, LONGEST_RING);
    let foreign = MARK - 1;
    let ring: Vec<u8> = (0..m).map(|place| (place % usize::from(foreign)) as u8).collect();
    let mut line = repeated(&ring, draw.below(m), m);
    draw.places(m, distance.into()).into_iter().for_each(|place| line[place] = foreign);
    let (below, exchanged) = (distance.saturating_sub(1), distance.swap_bytes());
    let tag_22 = [0, below, distance, distance + 1, exchanged, 256, 65_535].map(Some);
    let ceiling = tag_22.get((index % CEILINGS) as usize).copied().flatten();
    let mut named = vec![Silence { cell: 7, ring_number: 2, start: 0, ceiling }];
    named.extend(silences(draw, 7, 2, 3, 3));
    let allowance = draw.one(&[distance.into(), m - 1]);
    Call::Report { cell: 7, ring_number: 2, search: Search::new(ring, line, allowance), book: book_of(named) }
}

const TWICE: [Option<u16>; 7] = [None, Some(0), Some(1), Some(2), Some(255), Some(256), Some(65_535)];
const PAIRS: u64 = (TWICE.len() * TWICE.len()) as u64;
pub const ONE_ADDRESS: u64 = 3 * PAIRS * 2;

/// Two records at one address, with every two of these ceilings: packed, unpacked and reported. In half of the cases they stand
/// between others.
pub fn one_address(index: u64, draw: &mut Draw) -> Call {
    let pair = (index / 3 % PAIRS) as usize;
    let record = |start, ceiling| Silence { cell: 7, ring_number: 2, start, ceiling };
    let twice = [TWICE[pair % TWICE.len()], TWICE[pair / TWICE.len()]].map(|ceiling| record(2, ceiling));
    let mut records = twice.to_vec();
    if index / 3 >= PAIRS {
        records.insert(0, record(1, any_ceiling(draw)));
        records.push(record(3, any_ceiling(draw)));
    }
    match index % 3 {
        0 => Call::Pack { words: records.iter().flat_map(Silence::words).collect(), room: FIELD * records.len() },
        way => read_both_ways(way, laid_out(&records)),
    }
}

const TAGS: [u8; 5] = [0x20, 0x21, 0x22, 0x23, 0x32];
const LENGTHS: u64 = 17;
pub const HEADERS: u64 = 2 * 2 * TAGS.len() as u64 * LENGTHS * 2;

/// A field of each tag and of each length up to 16, or 256 more, with as many bytes behind its header as the low byte says.
/// In half of the cases a good field stands before it; one always stands behind it. Two of the tags and lengths are right.
pub fn headers(index: u64, draw: &mut Draw) -> Call {
    let number = index / 2;
    let (high, tag) = ((number % 2) as u8, TAGS[(number / 2) as usize % TAGS.len()]);
    let number = number / 2 / TAGS.len() as u64;
    let length = (number % LENGTHS) as u8;
    let record = |start, ceiling| Silence { cell: 7, ring_number: 2, start, ceiling }.field();
    let value = [&record(2, Some(1))[3..], &[0; 4]].concat();
    let field = [&[tag, high, length], &value[..length.into()]].concat();
    let before = if number < LENGTHS { Vec::new() } else { record(1, any_ceiling(draw)) };
    read_both_ways(index, [before, field, record(3, any_ceiling(draw))].concat())
}

/// How many records of tag 21 and of tag 22 a round trip begins with. More than 1,000 cannot be packed.
const TRIPS: [(usize, usize); 9] =
    [(0, 0), (0, 1), (1, 0), (0, 1_000), (1_000, 0), (1, 999), (1_001, 0), (1_153, 0), (15, 987)];

/// One trip in eight has one of these books, the others have few records, and half of them none of tag 21.
pub fn book_trip(index: u64, draw: &mut Draw) -> Vec<u8> {
    let few = (draw.below(30) * draw.below(2), draw.below(30));
    let given = TRIPS[(index / 8) as usize % TRIPS.len()];
    let (old, new) = if index % 8 == 0 { given } else { few };
    mixed_book(draw, old, new)
}

/// Two reports of one search whose books have the same addresses: the first of tag 21 alone, the second with the ceiling 0 of
/// tag 22 for all of them or for some.
pub fn either_tag(index: u64, draw: &mut Draw) -> ([Call; 2], Bond) {
    let m = draw.between(1, 8);
    let n = m + draw.below(60);
    let (ring, line) = ring_and_line(draw, &[1, 2], m, n);
    let (cell, ring_number) = cell_and_ring(draw);
    let allowance = draw.allowance(m);
    let mut search = Search::new(ring, line, allowance);
    if index % 3 == 0 {
        search = closed(draw, search);
    }
    let count = draw.one(&[1, 5, 40, 200]);
    let addresses = silences(draw, cell, ring_number, n, count);
    let report = |draw: &mut Draw, ceilings: &[Option<u16>]| {
        let record = |silence: &Silence| Silence { ceiling: draw.one(ceilings), ..*silence };
        let book = book_of(addresses.iter().map(record).collect());
        Call::Report { cell, ring_number, search: search.clone(), book }
    };
    let other: &[Option<u16>] = if draw.chance(2) { &[Some(0)] } else { &[None, Some(0)] };
    ([report(draw, &[None]), report(draw, other)], Bond::Same)
}

/// A search before an edit and after it, the start of a copy in both, and the distances of that copy.
struct Edited {
    searches: [Search; 2],
    start: usize,
    distances: [usize; 2],
}

impl Edited {
    /// The ring's codes all differ. In the copy some edges have a code that the ring lacks, and after the edit more of them
    /// have it. Its distance is their number.
    fn new(draw: &mut Draw, is_closed: bool) -> Edited {
        let m = draw.between(2, 24);
        let n = m + draw.below(40);
        let codes = draw.alphabet(m + 1);
        let mut line = draw.edges(&codes, n);
        let (starts, turn) = (if is_closed { n } else { n - m + 1 }, draw.below(m));
        let start = draw.below(starts);
        (0..m).for_each(|q| line[(start + q) % n] = codes[(turn + q) % m]);
        let worse = draw.between(1, m - 1);
        let distances = [draw.below(worse), worse];
        let (places, allowance) = (draw.places(m, worse), draw.between(worse, m - 1));
        let searches = distances.map(|edits| {
            places[..edits].iter().for_each(|q| line[(start + q) % n] = codes[m]);
            let search = Search::new(codes[..m].to_vec(), line.clone(), allowance);
            if is_closed {
                closed(draw, search)
            } else {
                search
            }
        });
        Edited { searches, start, distances }
    }

    /// Both searches with one book. Its silence of the copy has a ceiling that hides it before the edit alone; one in two of
    /// those with the ceiling 0 is of tag 21.
    fn reports(self, draw: &mut Draw) -> ([Call; 2], Bond) {
        let Edited { searches, start, distances: [accepted, worse] } = self;
        let between = draw.between(accepted, worse - 1);
        let ceiling = draw.one(&[accepted, between, worse - 1]) as u16;
        let ceiling = if ceiling == 0 && draw.chance(2) { None } else { Some(ceiling) };
        let (cell, ring_number) = cell_and_ring(draw);
        let mut named = vec![Silence { cell, ring_number, start: start as u32, ceiling }];
        named.extend(silences(draw, cell, ring_number, searches[0].line.len(), 4));
        let book = book_of(named);
        let report = |search| Call::Report { cell, ring_number, search, book: book.clone() };
        (searches.map(report), Bond::ShownAgain(start as u32))
    }
}

/// "A reviewer accepts two differing edges; an edit later makes it five" (ticket 4).
pub fn made_worse(_: u64, draw: &mut Draw) -> ([Call; 2], Bond) {
    Edited::new(draw, false).reports(draw)
}

/// The same, the line closed.
pub fn closed_made_worse(_: u64, draw: &mut Draw) -> ([Call; 2], Bond) {
    Edited::new(draw, true).reports(draw)
}
