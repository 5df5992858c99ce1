//! Every peer, the limit, and the rules in C and in Rust, compared with the definitions on many rings. These cases have what no row of
//! the benchmark has: rings of one edge, lines shorter than the ring, allowances up to m - 1, widths at a word's end,
//! refusals, marks at every place.
mod books;
mod closed;
mod common;
mod marks;

use common::{by_definition, field, looks_by_rules, Finding, Numbers};
use compare::peers::{c_rules, limit, rules, Answer, Question, Rules, Search, FINDING_WORDS, PEERS};

const VERSIONS: [&Rules; 2] = [&c_rules::RULES, &rules::RULES];
/// Scan and survey of each version and of the limit, which has no other call.
const SEARCHES: [[Search; 2]; 3] = [
    [c_rules::RULES.scan, c_rules::RULES.survey],
    [rules::RULES.scan, rules::RULES.survey],
    [limit::scan, limit::survey],
];
/// A word that no finding here has.
const UNWRITTEN: u32 = 77_777;

/// The wanted words come first, and the words behind them keep their values.
fn check_words(words: &[u32], wanted: &[Finding], who: &str) {
    let (put, kept) = words.split_at(FINDING_WORDS * wanted.len());
    assert_eq!(put, wanted.concat(), "{who}");
    assert!(kept.iter().all(|&word| word == UNWRITTEN), "{who} wrote past its findings");
}

fn check_peers(ring: &[u8], line: &[u8], k: usize, wanted: &[Finding]) {
    for peer in &PEERS {
        let mut words = vec![UNWRITTEN; FINDING_WORDS * (line.len() + 1).saturating_sub(ring.len())];
        let found = (peer.search)(ring, line, k, &mut words);
        assert_eq!(found, wanted.len(), "{} on {ring:?} in {line:?} with {k}", peer.name);
        check_words(&words, wanted, peer.name);
    }
}

fn check_rules(ring: &[u8], line: &[u8], k: usize, wanted: &[Finding], quick_looks: usize) {
    let (m, n) = (ring.len(), line.len());
    let survey_looks = if n < m { 0 } else { 2 * m * n - m * m };
    for searches in SEARCHES {
        for (call, looks) in searches.into_iter().zip([quick_looks, survey_looks]) {
            let mut words = vec![UNWRITTEN; FINDING_WORDS * n + 5];
            let answer = call(ring, line, k, &mut words);
            let right = Answer { found: wanted.len(), looks, ..Answer::default() };
            assert_eq!(answer, right, "{ring:?} in {line:?} with {k}");
            check_words(&words, wanted, "scan or survey");
        }
    }
}

/// A report with every second finding named, beside silences of other cells and rings. Their ceilings: that of tag 21, the
/// distance, one less, and one whose low byte is 0.
fn check_reports(ring: &[u8], line: &[u8], k: usize, wanted: &[Finding], looks: usize) {
    let mut book = [field(0, 2, 0, None), field(7, 1, 0, Some(9))].concat();
    let mut shown = Vec::new();
    for (at, finding) in wanted.iter().enumerate() {
        let [start, _, distance, _] = *finding;
        let (named, less) = (at % 2 == 0 && at < 2 * 990, distance.saturating_sub(1) as u16);
        let ceiling = [None, Some(distance as u16), Some(less), Some(256)][at / 2 % 4];
        if named {
            book.extend(field(7, 2, start, ceiling));
        }
        if !named || distance > ceiling.map_or(0, u32::from) {
            shown.push(*finding);
        }
    }
    book.extend(field(7, 3, 0, Some(0)));
    let hidden = wanted.len() - shown.len();
    for version in VERSIONS {
        let mut words = vec![UNWRITTEN; FINDING_WORDS * line.len() + 5];
        let question = Question { cell: 7, ring_number: 2, ring, line, k, book: &book };
        let answer = (version.report)(&question, &mut words);
        let right = Answer { found: wanted.len(), hidden, looks, ..Answer::default() };
        assert_eq!(answer, right);
        check_words(&words, &shown, "report");
    }
}

fn check(ring: &[u8], line: &[u8], k: usize) {
    let wanted = by_definition(ring, line, k);
    let looks = looks_by_rules(ring, line, k);
    check_peers(ring, line, k, &wanted);
    check_rules(ring, line, k, &wanted, looks);
    check_reports(ring, line, k, &wanted, looks);
}

#[test]
fn many_small_rings() {
    let mut numbers = Numbers(0x5eed);
    for _ in 0..20_000 {
        let (m, codes, n) = (1 + numbers.below(20), 1 + numbers.below(4), numbers.below(60));
        let ring = numbers.ring(m, codes);
        let line = numbers.line(&ring, n, codes);
        check(&ring, &line, numbers.below(m));
    }
}

#[test]
fn long_lines() {
    let mut numbers = Numbers(0x10e6);
    for _ in 0..100 {
        let (m, codes) = (1 + numbers.below(40), 1 + numbers.below(6));
        let ring = numbers.ring(m, codes);
        let line = numbers.line(&ring, 3000, codes);
        check(&ring, &line, numbers.below(m.min(8)));
    }
}

#[test]
fn every_width() {
    let mut numbers = Numbers(0x1dea);
    for m in [1, 2, 31, 32, 33, 63, 64, 65, 127, 128, 129, 191, 192, 193, 254, 255, 256] {
        for codes in [1, 2, 4, 26, 255] {
            for k in [0, 1, 2, 5, m / 4, m / 2, m - 1] {
                let ring = numbers.ring(m, codes);
                let n = m + numbers.below(120);
                let line = numbers.line(&ring, n, codes);
                check(&ring, &line, k.min(m - 1));
            }
        }
    }
}

/// Rings of a part over and over: several rotations are alike.
#[test]
fn periodic_rings() {
    let mut numbers = Numbers(0x7e1d);
    for m in [1, 2, 4, 6, 12, 30, 63, 64, 128, 192, 255, 256] {
        for period in (1..=m).filter(|period| m % period == 0) {
            let ring = numbers.ring(period, 3).repeat(m / period);
            let n = m + numbers.below(80);
            let line = numbers.line(&ring, n, 3);
            check(&ring, &line, numbers.below(m.min(6)));
        }
    }
}

/// Ring, line, allowance, and the ties of each finding.
#[test]
fn ties_by_hand() {
    let rows: [(&str, &str, usize, &[u32]); 7] = [
        ("aaaa", "aaaaa", 0, &[4, 4]),
        ("abab", "babab", 0, &[2, 2]),
        ("a", "aba", 0, &[1, 1]),
        ("aaaa", "azaa", 1, &[4]),
        ("abab", "abzb", 1, &[2]),
        ("abcdef", "bcdfab", 3, &[2]),
        ("abc", "abb", 2, &[1]),
    ];
    for (ring, line, k, ties) in rows {
        let found = by_definition(ring.as_bytes(), line.as_bytes(), k);
        assert_eq!(found.iter().map(|finding| finding[3]).collect::<Vec<_>>(), ties, "{ring} in {line}");
        check(ring.as_bytes(), line.as_bytes(), k);
    }
}

/// Ring, line, allowance, words lent, book; and the refusal that they get, with its place.
type RefusedRow<'a> = (&'a [u8], &'a [u8], usize, usize, &'a [u8], usize, usize);

fn check_refused((ring, line, k, room, book, refusal, place): RefusedRow) {
    for version in VERSIONS {
        let question = Question { cell: 7, ring_number: 2, ring, line, k, book };
        let answer = (version.report)(&question, &mut vec![0; room]);
        assert_eq!(answer, Answer { refusal, place, ..Answer::default() });
    }
    if refusal < 5 || refusal == 12 {
        for call in SEARCHES.concat() {
            assert_eq!(call(ring, line, k, &mut vec![0; room]), Answer { refusal, ..Answer::default() });
        }
    }
}

#[test]
fn refusals_are_the_same() {
    let long = vec![1; 65_537];
    let old = [field(7, 2, 5, None), field(7, 2, 5, None)].concat();
    let book = [field(7, 2, 5, Some(1)), field(7, 2, 5, Some(2))].concat();
    let rows: [RefusedRow; 19] = [
        (&[], &[1], 0, 9, &[], 1, 0),
        (&long[..257], &[1], 0, 9, &[], 1, 0),
        (&[1], &[1], 1, 9, &[], 2, 0),
        (&[1], &long, 0, 9, &[], 3, 0),
        (&[1], &[1, 1], 0, 2 * FINDING_WORDS - 1, &[], 4, 0),
        (&[1], &[1], 0, 9, &long[..15_001], 5, 0),
        (&[1], &[1], 0, 9, &long[..15_000], 6, 0),
        (&[1], &[1], 0, 9, &old[..14], 6, 13),
        (&[1, 2], &[1], 0, 9, &old, 7, 13),
        (&[1], &[1], 0, 9, &book[..29], 6, 15),
        (&[1, 2], &[1], 0, 9, &book, 7, 15),
        (&[1], &[1], 0, 9, &[0x22], 6, 0),
        (&[255], &[1], 0, 9, &[], 12, 0),
        (&[1, 255], &[1], 0, 9, &[], 12, 0),
        (&[255, 1], &[255], 2, 9, &[], 12, 0),
        (&[255], &long, 0, 9, &[], 12, 0),
        (&[255], &[1, 1], 0, 0, &[], 12, 0),
        (&[255], &[1], 0, 9, &book, 12, 0),
        (&[255; 257], &[1], 0, 9, &[], 1, 0),
    ];
    rows.into_iter().for_each(check_refused);
}

/// Document 01's samples that give their looks: ring, line, allowance, looks.
#[test]
fn the_samples_looks() {
    let rows: [(&str, &str, usize, usize); 7] = [
        ("a", "ba", 0, 3),
        ("aa", "aaa", 0, 12),
        ("abcd", "zzzzzzzzzz", 1, 6),
        ("abc", "ab", 0, 0),
        ("abc", "cab", 0, 12),
        ("abcdef", "bcdfab", 1, 42),
        ("abcdef", "bcdfab", 3, 42),
    ];
    for (ring, line, k, looks) in rows {
        assert_eq!(looks_by_rules(ring.as_bytes(), line.as_bytes(), k), looks);
        check(ring.as_bytes(), line.as_bytes(), k);
    }
}
