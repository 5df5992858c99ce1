//! Closed lines: the rules in C and in Rust, which copy a longer line, beside the second program, which reads the line by its
//! places, and the meanings word by word on the longer line.
use crate::common::{by_definition, looks_by_rules, Finding, Numbers};
use crate::{check_words, FINDING_WORDS, UNWRITTEN, VERSIONS};
use compare::peers::{lengthened, Answer, MARK};
use compare::second::by_hand::{edges, holds, BY_HAND, COUNT};
use compare::second::calls::{Outcome, Search};
use compare::second::refusals::Refused;
use compare::second::samples::bound;

fn check_second(outcome: Outcome<u32>, wanted: &[Finding], looks: usize, joined: &[u8]) {
    let given = outcome.expect("no refusal");
    assert_eq!((given.written, given.looks, &given.joined[..]), (wanted.concat(), looks as u64, joined));
}

/// "the line's last m−1 edges and its first m−1", place by place.
fn joined_by_places(line: &[u8], m: usize) -> Vec<u8> {
    let n = line.len();
    if n < m {
        return Vec::new();
    }
    (0..2 * m - 2).map(|place| line[(n - (m - 1) + place) % n]).collect()
}

fn check_closed(ring: &[u8], line: &[u8], k: usize) -> Vec<Finding> {
    let (m, n) = (ring.len(), line.len());
    let longer = lengthened(line, m);
    let wanted = by_definition(ring, &longer, k);
    let quick_looks = looks_by_rules(ring, &longer, k);
    let survey_looks = if n < m { 0 } else { 2 * m * (n + m - 1) - m * m };
    assert!(n < m || quick_looks as u64 <= bound(m as u64, (n + m - 1) as u64), "{ring:?} in {line:?} with {k}");
    let search = Search::closed(ring, line, k, FINDING_WORDS * n, 2 * m - 2);
    let joined = joined_by_places(line, m);
    check_second(search.scan(), &wanted, quick_looks, &joined);
    check_second(search.survey(), &wanted, survey_looks, &joined);
    for version in VERSIONS {
        for (call, looks) in [(version.scan_closed, quick_looks), (version.survey_closed, survey_looks)] {
            let mut words = vec![UNWRITTEN; FINDING_WORDS * n + 5];
            let answer = call(ring, line, k, &mut words);
            let right = Answer { found: wanted.len(), looks, ..Answer::default() };
            assert_eq!(answer, right, "{ring:?} in {line:?} with {k}, closed");
            check_words(&words, &wanted, "closed scan or survey");
        }
    }
    wanted
}

#[test]
fn closed_lines_by_hand() {
    assert!((0..COUNT).all(holds));
    for row in &BY_HAND {
        let (ring, line) = (edges(row.ring), edges(row.line));
        assert_eq!(check_closed(&ring, &line, row.allowance), row.closed.0, "{} in {}", row.ring, row.line);
    }
}

#[test]
fn many_small_closed_lines() {
    let mut numbers = Numbers(0xc105ed);
    for _ in 0..8_000 {
        let (m, codes, n) = (1 + numbers.below(20), 1 + numbers.below(4), numbers.below(50));
        let ring = numbers.ring(m, codes);
        let line = numbers.line(&ring, n, codes);
        check_closed(&ring, &line, numbers.below(m));
    }
}

/// The line turned: it begins at another edge. Every finding is found at the same edge as before, and its looks may differ.
#[test]
fn a_closed_line_may_begin_at_any_edge() {
    let mut numbers = Numbers(0x7041);
    for _ in 0..1_000 {
        let (m, codes) = (1 + numbers.below(12), 1 + numbers.below(4));
        let ring = numbers.ring(m, codes);
        let n = m + numbers.below(30);
        let mut line = numbers.line(&ring, n, codes);
        let k = numbers.below(m);
        let found = check_closed(&ring, &line, k);
        let turn = numbers.below(n);
        line.rotate_left(turn);
        let place = |start: u32| ((start as usize + n - turn) % n) as u32;
        let mut turned: Vec<Finding> = found.iter().map(|&[start, r, d, ties]| [place(start), r, d, ties]).collect();
        turned.sort();
        assert_eq!(check_closed(&ring, &line, k), turned, "{ring:?} in {line:?} with {k}");
    }
}

#[test]
fn closed_lines_of_every_width() {
    let mut numbers = Numbers(0xc1d7);
    for m in [1, 2, 63, 64, 65, 127, 128, 129, 192, 193, 255, 256] {
        for (more, codes) in [(0, 1), (0, 4), (1, 2), (2, 255), (m, 3), (100, 26)] {
            let ring = numbers.ring(m, codes);
            let line = numbers.line(&ring, m + more, codes);
            let k = numbers.below(4).min(m - 1);
            check_closed(&ring, &line, k);
        }
    }
}

/// 65,536 edges are accepted, though the longer line has 65,791; 65,537 are not. 4·n words are enough, one less is not.
#[test]
fn refusals_of_closed_lines() {
    let line = vec![MARK; 65_537];
    let rows: [(&[u8], usize, usize, usize, usize, u32); 12] = [
        (&[7; 256], 65_536, 0, 4 * 65_536, 510, 0),
        (&[7; 256], 65_537, 0, 4 * 65_537, 510, 3),
        (&[7; 256], 65_536, 0, 4 * 65_536 - 1, 0, 4),
        (&[7; 256], 65_536, 0, 4 * 65_536, 509, 10),
        (&[7; 3], 3, 0, 11, 4, 4),
        (&[7; 3], 3, 0, 12, 3, 10),
        (&[7; 3], 3, 0, 12, 4, 0),
        (&[7; 3], 2, 0, 0, 0, 0),
        (&[7], 1, 0, 4, 0, 0),
        (&[MARK, 7], 2, 2, 8, 2, 12),
        (&[7, 7], 2, 2, 0, 0, 2),
        (&[], 2, 0, 8, 2, 1),
    ];
    for (ring, n, k, room, join, refusal) in rows {
        let search = Search::closed(ring, &line[..n], k, room, join);
        let expected = if refusal == 0 { None } else { Some(Refused { number: refusal, place: 0 }) };
        assert_eq!([search.survey().err(), search.scan().err(), search.report(7, 2, &[]).err()], [expected; 3]);
        // The rules in C and Rust are lent no join area, and so never give 10.
        let refusal = if refusal == 10 { 0 } else { refusal as usize };
        for version in VERSIONS {
            for call in [version.scan_closed, version.survey_closed] {
                assert_eq!(call(ring, &line[..n], k, &mut vec![0; room]).refusal, refusal);
            }
        }
    }
}

/// Silences name places from 0 to n − 1; 10 comes before the book, and a book that is refused leaves the join area alone.
#[test]
fn closed_reports_of_the_second_program() {
    let silence = |start: u32| crate::common::field(7, 2, start, [None, Some(0), Some(1)][start as usize % 3]);
    let search = Search::closed(b"abc", b"bca", 0, 12, 4);
    for hidden in 0..3 {
        let given = search.report(7, 2, &silence(hidden)).expect("no refusal");
        assert_eq!((given.found, given.hidden, given.joined), (3, 1, b"cabc".to_vec()));
        assert!(given.written.chunks(FINDING_WORDS).all(|finding| finding[0] != hidden));
    }
    let given = search.report(7, 2, &silence(3)).expect("no refusal");
    assert_eq!((given.hidden, given.written.len(), given.looks), (0, 12, 30));
    let refused = |search: Search, book: &[u8]| search.report(7, 2, book).err().map(|refused| refused.number);
    assert_eq!(refused(Search::closed(b"abc", b"bca", 0, 12, 3), &[0]), Some(10));
    assert_eq!(refused(Search::closed(b"abc", b"bca", 0, 12, 4), &[0]), Some(6));
    assert_eq!(refused(Search::closed(b"abc", b"bc", 0, 0, 0), &[0]), Some(6));
}
