//! Marks by hand, with the second program beside the peers; `|` stands for the mark.
use crate::common::{by_definition, looks_by_rules, Finding};
use crate::{check, FINDING_WORDS};
use compare::peers::MARK;
use compare::second::calls::Search;
use compare::second::refusals::Refused;
use compare::second::samples::bound;

fn edges(text: &str) -> Vec<u8> {
    text.bytes().map(|byte| if byte == b'|' { MARK } else { byte }).collect()
}

/// The second program, the peers and the rules in C and in Rust give these findings and looks.
fn check_all(ring: &[u8], line: &[u8], k: usize, findings: &[Finding], quick_looks: u64) {
    let (m, n) = (ring.len() as u64, line.len() as u64);
    let survey_looks = if n < m { 0 } else { 2 * m * n - m * m };
    let search = Search::new(ring, line, k, FINDING_WORDS * (line.len() + 1));
    for (given, looks) in [(search.scan(), quick_looks), (search.survey(), survey_looks)] {
        let given = given.expect("no refusal");
        assert_eq!((given.written, given.looks), (findings.concat(), looks), "{ring:?} in {line:?} with {k}");
    }
    assert_eq!(by_definition(ring, line, k), findings, "{ring:?} in {line:?} with {k}");
    assert_eq!(looks_by_rules(ring, line, k) as u64, quick_looks, "{ring:?} in {line:?} with {k}");
    check(ring, line, k);
}

/// Ring, line, allowance, findings, looks of the quick scan.
type Row<'a> = (&'a str, &'a str, usize, &'a [Finding], u64);

#[test]
fn marks_by_hand() {
    let rows: [Row; 15] = [
        // start 0: 2 edges and 4 afresh; start 1: the mark; start 3: 2 edges and, s = 3 being above m / 2, 4 afresh
        ("ab", "ab|ab", 0, &[[0, 0, 0, 1], [3, 0, 0, 1]], 13),
        ("ab", "ab||ab", 0, &[[0, 0, 0, 1], [4, 0, 0, 1]], 15),
        ("ab", "|ab|", 0, &[[1, 0, 0, 1]], 9),
        ("ab", "a|b", 1, &[], 1),
        ("ab", "ab|", 1, &[[0, 0, 0, 1]], 7),
        ("a", "a|a", 0, &[[0, 0, 0, 1], [2, 0, 0, 1]], 5),
        ("a", "|", 0, &[], 1),
        // the mark is the last edge read, at j = m, so the next window is one further on
        ("abc", "|abc", 0, &[[1, 0, 0, 1]], 15),
        ("abc", "|abc", 2, &[[1, 0, 0, 1]], 15),
        // n = m, and the mark at each place: 3, 2 and 1 edges read, nothing verified
        ("abc", "|bc", 2, &[], 3),
        ("abc", "a|c", 2, &[], 2),
        ("abc", "ab|", 2, &[], 1),
        // the mark is read after one break, with k = 1; the next window has one break and is verified
        ("abcd", "a|zbcd", 1, &[[2, 0, 1, 1]], 3 + 4 + 16),
        // the same at j = m, with k = 1: `|zab` is left, and `zabc` is verified
        ("abcd", "|zabc", 1, &[[1, 3, 1, 1]], 4 + 4 + 16),
        ("abc", "||", 1, &[], 0),
    ];
    for (ring, line, k, findings, looks) in rows {
        check_all(&edges(ring), &edges(line), k, findings, looks);
    }
}

/// Without marks a copy gives 2·k + 1 findings or more.
#[test]
fn a_copy_between_marks_is_found_once() {
    for m in [1, 2, 5, 9, 64, 65] {
        let ring: Vec<u8> = (0..m).map(|place| place as u8).collect();
        let copy: Vec<u8> = ring.iter().copied().cycle().skip(m / 2).take(m).collect();
        let line = [&[9, MARK], &copy[..], &[MARK, 9]].concat();
        for k in 0..m {
            let findings = [[2, m as u32 / 2, 0, 1]];
            check_all(&ring, &line, k, &findings, looks_by_rules(&ring, &line, k) as u64);
        }
    }
}

/// The window at i reads its last edge, a mark, and the next one begins at i + m.
#[test]
fn a_line_of_marks_takes_a_look_for_each_whole_ring() {
    for (m, n) in [(1, 5), (2, 5), (3, 9), (3, 11), (7, 6), (64, 640), (256, 1_000)] {
        check_all(&vec![1; m], &vec![MARK; n], m - 1, &[], (n / m) as u64);
    }
}

#[test]
fn a_ring_with_a_mark_is_refused_after_1_and_before_2() {
    let refused = |ring: &[u8], k| {
        let search = Search::new(ring, &[1, 2, 3], k, 0);
        let answers = [search.survey(), search.scan(), search.report(7, 2, &[0])];
        answers.map(|answer| answer.expect_err("a refusal"))
    };
    assert_eq!(refused(&[1, MARK], 5), [Refused { number: 12, place: 0 }; 3]);
    assert_eq!(refused(&[MARK], 0), [Refused { number: 12, place: 0 }; 3]);
    assert_eq!(refused(&[MARK; 257], 0), [Refused { number: 1, place: 0 }; 3]);
    assert_eq!(refused(&[1, 2], 5), [Refused { number: 2, place: 0 }; 3]);
}

/// Every ring of up to 3 edges over two codes, in every line of up to 6 over the codes and the mark, with every k. The
/// second program asserts in each search that its rules find what the meaning of a finding says.
#[test]
fn every_small_line_with_marks() {
    let over = |codes: &[u8], length: u32, number: usize| -> Vec<u8> {
        (0..length).map(|place| codes[number / codes.len().pow(place) % codes.len()]).collect()
    };
    for (m, n) in (1..=3).flat_map(|m| (0..=6).map(move |n| (m, n))) {
        for (ring, line) in (0..2usize.pow(m)).flat_map(|ring| (0..3usize.pow(n)).map(move |line| (ring, line))) {
            let (ring, line) = (over(&[0, 254], m, ring), over(&[0, 254, MARK], n, line));
            for k in 0..ring.len() {
                let looks = looks_by_rules(&ring, &line, k) as u64;
                assert!(n < m || looks <= bound(u64::from(m), u64::from(n)), "{ring:?} in {line:?} with {k}");
                check_all(&ring, &line, k, &by_definition(&ring, &line, k), looks);
            }
        }
    }
}
