//! What accepted calls return and write, read through the iterators. The samples are those of docs/SPEC.md, section 10.

mod common;

use common::{field, kept, old_field, watched};
use outlines::*;
use std::mem::MaybeUninit;
use std::{ptr, thread};

type Four = [u32; 4];

fn fours(findings: Findings) -> Vec<Four> {
    findings.map(|finding| [finding.start, finding.rotation, finding.distance, finding.ties]).collect()
}

/// Ring, line, allowance, findings, looks of the scan and of the survey: P1 to P12.
type Sample = (&'static str, &'static str, usize, &'static [Four], u64, u64);
const SAMPLES: [Sample; 12] = [
    ("GGGTCTA", "GATACGATACCTAGGGTGATAGAATAG", 0, &[[10, 4, 0, 1]], 66, 329),
    ("GGGTCTA", "GATACGATACCTAGGGTGATAGAATAG", 1, &[[9, 3, 1, 1], [10, 4, 0, 1], [11, 5, 1, 1]], 185, 329),
    ("ABCDEFGH", "BCzEzGzA", 3, &[[0, 1, 3, 1]], 72, 64),
    ("ABCDEFGH", "BCzEzGzA", 2, &[], 6, 64),
    ("a", "ba", 0, &[[1, 0, 0, 1]], 3, 3),
    ("aa", "aaa", 0, &[[0, 0, 0, 2], [1, 0, 0, 2]], 12, 8),
    ("abcd", "zzzzzzzzzz", 1, &[], 6, 64),
    ("abc", "ab", 0, &[], 0, 0),
    ("abc", "cab", 0, &[[0, 2, 0, 1]], 12, 9),
    ("ab", "zbz", 1, &[[0, 0, 1, 1], [1, 1, 1, 1]], 12, 8),
    ("abcdef", "bcdfab", 1, &[], 42, 36),
    ("abcdef", "bcdfab", 3, &[[0, 1, 3, 2]], 42, 36),
];

#[test]
fn survey_scan_and_report_of_the_samples() {
    for (ring, line, allowance, findings, quick, plain) in SAMPLES {
        let search = Search { ring: ring.as_bytes(), line: line.as_bytes(), allowance };
        for (call, looks) in [("survey", plain), ("scan", quick), ("report", quick)] {
            let mut words = watched(search.room() + 5);
            let counts = match call {
                "survey" => survey(search, &mut words),
                "scan" => scan(search, &mut words),
                _ => report(7, 2, search, &[], &mut words),
            };
            let found = findings.len() as u64;
            assert_eq!(counts, Ok(Counts { found, hidden: 0, looks }), "{call} of {ring} in {line}, {allowance}");
            assert_eq!(fours(counts.unwrap().findings(&words)), findings);
            // What lies behind the last word written keeps its value.
            let written = FINDING_WORDS * findings.len();
            assert_eq!(words[written..], watched::<u32>(words.len())[written..]);
        }
    }
}

#[test]
fn report_hides_up_to_the_ceiling() {
    let search = Search { ring: b"GGGTCTA", line: b"GATACGATACCTAGGGTGATAGAATAG", allowance: 1 };
    let starts = |cell, book: &[u8]| {
        let mut words = watched(search.room());
        let counts = report(cell, 2, search, book, &mut words).unwrap();
        assert_eq!((counts.found, counts.looks, counts.shown()), (3, 185, 3 - counts.hidden));
        counts.findings(&words).map(|finding| finding.start).collect::<Vec<u32>>()
    };
    assert_eq!(starts(7, &field(10, 0)), [9, 11]);
    assert_eq!(starts(7, &old_field(10)), [9, 11]);
    assert_eq!(starts(8, &field(10, 0)), [9, 10, 11]);
    assert_eq!(starts(7, &field(9, 0)), [9, 10, 11]);
    assert_eq!(starts(7, &old_field(9)), [9, 10, 11]);
    assert_eq!(starts(7, &field(9, 1)), [10, 11]);
    assert_eq!(starts(7, &[old_field(8), field(9, 1), field(10, 0), field(11, 9)].concat()), []);
}

#[test]
fn closed_lines() {
    let search = Search { ring: b"abc", line: b"bca", allowance: 0 };
    let (mut join, mut words) = (b"zzzzyy".to_vec(), watched(search.room_closed()));
    for (call, looks) in [("scan", 30), ("survey", 21), ("report", 30)] {
        let counts = match call {
            "scan" => scan_closed(search, &mut join, &mut words),
            "survey" => survey_closed(search, &mut join, &mut words),
            _ => report_closed(7, 2, search, &field(1, 0), &mut join, &mut words),
        };
        let mut all = vec![[0, 1, 0, 1], [1, 2, 0, 1], [2, 0, 0, 1]];
        let hidden = u64::from(call == "report");
        if call == "report" {
            all.remove(1);
        }
        assert_eq!(counts, Ok(Counts { found: 3, hidden, looks }), "{call}");
        assert_eq!(fours(counts.unwrap().findings(&words)), all, "{call}");
        assert_eq!(join, b"cabcyy", "{call}");
    }
    // A line shorter than the ring has no join.
    let mut join = watched(4);
    assert_eq!(scan_closed(Search { line: b"bc", ..search }, &mut join, &mut []), Ok(Counts::default()));
    assert!(kept(&join));
}

#[test]
fn two_ways() {
    let search = Search { ring: &[24, 26, 28, 30], line: &[24, 26, 28, 30, MARK, 30, 28, 26, 24], allowance: 0 };
    let mut words = watched(search.room_two_way());
    let passes = scan_two_way(search, &mut words).unwrap();
    let (forward, backward) = (Pass { found: 1, looks: 23 }, Pass { found: 1, looks: 25 });
    assert_eq!(passes, Passes { forward, backward });
    assert_eq!(fours(passes.forward_findings(&words)), [[0, 0, 0, 1]]);
    assert_eq!(fours(passes.backward_findings(&words)), [[5, 2, 0, 1]]);
    assert_eq!(words[8..], watched::<u32>(words.len())[8..]);

    // A ring that is its own reversed ring. The backward findings stand behind the forward ones.
    let search = Search { ring: b"ae", line: b"aea", allowance: 0 };
    let passes = scan_two_way(search, &mut words).unwrap();
    assert_eq!((passes.forward.found, passes.backward.found), (2, 2));
    assert_eq!(fours(passes.forward_findings(&words)), [[0, 0, 0, 1], [1, 1, 0, 1]]);
    assert_eq!(fours(passes.backward_findings(&words)), [[0, 0, 0, 1], [1, 1, 0, 1]]);
    for (length, expected) in [(16, 2), (15, 1), (12, 1), (11, 0), (8, 0), (3, 0), (0, 0)] {
        assert_eq!(passes.backward_findings(&words[..length]).len(), expected, "{length} words");
    }
}

#[test]
fn findings_end_where_the_words_end() {
    let words = [0, 1, 2, 3, 10, 11, 12, 13, 20];
    let shown = |found, hidden, length| Counts { found, hidden, looks: 0 }.findings(&words[..length]);
    assert_eq!(fours(shown(2, 0, 9)), [[0, 1, 2, 3], [10, 11, 12, 13]]);
    assert_eq!(fours(shown(2, 1, 9)), [[0, 1, 2, 3]]);
    assert_eq!(fours(shown(9, 0, 9)), [[0, 1, 2, 3], [10, 11, 12, 13]]);
    assert_eq!(fours(shown(2, 0, 7)), [[0, 1, 2, 3]]);
    assert_eq!(shown(u64::MAX, 0, 9).len(), 2);
    assert_eq!([shown(2, 0, 3).len(), shown(2, 0, 0).len(), shown(1, 2, 9).len()], [0; 3]);
    let passes = Passes { forward: Pass { found: u64::MAX, looks: 0 }, backward: Pass { found: 1, looks: 0 } };
    assert_eq!((passes.forward_findings(&words).len(), passes.backward_findings(&words).len()), (2, 0));
    let mut findings = shown(1, 0, 9);
    assert_eq!(findings.size_hint(), (1, Some(1)));
    assert_eq!(findings.next(), Some(Finding::from([0, 1, 2, 3])));
    assert_eq!([findings.next(), findings.next()], [None; 2]);
}

#[test]
fn silences_end_where_the_words_are_none() {
    let words = [1, 2, 3, 4, 1, 2, 4, 65_536, 1, 2, 5, 6, 1];
    let silences = |found, from: usize| Counts { found, ..Counts::default() }.silences(&words[from..]);
    let silence = |start, ceiling| Silence { cell: 1, ring_number: 2, start, ceiling };
    let mut first = silences(9, 0);
    assert_eq!([first.next(), first.next(), first.next()], [Some(silence(3, 4)), None, None]);
    assert!(silences(9, 8).eq([silence(5, 6)]));
    assert_eq!([silences(0, 8).count(), silences(9, 11).count()], [0; 2]);
}

#[test]
fn silences_and_their_words() {
    let silence = Silence { cell: u32::MAX, ring_number: u16::MAX, start: 0, ceiling: 3 };
    let words = [u32::MAX, 65_535, 0, 3];
    assert_eq!((silence.words(), <Four>::from(silence)), (words, words));
    assert_eq!(Silence::try_from(words), Ok(silence));
    assert_eq!(silence.address(), (u32::MAX, u16::MAX, 0));
    assert!(Silence::try_from([0, 65_536, 0, 0]).is_err() && Silence::try_from([0, 0, 0, 65_536]).is_err());
}

#[test]
fn packing_and_unpacking() {
    let starts = [(0, 0), (1, 9), (5, 65_535), (u32::MAX, 1)];
    let silences = starts.map(|(start, ceiling)| Silence { cell: 7, ring_number: 2, start, ceiling });
    let words: Vec<u32> = silences.iter().flat_map(Silence::words).collect();
    let mut book = watched(SILENCE_BYTES * silences.len() + 2);
    assert_eq!(pack(&words, &mut book), Ok(Counts { found: 4, hidden: 0, looks: 0 }));
    let (packed, behind) = book.split_at(SILENCE_BYTES * silences.len());
    assert_eq!(packed, starts.map(|(start, ceiling)| field(start, ceiling)).concat());
    assert_eq!(behind, &watched::<u8>(book.len())[packed.len()..]);

    let mut back = watched(words.len() + 3);
    let counts = unpack(packed, &mut back).unwrap();
    assert_eq!(counts, Counts { found: 4, hidden: 0, looks: 0 });
    assert_eq!(back[..words.len()], words);
    assert_eq!(back[words.len()..], watched::<u32>(back.len())[words.len()..]);
    assert!(counts.silences(&back).eq(silences));

    // Both tags in one book. Packed again it has the same values under tag 22.
    let counts = unpack(&[old_field(1), field(2, 5)].concat(), &mut back).unwrap();
    assert!(counts.silences(&back).map(|silence| (silence.start, silence.ceiling)).eq([(1, 0), (2, 5)]));
    assert_eq!(pack(&back[..8], &mut book).map(|counts| counts.found), Ok(2));
    assert_eq!(book[..30], [field(1, 0), field(2, 5)].concat());
}

#[test]
fn edges_from_vertices() {
    let edges = |numbers: &[i32]| {
        let mut edges = watched(numbers.len() / 2 + 1);
        let counts = import_vertices(numbers, &mut edges).unwrap();
        assert_eq!(counts, Counts { found: numbers.len() as u64 / 2, hidden: 0, looks: 0 });
        assert_eq!(edges.pop(), watched(edges.len() + 1).pop());
        edges
    };
    assert_eq!(edges(&[0, 0, 8, 0, 8, 8, 0, 8]), [24, 26, 28, 30]);
    assert_eq!(edges(&[0, 0, 5, 0, 5, -3]), [16, 14, 19]);
    let far = [i32::MIN, 0, i32::MAX, 0, i32::MAX, 1];
    assert_eq!(edges(&far)[..2], [8 * 30, 2]);
}

#[test]
fn raw_calls_take_null_pointers_and_uninitialised_areas() {
    let mut words = [const { MaybeUninit::<u32>::uninit() }; 8];
    let lent = words.as_mut_ptr().cast();
    // SAFETY: each pointer goes with the length of its array; nothing else refers to `words`.
    let answer = unsafe { raw::outlines_scan(b"aa".as_ptr(), 2, b"aaa".as_ptr(), 3, 0, lent, 8) };
    assert_eq!(answer.result(), Ok(Counts { found: 2, hidden: 0, looks: 12 }));
    // SAFETY: two findings were written, four words each.
    assert_eq!(words.map(|word| unsafe { word.assume_init() }), [0, 0, 0, 2, 1, 0, 0, 2]);
    // SAFETY: null pointers go with length 0.
    let [scanned, packed] = unsafe {
        [
            raw::outlines_scan(ptr::null(), 0, ptr::null(), 0, 0, ptr::null_mut(), 0),
            raw::outlines_pack(ptr::null(), 0, ptr::null_mut(), 0),
        ]
    };
    assert_eq!(scanned.result(), Err(Refused { refusal: Refusal::RingLength, place: 0 }));
    assert_eq!(packed.result(), Ok(Counts::default()));
}

#[test]
fn calls_run_at_the_same_time() {
    let line: Vec<u8> = (0..20_000).map(|place| (place * place % 251) as u8).collect();
    let search = Search { ring: &line[700..760], line: &line, allowance: 3 };
    let found = || {
        let mut words = vec![0; search.room()];
        let counts = scan(search, &mut words).unwrap();
        (counts, words)
    };
    let alone = found();
    assert!(alone.0.found > 0);
    thread::scope(|scope| {
        let threads: Vec<_> = (0..4).map(|_| scope.spawn(found)).collect();
        assert!(threads.into_iter().all(|thread| thread.join().unwrap() == alone));
    });
}
