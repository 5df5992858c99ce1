//! This crate beside include/outlines.h: every number, refusal, text, struct, call and figure of the stack, and none left out on
//! either side.

use outlines::*;
use std::collections::BTreeMap;
use std::fs;

fn header() -> String {
    let path = concat!(env!("CARGO_MANIFEST_DIR"), "/../../include/outlines.h");
    fs::read_to_string(path).unwrap_or_else(|why| panic!("{path}: {why}"))
}

/// The text between two others.
fn between<'a>(text: &'a str, from: &str, to: &str) -> &'a str {
    let (_, rest) = text.split_once(from).unwrap_or_else(|| panic!("no {from:?}"));
    rest.split_once(to).unwrap_or_else(|| panic!("no {to:?} behind {from:?}")).0
}

fn one_space(text: &str) -> String {
    text.split_whitespace().collect::<Vec<_>>().join(" ")
}

type Named = BTreeMap<String, String>;

fn named<V: ToString>(pairs: impl IntoIterator<Item = (&'static str, V)>) -> Named {
    pairs.into_iter().map(|(name, value)| (name.to_string(), value.to_string())).collect()
}

/// The macros of the header by name, without OUTLINES_: those with a value, and those with arguments. The include guard has neither.
fn macros(header: &str) -> (Named, Vec<String>) {
    let (mut values, mut functions) = (Named::new(), Vec::new());
    for line in header.lines().filter_map(|line| line.strip_prefix("#define ")) {
        let line = line.strip_prefix("OUTLINES_").expect("a name of the library");
        let end = line.find(|letter: char| letter != '_' && !letter.is_ascii_uppercase()).unwrap_or(line.len());
        let (name, rest) = line.split_at(end);
        let value = rest.split("/*").next().unwrap_or_default().trim();
        if rest.starts_with('(') {
            functions.push(name.to_string());
        } else if !value.is_empty() {
            values.insert(name.to_string(), value.to_string());
        }
    }
    (values, functions)
}

#[test]
fn every_number_is_a_constant() {
    let numbers = [
        ("MOST_RING", MOST_RING),
        ("MOST_LINE", MOST_LINE),
        ("MARK", MARK.into()),
        ("MOST_CODE", MOST_CODE.into()),
        ("FINDING_WORDS", FINDING_WORDS),
        ("SILENCE_WORDS", SILENCE_WORDS),
        ("SILENCE_BYTES", SILENCE_BYTES),
        ("MOST_SILENCES", MOST_SILENCES),
        ("MOST_RING_NUMBER", MOST_RING_NUMBER.into()),
        ("MOST_CEILING", MOST_CEILING.into()),
        ("MOST_RECORDS", MOST_RECORDS),
        ("MOST_BOOK", MOST_BOOK),
        ("FEWEST_VERTICES", FEWEST_VERTICES),
        ("MOST_VERTICES", MOST_VERTICES),
    ];
    let mut ours = named(numbers);
    ours.insert("VERSION".to_string(), format!("{VERSION:?}"));
    let (theirs, functions) = macros(&header());
    assert_eq!(theirs, ours);
    assert_eq!(
        functions,
        ["ROOM", "ROOM_CLOSED", "ROOM_TWO_WAY", "ROOM_JOIN", "IF_SEARCHED", "SIZE", "SIZE"],
        "the rooms of Search"
    );

    let source = include_str!("../src/limits.rs").lines().filter_map(|line| line.strip_prefix("pub const "));
    let mut declared: Vec<&str> = source.map(|line| line.split(':').next().unwrap()).collect();
    declared.sort();
    assert!(ours.keys().eq(declared.iter()), "{declared:?}");
}

/// The header's name of each refusal, without OUTLINES_.
const REFUSALS: [(&str, Refusal); 15] = [
    ("RING", Refusal::RingLength),
    ("ALLOWANCE", Refusal::Allowance),
    ("LINE", Refusal::LineLength),
    ("FINDINGS_ROOM", Refusal::RoomForFindings),
    ("BOOK_LENGTH", Refusal::BookLength),
    ("FIELD", Refusal::Field),
    ("NOT_ABOVE", Refusal::Order),
    ("WORD_COUNT", Refusal::WordsToPack),
    ("NUMBER_IN_RECORD", Refusal::NumberToPack),
    ("OUTPUT_ROOM", Refusal::RoomForOutput),
    ("INPUT", Refusal::ProgramInput),
    ("RING_MARK", Refusal::MarkInRing),
    ("RING_CODE", Refusal::CodeInRing),
    ("VERTEX_COUNT", Refusal::VertexCount),
    ("EQUAL_NEIGHBOURS", Refusal::EqualNeighbours),
];

/// The lines of a part of the header that begin with this word and OUTLINES_, cut in two: the name, and what stands behind a sign.
fn listed(part: &str, word: &str, sign: &str) -> Named {
    let lines = part.lines().filter_map(|line| line.trim().strip_prefix(word)?.strip_prefix("OUTLINES_"));
    let pairs = lines.map(|line| line.split_once(sign).unwrap_or_else(|| panic!("{line}")));
    pairs.map(|(name, rest)| (name.trim().to_string(), rest.trim().to_string())).collect()
}

#[test]
fn every_refusal_has_its_number() {
    let header = header();
    let theirs = listed(between(&header, "enum outlines_refusal {", "\n};"), "", "=");
    let number = |text: String| text.split([',', ' ']).next().unwrap().to_string();
    let theirs: Named = theirs.into_iter().map(|(name, text)| (name, number(text))).collect();
    let mut ours = named(REFUSALS.map(|(name, refusal)| (name, refusal.number())));
    ours.insert("ACCEPTED".to_string(), "0".to_string());
    assert_eq!(theirs, ours);

    // No variant is missing in ALL, and ALL rises.
    let source = include_str!("../src/refusals.rs");
    let declared: Vec<String> = between(source, "pub enum Refusal {", "\n}")
        .lines()
        .filter_map(|line| line.trim().strip_suffix(',')?.split_once(" = ").filter(|(name, _)| !name.contains(' ')))
        .map(|(name, number)| format!("{name} {number}"))
        .collect();
    let all: Vec<String> = Refusal::ALL.iter().map(|refusal| format!("{refusal:?} {}", refusal.number())).collect();
    assert_eq!(declared, all);
    assert!(REFUSALS.iter().map(|(_, refusal)| refusal).eq(Refusal::ALL));
}

#[test]
fn every_refusal_has_its_text() {
    let header = header();
    let part = between(&header, "*outlines_refusal_text(", "\n}");
    let theirs: Named = listed(part, "case ", ": return ").into_iter().collect();
    let mut ours = named(REFUSALS.map(|(name, refusal)| (name, format!("\"{refusal}\";"))));
    ours.insert("ACCEPTED".to_string(), "\"accepted\";".to_string());
    assert_eq!(theirs, ours);
}

/// A declaration of C as Rust has it: `const uint8_t *ring` is `ring: *const u8`.
fn in_rust(declaration: &str) -> String {
    let (kind, name) = declaration.rsplit_once([' ', '*']).unwrap_or_else(|| panic!("{declaration}"));
    let plain = kind.trim_start_matches("const ").trim_end_matches(['*', ' ']);
    let plain = match plain {
        "uint8_t" => "u8",
        "uint16_t" => "u16",
        "uint32_t" => "u32",
        "uint64_t" => "u64",
        "int32_t" => "i32",
        "size_t" => "usize",
        "struct outlines_answer" => "Answer",
        "struct outlines_two_way" => "TwoWay",
        other => panic!("{other} in {declaration}"),
    };
    match (declaration.starts_with("const "), declaration.contains('*')) {
        (true, true) => format!("{name}: *const {plain}"),
        (false, true) => format!("{name}: *mut {plain}"),
        _ => format!("{name}: {plain}"),
    }
}

#[test]
fn every_call_is_declared() {
    let header = header();
    let code = header.split("*/").map(|part| part.split("/*").next().unwrap()).collect::<String>();
    let declarations = code.split(';').filter(|text| text.contains('(') && text.trim().starts_with("struct outlines_"));
    let mut theirs: Vec<String> = declarations
        .map(|text| {
            let text = one_space(text);
            let (call, arguments) = text.strip_suffix(')').and_then(|text| text.split_once('(')).unwrap();
            let arguments: Vec<String> = arguments.split(", ").map(in_rust).collect();
            let (name, answer) = in_rust(call).split_once(": ").map(|(a, b)| (a.to_string(), b.to_string())).unwrap();
            format!("{name}({}) -> {answer}", arguments.join(", "))
        })
        .collect();
    let declared = between(include_str!("../src/raw.rs"), "unsafe extern \"C\" {", "\n}");
    let calls = declared.split("pub fn ").skip(1).map(|text| one_space(text.split(';').next().unwrap()));
    let mut ours: Vec<String> = calls.map(|text| text.replace("( ", "(").replace(", )", ")")).collect();
    theirs.sort();
    ours.sort();
    assert_eq!((theirs.len(), theirs), (10, ours));
}

#[test]
fn every_struct_has_its_fields() {
    let header = header();
    for (theirs, ours) in [("outlines_answer", "Answer"), ("outlines_two_way", "TwoWay")] {
        let fields = between(&header, &format!("\nstruct {theirs} {{\n"), "\n};");
        let theirs: Vec<String> = fields.lines().map(|line| in_rust(line.trim().split(';').next().unwrap())).collect();
        let fields = between(include_str!("../src/raw.rs"), &format!("pub struct {ours} {{"), "\n}");
        let ours = fields.lines().filter_map(|line| line.trim().strip_prefix("pub ")?.strip_suffix(','));
        assert_eq!(theirs, ours.collect::<Vec<_>>());
    }
}

#[test]
fn the_stack_of_every_call() {
    let header = header();
    let words: Vec<&str> = between(&header, "* Stack.", "*/").split_whitespace().collect();
    let figures = words.windows(2).filter_map(|pair| Some((pair[0].strip_prefix("outlines_")?, pair[1])));
    let theirs: Named =
        figures.map(|(name, most)| (name.to_string(), most.trim_end_matches(',').to_string())).collect();
    let table = between(include_str!("../src/lib.rs"), "//! | call | bytes |", "//!\n");
    let rows = table.lines().filter_map(|line| line.strip_prefix("//! | `")?.strip_suffix(" |")?.split_once("` | "));
    let ours: Named = rows.map(|(name, most)| (name.to_string(), most.to_string())).collect();
    assert_eq!((theirs.len(), theirs), (10, ours));
}
