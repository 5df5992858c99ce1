//! The page of results: ratios first, then the times they come from.
use super::contenders::{Call, Contender, Version, VERSIONS};
use super::inputs::{Kind, Part};
use super::results::{geometric_mean, Results, Row, Second, BAR, MODES};
use super::rows::{growth, main_row, ratios, times};
use super::tables::{heads, short, table};
use super::{bars, closed, machine, parts, turns};
use std::fmt::Write;

/// How the times were taken and how each peer reads its source: words that no run changes.
const METHOD: &str = include_str!("method.md");

/// Trials that were timed by hand, behind choices of docs/DECISIONS.md: no run changes these either.
const TRIALS: &str = include_str!("trials.md");

/// A mean's name and the main rows that it is of.
type Mean = (&'static str, fn(Part) -> bool);

/// A line for each contender: its geometric means over all main rows and over parts of them, and its extremes.
fn means(page: &mut String, results: &Results) {
    let parts: [Mean; 7] = [
        ("all rows", |_| true),
        ("4 codes", |part| part == Part::Codes(4)),
        ("26 codes", |part| part == Part::Codes(26)),
        ("255 codes", |part| part == Part::Codes(255)),
        ("cut by marks", |part| part == Part::Cut),
        ("constant", |part| part == Part::Constant),
        ("boundaries", |part| part == Part::Boundaries),
    ];
    let names = parts.iter().map(|part| part.0.to_string());
    let head = heads(&["", "over C"], names.chain(["least".to_string(), "most".to_string()]));
    let lines = results.rivals().map(|(at, contender)| {
        let all = results.ratios(at, |_| true);
        let means = parts.iter().map(|part| short(geometric_mean(&results.ratios(at, part.1))));
        let least = all.iter().copied().fold(f64::INFINITY, f64::min);
        let most = all.iter().copied().fold(0.0, f64::max);
        let name = [contender.name(), contender.against().name().to_string()].into_iter();
        name.chain(means).chain([short(least), short(most)]).collect()
    });
    table(page, &head, lines);
}

/// The library over the limit, and the sliding survey, which stands among the peers over the scan, over the survey in C.
fn ceilings(page: &mut String, results: &Results) {
    let [scan, survey] = [Call::Scan, Call::Survey].map(|call| {
        let pair = [Contender::place_of(Version::Ours, call), Contender::place_of_limit(call)];
        short(results.mean_over(pair, &MODES))
    });
    let _ = writeln!(page, "The library's scan takes {scan} times the limit's, its survey {survey}: geometric means over all rows, one line and twelve lines together.\n");
    for (at, contender) in results.contenders.iter().enumerate() {
        if contender.name() == "sliding survey" {
            let over_survey = |row: &Row| row.times[at] / row.time_of(Version::C, Call::Survey);
            let ratios: Vec<f64> = results.rows_of(main_row).map(over_survey).collect();
            let mean = short(geometric_mean(&ratios));
            let _ = writeln!(page, "Over the survey in C the sliding survey takes {mean}.\n");
        }
    }
}

/// A report that hides against the scan alone, where every start is a finding.
fn hiding(page: &mut String, results: &Results) {
    page.push_str(
        "## A report that hides\n\nOn 65,536 findings (a ring of 1 edge, a constant line, k = 0), a report with 1,000 ",
    );
    page.push_str("silences takes this multiple of the time of the same version's scan alone:\n\n");
    let head = heads(&["", "report over scan"], std::iter::empty());
    for row in results.rows_of(|kind| kind == Kind::AllFound) {
        let over_scan = |version| row.time_of(version, Call::Hiding) / row.time_of(version, Call::Scan);
        table(page, &head, VERSIONS.iter().map(|v| vec![v.name().to_string(), short(over_scan(*v))]));
    }
}

fn second_runs(page: &mut String, results: &Results) {
    let _ = writeln!(
        page,
        "## Second runs\n\nA row whose scan took over {BAR} times the scan in C was timed once more in that mode; the second"
    );
    page.push_str("run's times stand in the tables.\n\n");
    if results.seconds.is_empty() {
        page.push_str("No row did.\n\n");
        return;
    }
    let head = heads(&["codes / m / k", "mode", "first", "second", "over the bar"], std::iter::empty());
    let verdict = |ratio: f64| {
        if ratio > BAR {
            "confirmed"
        } else {
            "withdrawn"
        }
    };
    let line = |s: &Second| {
        let words = [s.mode.name().to_string(), short(s.first), short(s.second), verdict(s.second).to_string()];
        heads(&[&s.name], words.into_iter())
    };
    table(page, &head, results.seconds.iter().map(line));
}

/// What a ratio is, and what was timed on what. `loads` are the machine's loads before and after.
fn introduction(page: &mut String, loads: [&str; 2]) {
    page.push_str("# How fast it is\n\n");
    page.push_str("A ratio is a time over that of *the same rules in C*: the same call in plain C (compare/c). Below 1 is faster. ");
    page.push_str("The rules in C and in Rust are built like the library but for three things: their fresh count takes one edge in each pass and ");
    page.push_str("counts in sixteen bits, the library's takes four and counts in eight; their table of vectors has every word of every code, the ");
    page.push_str("library keeps the words that have a bit; they mask the bit that goes round, the library does not (trials 11, 13 and 14). ");
    page.push_str("A peer is set against the scan in C. *The limit* is scan and survey with the same looks, as fast as we know to write them by ");
    page.push_str("hand in C (compare/c/limit.h). It shows what room the rules leave; it is no strict bound: on a few rows the library's scan is faster.\n\n");
    let _ = writeln!(
        page,
        "{}, on {}. Load of the machine {} before, {} after.\n",
        machine::today(),
        machine::processor(),
        loads[0],
        loads[1]
    );
    let head = heads(&["", "built by"], std::iter::empty());
    table(page, &head, machine::compilers().into_iter().map(|(who, by)| vec![who.to_string(), by]));
}

/// The whole page.
pub fn page(results: &Results, loads: [&str; 2], picture: &str) -> String {
    let mut page = String::new();
    introduction(&mut page, loads);
    page.push_str("## Geometric means of the ratios\n\nEach line searched again and again:\n\n");
    means(&mut page, results);
    ceilings(&mut page, results);
    let _ = writeln!(page, "![ratios to the same rules in C]({picture})\n");
    bars::section(&mut page, results);
    turns::means(&mut page, results);
    parts::section(&mut page, &results.parts);
    ratios(&mut page, results);
    turns::rows(&mut page, results);
    hiding(&mut page, results);
    closed::section(&mut page, &results.closed);
    second_runs(&mut page, results);
    times(&mut page, results);
    growth(&mut page, results);
    let _ = writeln!(
        page,
        "## How it is measured\n\n{} answers were compared before anything was timed, all equal.\n",
        results.compared
    );
    page.push_str(METHOD);
    page.push_str("\n## Trials\n\n");
    page.push_str(TRIALS);
    page
}
