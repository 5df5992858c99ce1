//! The tables that have a line for each row.
use super::contenders::{Call, Contender, Version};
use super::inputs::Kind;
use super::results::{Results, Row};
use super::tables::{heads, short, table};

/// Rows that count in the means.
pub fn main_row(kind: Kind) -> bool {
    matches!(kind, Kind::Main(_))
}

fn is_peer(contender: &Contender) -> bool {
    matches!(contender, Contender::Peer(_))
}

/// A line for each row and a column for each contender that is chosen.
fn values<'a>(
    page: &mut String,
    results: &'a Results,
    rows: impl Iterator<Item = &'a Row>,
    chosen: impl Fn(&Contender) -> bool,
    value: impl Fn(&Row, usize) -> f64,
) {
    let columns: Vec<_> = results.contenders.iter().enumerate().filter(|(_, contender)| chosen(contender)).collect();
    let head = heads(&["codes / m / k"], columns.iter().map(|(_, contender)| contender.name()));
    let line = |row: &Row| heads(&[&row.name], columns.iter().map(|(at, _)| short(value(row, *at))));
    table(page, &head, rows.map(line));
}

/// Ratios to the same rules in C.
pub fn ratios(page: &mut String, results: &Results) {
    let ratio = |row: &Row, at: usize| row.ratio(at, &results.contenders[at]);
    page.push_str(
        "## Ratios, row by row\n\nThe library, the rules in Rust and the limit, each over the same call in C:\n\n",
    );
    let rival = |contender: &Contender| !is_peer(contender) && !matches!(contender, Contender::Rules(Version::C, _));
    values(page, results, results.rows_of(main_row), rival, ratio);
    page.push_str("Peers, over the scan in C:\n\n");
    values(page, results, results.rows_of(main_row), is_peer, ratio);
}

/// The times that the ratios come from.
pub fn times(page: &mut String, results: &Results) {
    page.push_str("## Nanoseconds per line edge\n\n");
    let per_edge = |row: &Row, at: usize| row.per_edge(at);
    values(page, results, results.rows_of(main_row), |contender| !is_peer(contender), per_edge);
    values(page, results, results.rows_of(main_row), is_peer, per_edge);
    page.push_str("What the scan found, and its looks per line edge:\n\n");
    let head = heads(&["codes / m / k", "findings", "looks"], std::iter::empty());
    let looks = |row: &Row| short(row.looks as f64 / row.edges as f64);
    table(page, &head, results.rows_of(main_row).map(|row| vec![row.name.clone(), row.found.to_string(), looks(row)]));
}

/// Cost against the length of the line and of the ring, in nanoseconds per line edge.
pub fn growth(page: &mut String, results: &Results) {
    page.push_str("## How cost grows\n\nNanoseconds per line edge, 26 codes, k = 2. A longer line, m = 60:\n\n");
    let searches = |call: Call| matches!(call, Call::Scan | Call::Survey);
    let chosen = |contender: &Contender| is_peer(contender) || searches(contender.against());
    let per_edge = |row: &Row, at: usize| row.per_edge(at);
    values(page, results, results.rows_of(|kind| kind == Kind::GrowingLine), chosen, per_edge);
    page.push_str("A longer ring, n = 65,536:\n\n");
    values(page, results, results.rows_of(|kind| kind == Kind::GrowingRing), chosen, per_edge);
}
