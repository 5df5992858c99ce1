//! The bars that the scan is held against, and where it stands.
use super::contenders::{Call, Contender, Version};
use super::inputs::{Kind, Part};
use super::results::{Results, Row, BAR, MODES};
use super::tables::{heads, short, table};
use super::turns::or_dash;
use std::fmt::Write;

/// The scan over the scan in C, and over the limit's, by geometric means.
const OVER_C: f64 = 0.80;
const OVER_LIMIT: f64 = 1.40;
/// How far ACB may be ahead on a row before the row counts.
const AHEAD: f64 = 1.2;
/// On how many rows ACB may be.
const ROWS_AHEAD: usize = 4;

fn verdict(held: bool) -> &'static str {
    if held {
        "held"
    } else {
        "missed"
    }
}

fn means(page: &mut String, results: &Results) {
    let scan = |version| Contender::place_of(version, Call::Scan);
    let over_c = ("scan over C", OVER_C, [scan(Version::Ours), scan(Version::C)]);
    let over_limit = ("scan over the limit", OVER_LIMIT, [scan(Version::Ours), Contender::place_of_limit(Call::Scan)]);
    let line = |(name, bar, pair): (&str, f64, [usize; 2])| {
        let both = results.mean_over(pair, &MODES);
        let each = MODES.map(|mode| short(results.mean_over(pair, &[mode])));
        let cells = [short(bar), each[0].clone(), each[1].clone(), short(both), verdict(both <= bar).to_string()];
        heads(&[name], cells.into_iter())
    };
    let head =
        heads(&["geometric mean over all rows", "bar", "one line", "twelve lines", "both", ""], std::iter::empty());
    table(page, &head, [over_c, over_limit].into_iter().map(line));
}

/// The rows that have both modes: those of the means, and the ring of one edge.
fn rows(results: &Results) -> impl Iterator<Item = &Row> {
    results.rows_of(|kind| matches!(kind, Kind::Main(_) | Kind::AllFound))
}

/// The rows on which one contender's time over another's is above the bar in either mode.
fn rows_above(page: &mut String, results: &Results, pair: [usize; 2], bar: f64) {
    let above = |row: &&Row| MODES.iter().any(|&mode| row.over(pair, mode).is_some_and(|ratio| ratio > bar));
    let rows: Vec<&Row> = rows(results).filter(above).collect();
    if rows.is_empty() {
        page.push_str("None.\n\n");
        return;
    }
    let head = heads(&["codes / m / k", "one line", "twelve lines", "both"], std::iter::empty());
    let cells = |row: &&Row| {
        let each = MODES.iter().map(|&mode| or_dash(row.over(pair, mode)));
        heads(&[&row.name], each.chain([short(row.over_both(pair))]))
    };
    table(page, &head, rows.iter().map(cells));
}

/// Whether a row may be above the bar: the constant line and the ring of one edge may.
fn may_be_above(row: &Row) -> bool {
    matches!(row.kind, Kind::Main(Part::Constant) | Kind::AllFound)
}

/// How many of these rows are above the bar by both modes together.
fn count_above<'a>(rows: impl Iterator<Item = &'a Row>, pair: [usize; 2], bar: f64) -> usize {
    rows.filter(|row| row.over_both(pair) > bar).count()
}

/// The section of the page.
pub fn section(page: &mut String, results: &Results) {
    page.push_str("## Against the bars\n\nWhat the library's scan is held against. Each line is searched again and again (*one line*), and begun at twelve ");
    page.push_str(
        "places and searched in turn (*twelve lines*); what counts is *both*, the geometric mean of the two.\n\n",
    );
    means(page, results);
    let scan = |version| Contender::place_of(version, Call::Scan);
    let over_c = [scan(Version::Ours), scan(Version::C)];
    let count = count_above(rows(results).filter(|row| !may_be_above(row)), over_c, BAR);
    let _ = writeln!(
        page,
        "No row but the constant line and the ring of one edge (constant / 1 / 0) may take more than {BAR} times the scan in C. Other rows above it, both modes together: {count} ({}). All rows above {BAR} in either mode:\n",
        verdict(count == 0)
    );
    rows_above(page, results, over_c, BAR);
    let over_acb = [scan(Version::Ours), Contender::place_of_acb()];
    let count = count_above(rows(results), over_acb, AHEAD);
    let _ = writeln!(
        page,
        "ACB may be ahead of the library's scan by more than {AHEAD} on at most {ROWS_AHEAD} rows. In both modes together it is on {count}: {}. All rows above {AHEAD} in either mode, as the scan's time over ACB's:\n",
        verdict(count <= ROWS_AHEAD)
    );
    rows_above(page, results, over_acb, AHEAD);
}
