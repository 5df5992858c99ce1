//! Tables in Markdown.
use std::fmt::Write;

/// A number with about three digits.
pub fn short(number: f64) -> String {
    match number {
        n if n < 1.0 => format!("{n:.3}"),
        n if n < 10.0 => format!("{n:.2}"),
        n if n < 100.0 => format!("{n:.1}"),
        n => format!("{n:.0}"),
    }
}

/// A table whose first column is words and whose other columns are numbers.
pub fn table(page: &mut String, head: &[String], rows: impl Iterator<Item = Vec<String>>) {
    let _ = writeln!(page, "| {} |", head.join(" | "));
    let _ = writeln!(page, "|---|{}", "---:|".repeat(head.len() - 1));
    for row in rows {
        let _ = writeln!(page, "| {} |", row.join(" | "));
    }
    page.push('\n');
}

/// The cells of a line: some words first, then the rest.
pub fn heads(first: &[&str], rest: impl Iterator<Item = String>) -> Vec<String> {
    first.iter().map(|head| head.to_string()).chain(rest).collect()
}
