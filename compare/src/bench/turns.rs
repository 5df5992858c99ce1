//! The second mode: an input's line begun at twelve places, searched in turn, so that no branch predictor learns one line.
use super::agree::agree;
use super::contenders::{Call, Contender, Version};
use super::inputs::Input;
use super::results::{Mode, Results, Row};
use super::rows::main_row;
use super::tables::{heads, short, table};
use super::timing::time;

/// The twelve lines of an input and who is timed on them: none and nobody for inputs that are not in this mode.
pub struct Turns {
    lines: Vec<Input>,
    contenders: Vec<Contender>,
    /// For each of all contenders, whether it takes turns.
    takes: Vec<bool>,
}

impl Turns {
    /// Compares every answer on the twelve lines.
    pub fn compared(all: &[Contender], input: &Input, words: &mut [u32]) -> Result<Self, String> {
        let takes: Vec<bool> = all.iter().map(|contender| contender.takes_turns(input)).collect();
        let contenders = all.iter().zip(&takes).filter(|(_, takes)| **takes).map(|(contender, _)| *contender);
        let contenders: Vec<Contender> = contenders.collect();
        let mut lines = if contenders.is_empty() { Vec::new() } else { input.begun_at_twelve_places() };
        for line in &mut lines {
            agree(&contenders, line, words)?;
        }
        Ok(Turns { lines, contenders, takes })
    }

    /// How many answers were compared.
    pub fn answers(&self) -> usize {
        self.lines.len() * self.contenders.len()
    }

    /// The time of each contender that takes turns, in the order of all contenders.
    pub fn timed(&self, words: &mut [u32]) -> Vec<Option<f64>> {
        if self.lines.is_empty() {
            return Vec::new();
        }
        let mut times = time(&self.contenders, &self.lines, words).into_iter();
        self.takes.iter().map(|&takes| if takes { times.next() } else { None }).collect()
    }
}

/// A number, or a dash where there is none.
pub fn or_dash(number: Option<f64>) -> String {
    number.map_or("–".to_string(), short)
}

/// Means of both modes side by side and together, for each contender that takes turns.
pub fn means(page: &mut String, results: &Results) {
    page.push_str("## One line and twelve lines\n\n");
    page.push_str("Geometric means of the ratios in both modes (ACB: without the two rows with many candidates, in either mode):\n\n");
    let head = heads(&["", "over C", "one line", "twelve lines", "both"], std::iter::empty());
    let in_both = |at: usize| results.rows_of(main_row).any(|row| row.time(at, Mode::Twelve).is_some());
    let lines = results.rivals().filter(|(at, _)| in_both(*at)).map(|(at, contender)| {
        let pair = [at, Contender::place_of(Version::C, contender.against())];
        let means = [&[Mode::One][..], &[Mode::Twelve], &[Mode::One, Mode::Twelve]];
        let name = [contender.name(), contender.against().name().to_string()].into_iter();
        name.chain(means.map(|modes| short(results.mean_over(pair, modes)))).collect()
    });
    table(page, &head, lines);
}

/// The second mode row by row: some contenders over C, and the library over the limit.
pub fn rows(page: &mut String, results: &Results) {
    page.push_str("## Twelve lines in turn, row by row\n\nRatios in the second mode, over the same call in C (ACB over the scan) or over the limit. The last column has the scan in C, in nanoseconds per line edge:\n\n");
    let rules = |version, call| Contender::place_of(version, call);
    let (scan, survey) = (rules(Version::C, Call::Scan), rules(Version::C, Call::Survey));
    let (our_scan, our_survey) = (rules(Version::Ours, Call::Scan), rules(Version::Ours, Call::Survey));
    let (limit_scan, limit_survey) = (Contender::place_of_limit(Call::Scan), Contender::place_of_limit(Call::Survey));
    let columns: [(&str, [usize; 2]); 8] = [
        ("outlines scan", [our_scan, scan]),
        ("Rust scan", [rules(Version::Rust, Call::Scan), scan]),
        ("limit scan", [limit_scan, scan]),
        ("outlines scan over limit", [our_scan, limit_scan]),
        ("ACB", [Contender::place_of_acb(), scan]),
        ("outlines survey", [our_survey, survey]),
        ("limit survey", [limit_survey, survey]),
        ("outlines survey over limit", [our_survey, limit_survey]),
    ];
    let names = columns.iter().map(|(name, _)| name.to_string());
    let head = heads(&["codes / m / k"], names.chain(["C scan, ns".to_string()]));
    let line = |row: &Row| {
        let ratios = columns.iter().map(|(_, pair)| or_dash(row.over(*pair, Mode::Twelve)));
        let nanoseconds = row.time(scan, Mode::Twelve).map(|time| time / row.edges as f64);
        heads(&[&row.name], ratios.chain([or_dash(nanoseconds)]))
    };
    table(page, &head, results.rows_of(main_row).map(line));
}
