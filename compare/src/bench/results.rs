//! What was measured, and the ratios and means of it.
use super::closed::ClosedRow;
use super::contenders::{Call, Contender, Version};
use super::inputs::{Input, Kind, Part};
use super::parts::PartsRow;
use crate::peers::Answer;

/// A scan that takes longer than this many times the scan in C misses the bar, and its row is timed once more.
pub const BAR: f64 = 1.15;

/// How the lines come: one line again and again, or twelve in turn.
#[derive(Clone, Copy, PartialEq, Eq, Debug)]
pub enum Mode {
    One,
    Twelve,
}

pub const MODES: [Mode; 2] = [Mode::One, Mode::Twelve];

impl Mode {
    pub fn name(self) -> &'static str {
        match self {
            Mode::One => "one line",
            Mode::Twelve => "twelve lines",
        }
    }
}

/// One input's times, in nanoseconds of a call, in the order of the contenders.
pub struct Row {
    pub name: String,
    pub kind: Kind,
    pub edges: usize,
    pub found: usize,
    pub looks: usize,
    /// On the line again and again.
    pub times: Vec<f64>,
    /// On twelve lines in turn, of the contenders that take turns on this input. Empty if none does.
    pub in_turn: Vec<Option<f64>>,
}

impl Row {
    pub fn new(input: &Input, answer: Answer, times: Vec<f64>, in_turn: Vec<Option<f64>>) -> Self {
        let (name, edges) = (input.name.clone(), input.line.len());
        Row { name, kind: input.kind, edges, found: answer.found, looks: answer.looks, times, in_turn }
    }

    pub fn time(&self, at: usize, mode: Mode) -> Option<f64> {
        match mode {
            Mode::One => Some(self.times[at]),
            Mode::Twelve => self.in_turn.get(at).copied().flatten(),
        }
    }

    pub fn time_of(&self, version: Version, call: Call) -> f64 {
        self.times[Contender::place_of(version, call)]
    }

    pub fn per_edge(&self, at: usize) -> f64 {
        self.times[at] / self.edges as f64
    }

    /// One contender's time over another's, if both were timed in this mode.
    pub fn over(&self, [at, base]: [usize; 2], mode: Mode) -> Option<f64> {
        Some(self.time(at, mode)? / self.time(base, mode)?)
    }

    /// The same over both modes together, by their geometric mean, or over the one that there is.
    pub fn over_both(&self, pair: [usize; 2]) -> f64 {
        geometric_mean(&MODES.iter().filter_map(|&mode| self.over(pair, mode)).collect::<Vec<_>>())
    }

    /// A contender's time over that of the same call in C, and a peer's over that of the scan in C.
    pub fn ratio(&self, at: usize, contender: &Contender) -> f64 {
        self.times[at] / self.time_of(Version::C, contender.against())
    }

    /// The library's scan over the scan in C.
    pub fn scan_ratio(&self, mode: Mode) -> Option<f64> {
        self.over([Version::Ours, Version::C].map(|version| Contender::place_of(version, Call::Scan)), mode)
    }
}

/// A row that missed the bar: its scan's ratio in the first run and in the second.
pub struct Second {
    pub name: String,
    pub mode: Mode,
    pub first: f64,
    pub second: f64,
}

pub struct Results {
    pub contenders: Vec<Contender>,
    pub rows: Vec<Row>,
    pub seconds: Vec<Second>,
    pub closed: Vec<ClosedRow>,
    pub parts: Vec<PartsRow>,
    /// How many answers were compared before anything was timed.
    pub compared: usize,
}

impl Results {
    pub fn rows_of<'a>(&'a self, belongs: impl Fn(Kind) -> bool + 'a) -> impl Iterator<Item = &'a Row> {
        self.rows.iter().filter(move |row| belongs(row.kind))
    }

    /// A contender's ratios on the rows that count in the means.
    pub fn ratios(&self, at: usize, belongs: impl Fn(Part) -> bool) -> Vec<f64> {
        let contender = &self.contenders[at];
        let main = |kind| matches!(kind, Kind::Main(part) if belongs(part));
        self.rows_of(main).map(|row| row.ratio(at, contender)).collect()
    }

    /// The geometric mean of one contender's times over another's, on the main rows that have both in both modes.
    pub fn mean_over(&self, pair: [usize; 2], modes: &[Mode]) -> f64 {
        let main = |kind| matches!(kind, Kind::Main(_));
        let rows = self.rows_of(main).filter(|row| row.over(pair, Mode::Twelve).is_some());
        let ratios: Vec<f64> = rows.flat_map(|row| modes.iter().filter_map(|&mode| row.over(pair, mode))).collect();
        geometric_mean(&ratios)
    }

    /// The contenders that have a ratio: all but the rules in C, which the ratios are to.
    pub fn rivals(&self) -> impl Iterator<Item = (usize, &Contender)> {
        let rivals = self.contenders.iter().enumerate();
        rivals.filter(|(_, contender)| !matches!(contender, Contender::Rules(Version::C, _)))
    }
}

pub fn geometric_mean(ratios: &[f64]) -> f64 {
    (ratios.iter().map(|ratio| ratio.ln()).sum::<f64>() / ratios.len() as f64).exp()
}
