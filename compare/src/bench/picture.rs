//! The picture of the ratios: a line for each contender, a dot for each row, a bar at the geometric mean, all of
//! one line again and again. The rules with their limit and the peers have a panel each, since their ratios differ by powers
//! of ten.
use super::contenders::Contender;
use super::inputs::{Kind, Part};
use super::results::{geometric_mean, Results};
use std::fmt::Write;

const WIDTH: f64 = 900.0;
const LEFT: f64 = 230.0;
const RIGHT: f64 = 70.0;
const TOP: f64 = 56.0;
const LINE: f64 = 24.0;
/// Between a panel's last line and the next panel.
const FOOT: f64 = 48.0;

/// Colours for a light page and, by media query, for a dark one. The picture has its own ground, so it is readable on both.
const STYLE: &str = "<style>
  .ground { fill: #ffffff } .grid { stroke: #d5d8dc } .one { stroke: #555b61 } text { fill: #24292e; font: 12px sans-serif }
  .c4 { fill: #1f6fb2 } .c26 { fill: #c05a00 } .c255 { fill: #2b8a3e } .other { fill: #8540a8 } .mean { stroke: #24292e }
  @media (prefers-color-scheme: dark) {
    .ground { fill: #16191d } .grid { stroke: #343a40 } .one { stroke: #9aa1a8 } text { fill: #dfe3e7 }
    .c4 { fill: #6cb2f0 } .c26 { fill: #f2a155 } .c255 { fill: #6fce84 } .other { fill: #cf9bea } .mean { stroke: #ffffff }
  }
</style>";

const LEGEND: [(&str, &str); 4] = [
    ("c4", "4 codes"),
    ("c26", "26 codes"),
    ("c255", "255 codes"),
    ("other", "cut by marks, constant line, boundaries"),
];

/// Where a panel may have a line of its grid: finely about 1, then by tens.
const FINE: [f64; 10] = [0.0625, 0.125, 0.25, 0.5, 0.75, 1.0, 1.3, 2.0, 4.0, 8.0];
const COARSE: [f64; 9] = [0.001, 0.01, 0.1, 1.0, 10.0, 100.0, 1000.0, 10_000.0, 100_000.0];

fn colour(part: Part) -> &'static str {
    match part {
        Part::Codes(4) => "c4",
        Part::Codes(26) => "c26",
        Part::Codes(255) => "c255",
        _ => "other",
    }
}

/// Some contenders' lines over a scale of their own, from its lowest to its highest grid line.
struct Panel<'a> {
    results: &'a Results,
    lines: Vec<usize>,
    grid: Vec<f64>,
    top: f64,
}

impl<'a> Panel<'a> {
    fn new(results: &'a Results, top: f64, chosen: impl Fn(&Contender) -> bool) -> Self {
        let lines: Vec<usize> = results.rivals().filter(|(_, contender)| chosen(contender)).map(|(at, _)| at).collect();
        let ratios: Vec<f64> = lines.iter().flat_map(|&at| results.ratios(at, |_| true)).collect();
        let least = ratios.iter().copied().fold(1.0, f64::min);
        let most = ratios.iter().copied().fold(1.0, f64::max);
        let ticks: &[f64] = if least > FINE[0] && most < FINE[9] { &FINE } else { &COARSE };
        let low = ticks.iter().rposition(|&tick| tick <= least).unwrap_or(0);
        let high = ticks.iter().position(|&tick| tick >= most).unwrap_or(ticks.len() - 1);
        let (low, high) = (low.min(ticks.len() - 2), high.max(low + 1));
        Panel { results, lines, grid: ticks[low..=high].to_vec(), top }
    }

    fn bottom(&self) -> f64 {
        self.top + LINE * self.lines.len() as f64
    }

    fn x(&self, ratio: f64) -> f64 {
        let (low, high) = (self.grid[0].ln(), self.grid[self.grid.len() - 1].ln());
        LEFT + (ratio.ln() - low) / (high - low) * (WIDTH - LEFT - RIGHT)
    }

    fn draw(&self, svg: &mut String) {
        let (top, bottom) = (self.top, self.bottom());
        for &tick in &self.grid {
            let x = self.x(tick);
            let class = if tick == 1.0 { "one" } else { "grid" };
            let _ = writeln!(svg, "<line class=\"{class}\" x1=\"{x:.1}\" y1=\"{top}\" x2=\"{x:.1}\" y2=\"{bottom}\"/>");
            let _ = writeln!(svg, "<text x=\"{x:.1}\" y=\"{}\" text-anchor=\"middle\">{tick}</text>", bottom + 17.0);
        }
        for (line, &at) in self.lines.iter().enumerate() {
            self.draw_line(svg, at, top + LINE * (line as f64 + 0.5));
        }
    }

    fn draw_line(&self, svg: &mut String, at: usize, y: f64) {
        let contender = &self.results.contenders[at];
        let _ = writeln!(
            svg,
            "<text x=\"{}\" y=\"{}\" text-anchor=\"end\">{}</text>",
            LEFT - 14.0,
            y + 4.0,
            contender.name()
        );
        for row in &self.results.rows {
            if let Kind::Main(part) = row.kind {
                let (class, x) = (colour(part), self.x(row.ratio(at, contender)));
                let _ = writeln!(
                    svg,
                    "<circle class=\"{class}\" cx=\"{x:.1}\" cy=\"{y}\" r=\"3.5\" fill-opacity=\"0.65\"/>"
                );
            }
        }
        let mean = geometric_mean(&self.results.ratios(at, |_| true));
        let (x, from, to) = (self.x(mean), y - 9.0, y + 9.0);
        let _ = writeln!(
            svg,
            "<line class=\"mean\" stroke-width=\"2\" x1=\"{x:.1}\" y1=\"{from}\" x2=\"{x:.1}\" y2=\"{to}\"/>"
        );
        let _ = writeln!(svg, "<text x=\"{}\" y=\"{}\">{mean:.2}</text>", WIDTH - RIGHT + 16.0, y + 4.0);
    }
}

fn legend(svg: &mut String) {
    let words =
        "Time over that of the same rules in C, one line again and again: left of 1 is faster. A dot is an input, a bar the geometric mean.";
    let _ = writeln!(svg, "<text x=\"12\" y=\"20\">{words}</text>");
    for (at, (class, name)) in LEGEND.iter().enumerate() {
        let x = LEFT + 110.0 * at as f64;
        let _ = writeln!(
            svg,
            "<circle class=\"{class}\" cx=\"{x}\" cy=\"38\" r=\"4\"/><text x=\"{}\" y=\"42\">{name}</text>",
            x + 9.0
        );
    }
}

pub fn picture(results: &Results) -> String {
    let rules = Panel::new(results, TOP, |contender| !matches!(contender, Contender::Peer(_)));
    let peers = Panel::new(results, rules.bottom() + FOOT, |contender| matches!(contender, Contender::Peer(_)));
    let height = peers.bottom() + 30.0;
    let mut svg = format!("<svg xmlns=\"http://www.w3.org/2000/svg\" viewBox=\"0 0 {WIDTH} {height}\" role=\"img\">\n");
    let _ = writeln!(svg, "<title>Ratios to the same rules in C</title>\n{STYLE}");
    let _ = writeln!(svg, "<rect class=\"ground\" width=\"{WIDTH}\" height=\"{height}\"/>");
    legend(&mut svg);
    rules.draw(&mut svg);
    peers.draw(&mut svg);
    svg.push_str("</svg>\n");
    svg
}
