//! What a closed search met at the seam. No call returns it: the comparison adds it up, to show that its cases have windows
//! there.

use super::book::Silence;
use super::line::Line;
use super::meaning::{holds_mark, Finding};

#[derive(Clone, Copy, Debug, Default, PartialEq, Eq)]
pub struct Seam {
    /// Findings whose window crosses, hidden ones included.
    pub found: u64,
    /// Of these, those at the line's last place.
    pub last: u64,
    /// Of these, those that a report hides.
    pub hidden: u64,
    /// Of these, those that a report shows because their distance is above the ceiling of a silence at their address.
    pub above: u64,
    /// Windows that cross and hold a mark.
    pub marked: u64,
    /// Of these, those that have marks behind the seam only.
    pub marked_behind: u64,
}

impl Seam {
    /// Of all findings, hidden ones included, and of those that have a silence at their address.
    pub fn of(line: Line, m: usize, findings: &[Finding], named: &[(Finding, Silence)]) -> Seam {
        let n = line.edges.len();
        let found = findings.iter().filter(|finding| line.crosses(finding.start, m)).count() as u64;
        let last = u64::from(findings.last().is_some_and(|finding| m > 1 && finding.start + 1 == n));
        let across = |hides: bool| {
            let of = |(finding, silence): &&(Finding, Silence)| {
                line.crosses(finding.start, m) && silence.hides(finding.distance) == hides
            };
            named.iter().filter(of).count() as u64
        };
        let (hidden, above) = (across(true), across(false));
        let mut seam = Seam { found, last, hidden, above, ..Seam::default() };
        for start in (0..line.windows(m)).rev().take_while(|&start| line.crosses(start, m)) {
            let (before, behind) = (holds_mark(&line.edges[start..]), holds_mark(&line.window(start, m)[n - start..]));
            seam.marked += u64::from(before || behind);
            seam.marked_behind += u64::from(behind && !before);
        }
        seam
    }
}
