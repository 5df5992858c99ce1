//! What a report met of ceilings. No call returns it: the comparison adds it up, to show that its cases have findings on
//! either side of a ceiling.

use super::book::Silence;
use super::meaning::Finding;

/// Findings at the address of a silence.
#[derive(Clone, Copy, Debug, Default, PartialEq, Eq)]
pub struct Ceilings {
    /// Hidden by tag 22 at a distance above 0 that is the ceiling.
    pub reached: u64,
    /// Shown at a distance one above the ceiling of tag 22.
    pub one_above: u64,
    /// Hidden by a ceiling whose low byte alone would show them.
    pub by_high_byte: u64,
    /// Hidden by tag 21.
    pub old_hidden: u64,
    /// Shown because of their distance, with tag 21.
    pub old_shown: u64,
}

impl Ceilings {
    /// Of findings, each with the silence at its address.
    pub fn of(named: &[(Finding, Silence)]) -> Ceilings {
        let count = |which: fn(usize, Option<usize>) -> bool| {
            let of =
                |(finding, silence): &&(Finding, Silence)| which(finding.distance, silence.ceiling.map(usize::from));
            named.iter().filter(of).count() as u64
        };
        Ceilings {
            reached: count(|distance, ceiling| distance > 0 && ceiling == Some(distance)),
            one_above: count(|distance, ceiling| ceiling.is_some_and(|ceiling| ceiling + 1 == distance)),
            by_high_byte: count(|distance, ceiling| ceiling.is_some_and(|c| c % 256 < distance && distance <= c)),
            old_hidden: count(|distance, ceiling| ceiling.is_none() && distance == 0),
            old_shown: count(|distance, ceiling| ceiling.is_none() && distance > 0),
        }
    }
}
