//! Chains: what the library imports, it scans two ways, and the second program does the same.

use super::compared::{Judged, DISTANCE};
use super::two_way::Compared;
use crate::cases::chains::{Chain, Drawn};

/// The distance of the finding at start 0 in each pass, if there is one. It is the first that the pass lists.
pub fn at_start_0(compared: &Compared) -> [Option<u32>; 2] {
    compared.expected_words().map(|words| words.get(DISTANCE).copied().filter(|_| words[0] == 0))
}

/// The scan must find the first boundary if it is the ring, drawn in another way.
impl Judged<Chain> for Compared {
    fn difference(&self, chain: &Chain) -> Option<String> {
        let [forward, backward] = at_start_0(self);
        let found = match chain.drawn {
            Drawn::Alike => forward == Some(0),
            Drawn::Opposite => backward == Some(0),
            Drawn::Edited => forward.is_some_and(|distance| distance <= 2),
            Drawn::Other => true,
        };
        (!found).then(|| format!("the first boundary is {:?}, and the scan does not find it so", chain.drawn))
    }
}
