//! Who is timed: the library, the same rules in C and in Rust, the limit, and the peers.
use super::inputs::{Input, MANY_CANDIDATES};
use super::ours::OURS;
use crate::peers::{c_rules, limit, rules, Answer, Peer, Rules, PEERS};

/// A call of the rules. The report is timed with an empty book and with one of 1,000 silences. The closed calls are timed on
/// inputs of their own.
#[derive(Clone, Copy, PartialEq, Eq, Debug)]
pub enum Call {
    Scan,
    Survey,
    Report,
    Hiding,
    ScanClosed,
    SurveyClosed,
}

/// The calls that every input has.
pub const CALLS: [Call; 4] = [Call::Scan, Call::Survey, Call::Report, Call::Hiding];

impl Call {
    pub fn name(self) -> &'static str {
        match self {
            Call::Scan => "scan",
            Call::Survey => "survey",
            Call::Report => "report",
            Call::Hiding => "report, 1,000 silences",
            Call::ScanClosed => "closed scan",
            Call::SurveyClosed => "closed survey",
        }
    }
}

/// Which implementation of the rules is called.
#[derive(Clone, Copy, PartialEq, Eq, Debug)]
pub enum Version {
    C,
    Ours,
    Rust,
}

pub const VERSIONS: [Version; 3] = [Version::C, Version::Ours, Version::Rust];

impl Version {
    pub fn name(self) -> &'static str {
        match self {
            Version::C => "C",
            Version::Ours => "outlines",
            Version::Rust => "Rust",
        }
    }

    fn rules(self) -> &'static Rules {
        match self {
            Version::C => &c_rules::RULES,
            Version::Ours => &OURS,
            Version::Rust => &rules::RULES,
        }
    }
}

/// The peer that the bars name.
const ACB: &str = "ACB";

/// The calls that the limit has.
pub const LIMIT_CALLS: [Call; 2] = [Call::Scan, Call::Survey];

#[derive(Clone, Copy)]
pub enum Contender {
    Rules(Version, Call),
    /// One of `LIMIT_CALLS`.
    Limit(Call),
    Peer(&'static Peer),
}

impl Contender {
    /// The rules first, call by call and C before the others; then the limit, then the peers.
    pub fn all() -> Vec<Contender> {
        let rules = CALLS.iter().flat_map(|&call| VERSIONS.map(|version| Contender::Rules(version, call)));
        let limits = LIMIT_CALLS.into_iter().map(Contender::Limit);
        rules.chain(limits).chain(PEERS.iter().map(Contender::Peer)).collect()
    }

    pub fn name(&self) -> String {
        match self {
            Contender::Rules(version, call) => format!("{} {}", version.name(), call.name()),
            Contender::Limit(call) => format!("limit {}", call.name()),
            Contender::Peer(peer) => peer.name.to_string(),
        }
    }

    /// The call of the rules in C that a ratio is to: the same call, and for a peer the scan.
    pub fn against(&self) -> Call {
        match self {
            Contender::Rules(_, call) | Contender::Limit(call) => *call,
            Contender::Peer(_) => Call::Scan,
        }
    }

    /// The place of a call of the rules in the list of all contenders.
    pub fn place_of(version: Version, call: Call) -> usize {
        VERSIONS.len() * call as usize + version as usize
    }

    /// The place of a call of the limit.
    pub fn place_of_limit(call: Call) -> usize {
        VERSIONS.len() * CALLS.len() + (call == Call::Survey) as usize
    }

    /// The place of ACB.
    pub fn place_of_acb() -> usize {
        let before = PEERS.iter().take_while(|peer| peer.name != ACB).count();
        VERSIONS.len() * CALLS.len() + LIMIT_CALLS.len() + before
    }

    /// Whether it is timed on an input's line begun at twelve places, too: the rules, the limit, and of the peers ACB, but for
    /// the rows with many candidates, where a call of ACB takes seconds.
    pub fn takes_turns(&self, input: &Input) -> bool {
        match self {
            Contender::Rules(..) | Contender::Limit(_) => input.is_begun_anywhere(),
            Contender::Peer(peer) => input.is_begun_anywhere() && peer.name == ACB && input.k < MANY_CANDIDATES,
        }
    }

    pub fn run(&self, input: &Input, words: &mut [u32]) -> Answer {
        match self {
            Contender::Rules(version, call) => match call {
                Call::Scan => (version.rules().scan)(&input.ring, &input.line, input.k, words),
                Call::Survey => (version.rules().survey)(&input.ring, &input.line, input.k, words),
                Call::Report => (version.rules().report)(&input.question(&[]), words),
                Call::Hiding => (version.rules().report)(&input.question(&input.book), words),
                Call::ScanClosed => (version.rules().scan_closed)(&input.ring, &input.line, input.k, words),
                Call::SurveyClosed => (version.rules().survey_closed)(&input.ring, &input.line, input.k, words),
            },
            Contender::Limit(Call::Survey) => limit::survey(&input.ring, &input.line, input.k, words),
            Contender::Limit(_) => limit::scan(&input.ring, &input.line, input.k, words),
            Contender::Peer(peer) => {
                let found = (peer.search)(&input.ring, &input.line, input.k, words);
                Answer { found, ..Answer::default() }
            }
        }
    }
}
