//! What each call returns and what it writes into the lent areas.

use super::book::{self, Address, Silence, FIELD, SILENCE_WORDS};
use super::ceilings::Ceilings;
use super::line::{join, Line};
use super::meaning::{findings, Finding};
use super::refusals::{self, refuse_if, Refused};
use super::rules::{plain_survey, quick_scan, Marks, Searched};
use super::seam::Seam;
use std::cell::OnceCell;
use std::collections::BTreeMap;

#[derive(Clone, Debug, Default, PartialEq, Eq)]
pub struct Answered<T> {
    pub found: usize,
    pub hidden: usize,
    pub looks: u64,
    pub written: Vec<T>,
    /// The bytes written at the beginning of the join area; none by an open call.
    pub joined: Vec<u8>,
    /// No call returns these three: they are for the comparison's ledger.
    pub marks: Marks,
    pub seam: Seam,
    pub ceilings: Ceilings,
}

pub type Outcome<T> = Result<Answered<T>, Refused>;

pub struct Search<'a> {
    ring: &'a [u8],
    line: Line<'a>,
    allowance: usize,
    room: usize,
    /// The bytes of the join area; an open search has none.
    join: usize,
    /// The findings by their meaning, and the quick scan: computed once, however many calls use this search.
    meant: OnceCell<Vec<Finding>>,
    scanned: OnceCell<Searched>,
}

fn words(findings: &[Finding]) -> Vec<u32> {
    findings.iter().flat_map(Finding::words).collect()
}

impl<'a> Search<'a> {
    fn of(ring: &'a [u8], line: Line<'a>, allowance: usize, room: usize, join: usize) -> Search<'a> {
        Search { ring, line, allowance, room, join, meant: OnceCell::new(), scanned: OnceCell::new() }
    }

    pub fn new(ring: &'a [u8], line: &'a [u8], allowance: usize, room: usize) -> Search<'a> {
        Search::of(ring, Line::open(line), allowance, room, 0)
    }

    /// A closed search with a join area of `join` bytes.
    pub fn closed(ring: &'a [u8], line: &'a [u8], allowance: usize, room: usize, join: usize) -> Search<'a> {
        Search::of(ring, Line::closed(line), allowance, room, join)
    }

    fn refusals(&self) -> Result<(), Refused> {
        let Search { ring, line, allowance, room, join, .. } = self;
        if line.closed {
            refusals::closed_search(ring, line.edges, *allowance, *room, *join)
        } else {
            refusals::search(ring, line.edges, *allowance, *room)
        }
    }

    /// The findings come from their meaning. Document 01 says that the rules lead to the same ones, so a second program in
    /// which they differ is wrong itself and must not judge anything.
    fn checked(&self, searched: Searched) -> Searched {
        let meant = self.meant.get_or_init(|| findings(self.ring, self.line, self.allowance));
        assert_eq!(searched.findings, *meant, "the rules and the meaning of a finding differ");
        searched
    }

    fn scanned(&self) -> &Searched {
        self.scanned.get_or_init(|| self.checked(quick_scan(self.ring, self.line, self.allowance)))
    }

    /// The answer of an accepted call, with the silence at the address of each finding.
    fn answered(&self, searched: &Searched, at: impl Fn(&Finding) -> Option<Silence>) -> Answered<u32> {
        let Searched { findings, looks, marks, .. } = searched;
        let is_hidden = |finding: &Finding| at(finding).is_some_and(|silence| silence.hides(finding.distance));
        let (hidden, shown): (Vec<Finding>, Vec<Finding>) = findings.iter().partition(|finding| is_hidden(finding));
        let named: Vec<(Finding, Silence)> =
            findings.iter().filter_map(|finding| Some((*finding, at(finding)?))).collect();
        let (joined, seam) = if self.line.closed {
            (join(self.line.edges, self.ring.len()), Seam::of(self.line, self.ring.len(), findings, &named))
        } else {
            Default::default()
        };
        let (found, hidden, ceilings) = (findings.len(), hidden.len(), Ceilings::of(&named));
        Answered { found, hidden, looks: *looks, written: words(&shown), joined, marks: *marks, seam, ceilings }
    }

    pub fn survey(&self) -> Outcome<u32> {
        self.refusals()?;
        let searched = self.checked(plain_survey(self.ring, self.line, self.allowance));
        Ok(self.answered(&searched, |_| None))
    }

    pub fn scan(&self) -> Outcome<u32> {
        self.refusals()?;
        Ok(self.answered(self.scanned(), |_| None))
    }

    pub fn report(&self, cell: u32, ring_number: u16, book: &[u8]) -> Outcome<u32> {
        self.refusals()?;
        let silences = book::read(book)?;
        let by_address: BTreeMap<Address, Silence> = silences.into_iter().map(|s| (s.address(), s)).collect();
        let at = |finding: &Finding| by_address.get(&(cell, ring_number, finding.start as u32)).copied();
        Ok(self.answered(self.scanned(), at))
    }
}

pub fn pack(words: &[u32], room: usize) -> Outcome<u8> {
    let records = book::to_pack(words)?;
    refuse_if(room < FIELD * records.len(), 10, 0)?;
    let written = records.iter().flat_map(Silence::field).collect();
    Ok(Answered { found: records.len(), written, ..Answered::default() })
}

pub fn unpack(book: &[u8], room: usize) -> Outcome<u32> {
    let records = book::read(book)?;
    refuse_if(room < SILENCE_WORDS * records.len(), 10, 0)?;
    let written = records.iter().flat_map(Silence::words).collect();
    Ok(Answered { found: records.len(), written, ..Answered::default() })
}
