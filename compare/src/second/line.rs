//! A line, open or closed, read by its places.

use std::borrow::Cow;

#[derive(Clone, Copy, Debug)]
pub struct Line<'a> {
    pub edges: &'a [u8],
    /// "edges continue from the beginning after the last" (ticket 3).
    pub closed: bool,
}

impl<'a> Line<'a> {
    pub fn open(edges: &'a [u8]) -> Line<'a> {
        Line { edges, closed: false }
    }

    pub fn closed(edges: &'a [u8]) -> Line<'a> {
        Line { edges, closed: true }
    }

    /// How many windows of m edges there are. They begin at the places from 0 on. Open: while i + m ≤ n. Closed: "for n ≥ m
    /// every place 0 to n−1 [..]; for n < m there are none" (ticket 3).
    pub fn windows(&self, m: usize) -> usize {
        let n = self.edges.len();
        match self.closed {
            _ if n < m => 0,
            true => n,
            false => n - m + 1,
        }
    }

    /// The edge at a place. A closed line has edges at every place: there place p holds edge p mod n. No longer line is made.
    pub fn edge(&self, place: usize) -> u8 {
        if self.closed {
            self.edges[place % self.edges.len()]
        } else {
            self.edges[place]
        }
    }

    /// The m edges from a place on.
    pub fn window(&self, start: usize, m: usize) -> Cow<'a, [u8]> {
        if self.closed {
            (start..start + m).map(|place| self.edge(place)).collect()
        } else {
            self.edges[start..start + m].into()
        }
    }

    /// Whether the window passes the seam, where the last edge is followed by the first.
    pub fn crosses(&self, start: usize, m: usize) -> bool {
        start + m > self.edges.len()
    }
}

/// "The first 2·m − 2 bytes of the join area then hold the line's last m−1 edges and its first m−1; later bytes, and all of it
/// for n < m, keep their values" (ticket 3). These are the bytes that an accepted call writes.
pub fn join(line: &[u8], m: usize) -> Vec<u8> {
    let n = line.len();
    if n < m {
        return Vec::new();
    }
    let (last, first) = (&line[n - (m - 1)..], &line[..m - 1]);
    [last, first].concat()
}
