//! What the tests of the peers share: the meanings and rules of documents 01 and 02 word by word, and lines to try them on.

use compare::peers::{FINDING_WORDS, MARK};

/// A small generator of numbers (xorshift), seeded.
pub struct Numbers(pub u64);

impl Numbers {
    pub fn below(&mut self, bound: usize) -> usize {
        self.0 ^= self.0 << 13;
        self.0 ^= self.0 >> 7;
        self.0 ^= self.0 << 17;
        (self.0 >> 11) as usize % bound
    }

    pub fn ring(&mut self, m: usize, codes: usize) -> Vec<u8> {
        (0..m).map(|_| self.below(codes) as u8).collect()
    }

    /// A line with pieces of the ring in it, so that near findings are common. One line in two has marks between the pieces.
    pub fn line(&mut self, ring: &[u8], n: usize, codes: usize) -> Vec<u8> {
        let mut line = Vec::new();
        let marked = self.below(2) == 0;
        while line.len() < n {
            let from = self.below(ring.len());
            let piece = self.below(2 * ring.len() + 1);
            line.extend((0..piece).map(|q| ring[(from + q) % ring.len()]));
            let others = self.below(4);
            line.extend((0..others).map(|_| self.below(codes + 1) as u8));
            if marked && self.below(3) == 0 {
                line.push(MARK);
            }
        }
        line.truncate(n);
        line
    }
}

pub type Finding = [u32; FINDING_WORDS];

/// The findings by their meanings: start, rotation, distance, ties.
pub fn by_definition(ring: &[u8], line: &[u8], k: usize) -> Vec<Finding> {
    let m = ring.len();
    let differs = |i: usize, r: usize, q: usize| line[i + q] != ring[(r + q) % m];
    let distance = |i: usize, r: usize| (0..m).filter(|&q| differs(i, r, q)).count();
    let starts = (0..(line.len() + 1).saturating_sub(m)).filter(|&i| (i..i + m).all(|place| line[place] != MARK));
    let mut found = Vec::new();
    for i in starts {
        let (least, lowest) = (0..m).map(|r| (distance(i, r), r)).min().unwrap();
        if least <= k {
            let ties = (0..m).filter(|&r| distance(i, r) == least).count();
            found.push([i, lowest, least, ties].map(|number| number as u32));
        }
    }
    found
}

/// Rules 1 to 3 on one window, with the stretch kept as a stretch: how many edges are read, and whether the window is a
/// candidate.
fn read_by_rules(ring: &[u8], window: &[u8], k: usize) -> (usize, bool) {
    let m = ring.len();
    let begins = |r: usize, s: &[u8]| (0..s.len()).all(|q| s[q] == ring[(r + q) % m]);
    let (mut read, mut held, mut breaks) = (0, 0, 0);
    while read < m && breaks <= k {
        read += 1;
        held += 1;
        if window[m - read] == MARK {
            return (read, false);
        }
        let stretch = &window[m - read..m - read + held];
        if !(0..m).any(|r| begins(r, stretch)) {
            breaks += 1;
            held = 0;
        }
    }
    (read, breaks <= k)
}

/// The looks of rules 1 to 5.
pub fn looks_by_rules(ring: &[u8], line: &[u8], k: usize) -> usize {
    let m = ring.len();
    let (mut looks, mut start, mut last) = (0, 0, None);
    while start + m <= line.len() {
        let (read, candidate) = read_by_rules(ring, &line[start..start + m], k);
        looks += read;
        if candidate {
            looks += match last {
                Some(from) if 2 * (start - from) <= m => 2 * m * (start - from),
                _ => m * m,
            };
            last = Some(start);
        }
        start += m - read + 1;
    }
    looks
}

/// A silence as a field of the book: of tag 22, or without a ceiling of tag 21.
pub fn field(cell: u32, ring_number: u16, start: u32, ceiling: Option<u16>) -> Vec<u8> {
    let head = if ceiling.is_some() { [0x22, 0, 12] } else { [0x21, 0, 10] };
    let address = [&cell.to_be_bytes()[..], &ring_number.to_be_bytes(), &start.to_be_bytes()].concat();
    let ceiling: Vec<u8> = ceiling.iter().flat_map(|ceiling| ceiling.to_be_bytes()).collect();
    [&head[..], &address, &ceiling].concat()
}
