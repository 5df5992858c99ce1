//! ACSMF-Simple, source document 000: the fragments of the ring followed by its first m - 1 edges are searched with one
//! automaton; each hit is extended edge by edge, to both sides, up to k mismatches; the mismatches in between give the
//! distance of every window that holds the hit. An extension ends at a mark.
//!
//! Whole fragments of length floor(m / (k + 2)), the rest dropped, instead of 2k + 4 near-equal ones: with those 000's
//! Lemma 3 fails (document 01). Every rotation then holds k + 1 whole fragments, so each pair of start and rotation within
//! distance k has a hit. So the least distance over the hits of a start is exact, and so are the rotations that reach it:
//! nothing is left to verify.
use super::automaton::Automaton;
use super::findings::{Finding, Findings};
use super::naive;
use super::vectors::{MOST_WORDS, WORD_BITS};
use super::MARK;

/// More starts than are open at once: those of the windows around a hit.
const OPEN: usize = 512;

/// The least distance over the hits of a start so far, and a bit for each rotation that reaches it. Several hits offer the
/// same rotation, and it is to be counted once.
#[derive(Clone, Copy)]
struct Best {
    distance: usize,
    reached: [u64; MOST_WORDS],
}

const NONE: Best = Best { distance: usize::MAX, reached: [0; MOST_WORDS] };

impl Best {
    fn offer(&mut self, rotation: usize, distance: usize) {
        if distance < self.distance {
            *self = Best { distance, ..NONE };
        }
        if distance == self.distance {
            self.reached[rotation / WORD_BITS] |= 1 << (rotation % WORD_BITS);
        }
    }

    /// The finding at a start that was offered something.
    fn finding(&self, start: usize) -> Option<Finding> {
        let word = self.reached.iter().position(|&word| word != 0)?;
        let rotation = word * WORD_BITS + self.reached[word].trailing_zeros() as usize;
        let ties = self.reached.iter().map(|word| word.count_ones() as usize).sum();
        Some(Finding { start, rotation, distance: self.distance, ties })
    }
}

/// The best of each start that a later hit may still better.
struct Pending {
    best: [Best; OPEN],
    low: usize,
    high: usize,
}

impl Pending {
    fn offer(&mut self, start: usize, rotation: usize, distance: usize) {
        self.best[start % OPEN].offer(rotation, distance);
        self.high = self.high.max(start + 1);
    }

    /// Starts below `below` get no more hits.
    fn settle(&mut self, below: usize, findings: &mut Findings) {
        for start in self.low..below.min(self.high) {
            let best = &mut self.best[start % OPEN];
            if let Some(finding) = best.finding(start) {
                findings.put(finding);
                *best = NONE;
            }
        }
        self.low = self.low.max(below);
    }
}

/// The extensions of a hit, and in `differing` a 1 for each place of the text where they differ from the line.
struct Extender<'a> {
    text: &'a [u8],
    line: &'a [u8],
    m: usize,
    k: usize,
    length: usize,
    differing: Vec<u8>,
}

/// How many pairs of a text edge and a line edge go before mismatch k + 1 or a mark, each pair's mismatch noted.
fn extend<'a>(pairs: impl Iterator<Item = ((&'a u8, &'a u8), &'a mut u8)>, k: usize) -> usize {
    let mut mismatches = 0;
    let mut extent = 0;
    for ((a, b), noted) in pairs {
        let differs = a != b;
        if differs && (mismatches == k || *b == MARK) {
            break;
        }
        mismatches += differs as usize;
        *noted = differs as u8;
        extent += 1;
    }
    extent
}

impl Extender<'_> {
    /// How far the fragment at place `p` of the text, which stands at place `t` of the line, extends to the left and to the
    /// right. No window that holds the fragment reaches further than m.
    fn extents(&mut self, p: usize, t: usize) -> (usize, usize) {
        let most = self.m - self.length;
        let (before, rest) = self.differing.split_at_mut(p);
        let (within, after) = rest.split_at_mut(self.length);
        within.fill(0);
        let text = self.text[..p].iter().rev();
        let to_left = text.zip(self.line[..t].iter().rev()).zip(before.iter_mut().rev());
        let text = self.text[p + self.length..].iter();
        let to_right = text.zip(&self.line[t + self.length..]).zip(after);
        (extend(to_left.take(most), self.k), extend(to_right.take(most), self.k))
    }

    /// Every window that holds the fragment and lies within its extents is offered.
    fn offer(&mut self, p: usize, t: usize, pending: &mut Pending) {
        let (left, right) = self.extents(p, t);
        if left + self.length + right < self.m {
            return;
        }
        let mut rotation = p - left;
        let mut distance = self.differing[rotation..rotation + self.m].iter().map(|&noted| noted as usize).sum();
        let last = p + self.length + right - self.m;
        loop {
            if distance <= self.k {
                pending.offer(t + rotation - p, rotation, distance);
            }
            if rotation >= last.min(p) {
                return;
            }
            distance = distance + self.differing[rotation + self.m] as usize - self.differing[rotation] as usize;
            rotation += 1;
        }
    }
}

pub fn search(ring: &[u8], line: &[u8], k: usize, words: &mut [u32]) -> usize {
    let m = ring.len();
    let length = m / (k + 2);
    if length == 0 {
        return naive::search(ring, line, k, words); // no fragment: nothing to filter by
    }
    let text = [ring, &ring[..m - 1]].concat();
    let automaton = Automaton::new(&text, length);
    let mut extender = Extender { text: &text, line, m, k, length, differing: vec![0; text.len()] };
    let mut pending = Pending { best: [NONE; OPEN], low: 0, high: 0 };
    let mut findings = Findings::new(words);
    automaton.run(line, |end, places| {
        pending.settle(end.saturating_sub(m), &mut findings);
        for &p in places {
            extender.offer(p, end - length, &mut pending);
        }
    });
    pending.settle(line.len(), &mut findings);
    findings.found
}
