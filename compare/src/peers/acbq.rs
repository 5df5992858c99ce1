//! ACBq, source document 003: ACB that reads q edges at once, at a window's last edge and after each break, from a table of
//! what every gram of q edges leaves behind: the held vector, and the breaks within the gram.
//!
//! 003 has a table of 4^q grams and data of four codes. Here a line may hold any byte, so the codes that the ring lacks form
//! one class more; q is the largest whose table stays small, since making it is part of the call, and with no room for two
//! edges this is ACB. Where break k + 1 lies within a gram, all q edges count as read: 003 leaves this open, and a shorter
//! jump loses nothing. The ring lacks the mark like other codes, so it is looked for only in a gram with a break, and at a
//! break.
use super::acb;
use super::filter::{by_width, sift};
use super::vectors::{first_bits, grown, no_bit, occurrences};
use super::MARK;

/// The most grams that a table has.
const MOST_GRAMS: usize = 1024;

/// What reading a gram from an empty stretch leaves behind.
#[derive(Clone, Copy)]
struct Gram<const W: usize> {
    held: [u64; W],
    breaks: usize,
}

struct Grams<const W: usize, const Q: usize> {
    /// For each place of a gram and each edge code, its part of the gram's number.
    parts: [[u16; 256]; Q],
    grams: Vec<Gram<W>>,
    table: [[u64; W]; 256],
}

/// The class of each code, 0 for codes that the ring lacks, and the occurrence vector of each class.
fn classes<const W: usize>(table: &[[u64; W]; 256]) -> ([usize; 256], Vec<[u64; W]>) {
    let mut class_of = [0; 256];
    let mut vectors = vec![[0; W]];
    for (class, vector) in class_of.iter_mut().zip(table) {
        if !no_bit(*vector) {
            *class = vectors.len();
            vectors.push(*vector);
        }
    }
    (class_of, vectors)
}

/// Grams that are one edge longer: each class read to the left of each gram.
fn longer<const W: usize>(grams: &[Gram<W>], vectors: &[[u64; W]], m: usize) -> Vec<Gram<W>> {
    let read = |gram: &Gram<W>, vector| match grown(gram.held, vector, m) {
        held if no_bit(held) => Gram { held: first_bits(m), breaks: gram.breaks + 1 },
        held => Gram { held, breaks: gram.breaks },
    };
    vectors.iter().flat_map(|vector| grams.iter().map(move |gram| read(gram, vector))).collect()
}

impl<const W: usize, const Q: usize> Grams<W, Q> {
    fn new(table: [[u64; W]; 256], m: usize) -> Self {
        let (class_of, vectors) = classes(&table);
        let mut grams = vec![Gram { held: first_bits(m), breaks: 0 }];
        let mut parts = [[0; 256]; Q];
        for part in parts.iter_mut().rev() {
            *part = class_of.map(|class| (class * grams.len()) as u16);
            grams = longer(&grams, &vectors, m);
        }
        Grams { parts, grams, table }
    }

    /// The gram of Q edges, found by its number.
    #[inline(always)]
    fn of(&self, edges: &[u8]) -> &Gram<W> {
        let parts = self.parts.iter().zip(edges).map(|(part, &edge)| part[edge as usize] as usize);
        &self.grams[parts.sum::<usize>()]
    }

    /// How many edges of a window are read, and whether it is a candidate.
    #[inline(always)]
    fn read(&self, window: &[u8], k: usize) -> (usize, bool) {
        let m = window.len();
        let mut left = m;
        let mut breaks = 0;
        while left >= Q {
            let edges = &window[left - Q..left];
            let gram = self.of(edges);
            left -= Q;
            if gram.breaks > 0 {
                if let Some(place) = edges.iter().rposition(|&edge| edge == MARK) {
                    return (m - left - place, false);
                }
            }
            breaks += gram.breaks;
            let mut held = gram.held;
            while breaks <= k && left > 0 && !no_bit(held) {
                left -= 1;
                held = grown(held, &self.table[window[left] as usize], m);
            }
            let broken = no_bit(held);
            breaks += broken as usize;
            if breaks > k || (broken && window[left] == MARK) {
                return (m - left, false);
            }
        }
        // after a break with fewer than Q edges before it, they are read one by one
        let (read, few_breaks) = acb::read(&self.table, &window[..left], m, k - breaks);
        (m - left + read, few_breaks)
    }
}

fn search_by<const W: usize, const Q: usize>(ring: &[u8], line: &[u8], k: usize, words: &mut [u32]) -> usize {
    let grams = Grams::<W, Q>::new(occurrences(ring), ring.len());
    sift(ring, line, k, words, |window| grams.read(window, k))
}

/// How many classes the codes have: those of the ring, and all others together.
fn class_count(ring: &[u8]) -> usize {
    let mut there = [false; 256];
    ring.iter().for_each(|&code| there[code as usize] = true);
    1 + there.iter().filter(|&&code| code).count()
}

fn search_in<const W: usize>(ring: &[u8], line: &[u8], k: usize, words: &mut [u32]) -> usize {
    match MOST_GRAMS.ilog(class_count(ring)) {
        0 | 1 => acb::search(ring, line, k, words),
        2 => search_by::<W, 2>(ring, line, k, words),
        3 => search_by::<W, 3>(ring, line, k, words),
        _ => search_by::<W, 4>(ring, line, k, words),
    }
}

pub fn search(ring: &[u8], line: &[u8], k: usize, words: &mut [u32]) -> usize {
    by_width!(search_in, ring, line, k, words)
}
