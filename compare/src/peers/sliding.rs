//! The sliding survey: a tally moved by one step a start, as fast as we know to write it. It is a ceiling for the plain
//! survey's speed, not a form of it: no looks, no renumbering (a count stands under rotation - start modulo m), eight bits a
//! count where they hold m, and the processor's widest vectors for bytes that the compiler may use.
//!
//! Those come through `#[target_feature]`, not through `-C target-cpu=native`, which would also rebuild every other peer. On
//! x86-64 that is AVX2 where the processor has it; on AArch64 NEON is in every target and needs no attribute.
use super::findings::{Finding, Findings};
use super::MARK;

const MOST_RING: usize = 256;

/// A count of differing edges.
trait Count: Copy + Ord + Default {
    const MOST: Self;
    fn moved(self, lost: bool, won: bool) -> Self;
    fn distance(self) -> usize;
}

macro_rules! count {
    ($number:ty) => {
        impl Count for $number {
            const MOST: Self = <$number>::MAX;
            #[inline(always)]
            fn moved(self, lost: bool, won: bool) -> Self {
                self.wrapping_sub(lost as $number).wrapping_add(won as $number)
            }
            fn distance(self) -> usize {
                self as usize
            }
        }
    };
}
count!(u8);
count!(u16);

/// Counts are padded to a multiple of this, so that vectors leave none over. The padding repeats the counts of the first
/// rotations, so it changes no least count.
const LANES: usize = 32;

/// Both edges against the ring's edge that each count stands over, and the least count then.
#[inline(always)]
fn step<C: Count>(counts: &mut [C], over: &[u8], leaving: u8, entering: u8) -> C {
    let mut least = C::MOST;
    for (count, &edge) in counts.iter_mut().zip(over) {
        *count = count.moved(leaving != edge, entering != edge);
        least = least.min(*count);
    }
    least
}

/// The counts of start 0, and the least of them.
#[inline(always)]
fn afresh<C: Count>(counts: &mut [C], around: &[u8], window: &[u8]) -> C {
    for (q, &edge) in window.iter().enumerate() {
        for (count, &other) in counts.iter_mut().zip(&around[q..]) {
            *count = count.moved(false, edge != other);
        }
    }
    counts.iter().copied().fold(C::MOST, C::min)
}

/// How many rotations have the least count. A count holds that number, because it holds m.
#[inline(always)]
fn ties<C: Count>(counts: &[C], least: C) -> usize {
    counts.iter().fold(C::default(), |ties, &count| ties.moved(false, count == least)).distance()
}

/// The finding at a start whose least count is within the allowance.
#[inline(always)]
fn finding<C: Count>(counts: &[C], start: usize, turn: usize, least: C) -> Finding {
    let m = counts.len();
    let rotation = (0..m).find(|r| counts[(r + m - turn) % m] == least).unwrap_or(m);
    Finding { start, rotation, distance: least.distance(), ties: ties(counts, least) }
}

#[inline(always)]
fn survey<C: Count>(ring: &[u8], line: &[u8], k: usize, words: &mut [u32]) -> usize {
    let m = ring.len();
    let mut findings = Findings::new(words);
    if line.len() < m {
        return 0;
    }
    let mut store = [C::default(); MOST_RING];
    let lanes = m.next_multiple_of(LANES);
    let counts = &mut store[..lanes];
    let around: Vec<u8> = ring.iter().copied().cycle().take(m + lanes).collect();
    let mut least = afresh(counts, &around, &line[..m]);
    let mut past_mark = line[..m].iter().rposition(|&edge| edge == MARK).map_or(0, |place| place + 1);
    let mut turn = 0; // start modulo m
    for start in 0.. {
        if least.distance() <= k && past_mark <= start {
            findings.put(finding(&counts[..m], start, turn, least));
        }
        if start + m == line.len() {
            break;
        }
        let entering = line[start + m];
        least = step(counts, &around[turn..turn + lanes], line[start], entering);
        if entering == MARK {
            past_mark = start + m + 1;
        }
        turn = if turn + 1 == m { 0 } else { turn + 1 };
    }
    findings.found
}

#[inline(always)]
fn survey_by_width(ring: &[u8], line: &[u8], k: usize, words: &mut [u32]) -> usize {
    if ring.len() <= u8::MAX as usize {
        survey::<u8>(ring, line, k, words)
    } else {
        survey::<u16>(ring, line, k, words)
    }
}

#[cfg(target_arch = "x86_64")]
#[target_feature(enable = "avx2")]
fn survey_avx2(ring: &[u8], line: &[u8], k: usize, words: &mut [u32]) -> usize {
    survey_by_width(ring, line, k, words)
}

pub fn search(ring: &[u8], line: &[u8], k: usize, words: &mut [u32]) -> usize {
    #[cfg(target_arch = "x86_64")]
    if std::arch::is_x86_feature_detected!("avx2") {
        // SAFETY: the processor has the one feature that the function asks for.
        return unsafe { survey_avx2(ring, line, k, words) };
    }
    survey_by_width(ring, line, k, words)
}
