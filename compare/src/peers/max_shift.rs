//! MW-MaxShiftM, source document 004: for each line edge one column of cells, each a vector of the last m mismatches between
//! the line up to there and the doubled ring up to the cell's place. A cell's distance is its number of set bits.
//!
//! With h = m, and columns kept in place of the matrix, as 004 says. Only cells with m edges behind them are counted, and the
//! row 2m, which is rotation 0 again, is left out. 004 truncates by "j 1's" with j = h mod w; where that is 0 the whole word
//! is meant. A start before the place just past the last mark has the mark in its window.
use super::doubled;
use super::filter::by_width;
use super::findings::{Finding, Findings};
use super::vectors::{first_bits, WORD_BITS};
use super::MARK;

type Cell<const W: usize> = [u64; W];

/// mw-shiftc: one place to the left, the highest of m bits dropped; then the new mismatch.
#[inline(always)]
fn shifted<const W: usize>(cell: Cell<W>, full: Cell<W>, differs: bool) -> Cell<W> {
    std::array::from_fn(|w| {
        let carry = if w == 0 { differs as u64 } else { cell[w - 1] >> (WORD_BITS - 1) };
        (cell[w] << 1 | carry) & full[w]
    })
}

/// The next column: a cell comes from the one before it in the column before.
fn next_column<const W: usize>(column: &[Cell<W>], next: &mut [Cell<W>], doubled: &[u8], edge: u8) {
    let full = first_bits(doubled.len() / 2);
    for ((cell, before), &other) in next[1..].iter_mut().zip(column).zip(doubled) {
        *cell = shifted(*before, full, edge != other);
    }
}

/// mw-popcount.
#[inline(always)]
fn distance<const W: usize>(cell: &Cell<W>) -> u32 {
    cell.iter().map(|word| word.count_ones()).sum()
}

/// The finding at a start, by the cells of its rotations, unless its least distance is above k.
fn finding<const W: usize>(cells: &[Cell<W>], start: usize, k: usize) -> Option<Finding> {
    let least = cells.iter().map(distance).min().filter(|&least| least as usize <= k)?;
    let rotation = cells.iter().position(|cell| distance(cell) == least)?;
    let ties = cells.iter().filter(|cell| distance(cell) == least).count();
    Some(Finding { start, rotation, distance: least as usize, ties })
}

fn search_in<const W: usize>(ring: &[u8], line: &[u8], k: usize, words: &mut [u32]) -> usize {
    let m = ring.len();
    let doubled = doubled(ring);
    let mut findings = Findings::new(words);
    let mut column: Vec<Cell<W>> = (0..2 * m).map(|row| first_bits(row.min(m))).collect();
    let mut next = column.clone();
    let mut past_mark = 0;
    for (place, &edge) in line.iter().enumerate() {
        next_column(&column, &mut next, &doubled, edge);
        std::mem::swap(&mut column, &mut next);
        if edge == MARK {
            past_mark = place + 1;
        }
        if place + 1 < past_mark + m {
            continue;
        }
        if let Some(finding) = finding(&column[m..], place + 1 - m, k) {
            findings.put(finding);
        }
    }
    findings.found
}

pub fn search(ring: &[u8], line: &[u8], k: usize, words: &mut [u32]) -> usize {
    by_width!(search_in, ring, line, k, words)
}
