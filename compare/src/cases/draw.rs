//! Numbers drawn from a seed, a kind's name and an index alone, so that every case can be made again.

use crate::second::meaning::MARK;

/// The bytes that are edge codes: those below the mark.
pub const CODES: usize = MARK as usize;

pub struct Draw {
    state: u64,
}

impl Draw {
    pub fn new(seed: u64, kind: &str, index: u64) -> Draw {
        let mut draw = Draw { state: seed };
        for part in kind.bytes().map(u64::from).chain([index]) {
            draw.state = draw.number() ^ part.wrapping_mul(0xD6E8_FEB8_6659_FD93);
        }
        draw
    }

    pub fn number(&mut self) -> u64 {
        self.state = self.state.wrapping_add(0x9E37_79B9_7F4A_7C15);
        let mut mixed = self.state;
        mixed = (mixed ^ (mixed >> 30)).wrapping_mul(0xBF58_476D_1CE4_E5B9);
        mixed = (mixed ^ (mixed >> 27)).wrapping_mul(0x94D0_49BB_1331_11EB);
        mixed ^ (mixed >> 31)
    }

    pub fn below(&mut self, bound: usize) -> usize {
        (self.number() % bound as u64) as usize
    }

    pub fn between(&mut self, least: usize, greatest: usize) -> usize {
        least + self.below(greatest - least + 1)
    }

    pub fn one<T: Copy>(&mut self, of: &[T]) -> T {
        of[self.below(of.len())]
    }

    pub fn chance(&mut self, one_in: usize) -> bool {
        self.below(one_in) == 0
    }

    /// Letters of one alphabet lie side by side from a drawn code on, so that 0 and 254 come up as well. None is the mark.
    pub fn alphabet(&mut self, letters: usize) -> Vec<u8> {
        let first = self.below(CODES);
        (0..letters).map(|letter| ((first + letter) % CODES) as u8).collect()
    }

    /// A code unlike this one.
    pub fn other(&mut self, code: u8) -> u8 {
        ((usize::from(code) + self.between(1, CODES - 1)) % CODES) as u8
    }

    pub fn edges(&mut self, alphabet: &[u8], length: usize) -> Vec<u8> {
        (0..length).map(|_| self.one(alphabet)).collect()
    }

    /// `count` places below a bound, in any order, none twice.
    pub fn places(&mut self, bound: usize, count: usize) -> Vec<usize> {
        let mut places: Vec<usize> = (0..bound).collect();
        for at in 0..count {
            let other = self.between(at, bound - 1);
            places.swap(at, other);
        }
        places.truncate(count);
        places
    }

    /// An allowance below m; small ones are the usual case, m − 1 the far end.
    pub fn allowance(&mut self, m: usize) -> usize {
        let any = self.below(m);
        self.one(&[0, 0, 1, 2, 3, m / 4, m / 2, m - 1, any]).min(m - 1)
    }
}
