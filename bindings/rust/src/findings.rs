//! The findings, read from the lent words.

use core::iter::FusedIterator;

/// A start of the line whose distance is at most the allowance for at least one rotation.
#[derive(Clone, Copy, Debug, PartialEq, Eq, Hash)]
pub struct Finding {
    /// The place of the line where its window begins.
    pub start: u32,
    /// The lowest rotation with the least distance: the window's first edge lies over this edge of the ring. It counts on the
    /// reversed ring if the finding is a backward one.
    pub rotation: u32,
    /// The least distance: how many places of the window differ from the ring so turned. At most the allowance.
    pub distance: u32,
    /// How many rotations have that distance, itself included: 1 to m. Equal turns of a periodic ring each count.
    pub ties: u32,
}

impl From<[u32; 4]> for Finding {
    /// The finding of four words, in the order in which a search writes them.
    #[inline]
    fn from([start, rotation, distance, ties]: [u32; 4]) -> Finding {
        Finding { start, rotation, distance, ties }
    }
}

/// Groups of four words. A finding has four words, and so has a silence.
#[derive(Clone, Debug)]
pub(crate) struct Fours<'a> {
    words: &'a [u32],
}

impl<'a> Fours<'a> {
    /// `count` groups behind the first `skipped` ones; fewer if the words end before.
    pub(crate) fn new(words: &'a [u32], skipped: u64, count: u64) -> Fours<'a> {
        let whole = words.len() / 4;
        let place = |groups: u64| usize::try_from(groups).map_or(whole, |groups| groups.min(whole));
        let (from, to) = (place(skipped), place(skipped.saturating_add(count)));
        Fours { words: &words[4 * from..4 * to] }
    }

    #[inline]
    pub(crate) fn len(&self) -> usize {
        self.words.len() / 4
    }

    #[inline]
    pub(crate) fn next(&mut self) -> Option<[u32; 4]> {
        let (&four, rest) = self.words.split_first_chunk()?;
        self.words = rest;
        Some(four)
    }
}

/// The findings of an accepted call, by rising start, read from the words that it wrote.
///
/// [`Counts::findings`](crate::Counts::findings), [`Passes::forward_findings`](crate::Passes::forward_findings) and
/// [`Passes::backward_findings`](crate::Passes::backward_findings) make it.
#[derive(Clone, Debug)]
pub struct Findings<'a> {
    fours: Fours<'a>,
}

impl<'a> Findings<'a> {
    pub(crate) fn new(words: &'a [u32], skipped: u64, count: u64) -> Findings<'a> {
        Findings { fours: Fours::new(words, skipped, count) }
    }
}

impl Iterator for Findings<'_> {
    type Item = Finding;

    #[inline]
    fn next(&mut self) -> Option<Finding> {
        self.fours.next().map(Finding::from)
    }

    #[inline]
    fn size_hint(&self) -> (usize, Option<usize>) {
        (self.fours.len(), Some(self.fours.len()))
    }
}

impl ExactSizeIterator for Findings<'_> {}

impl FusedIterator for Findings<'_> {}
