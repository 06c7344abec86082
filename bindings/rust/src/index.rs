// The index of a grid's surface: a bit for each cell, a stored count, and the interface cells one after the other.

use std::borrow::Cow;
use std::iter::FusedIterator;

use crate::lent;
use crate::{Refusal, Sides, State, StateMut, INTERFACE};

/// Cells that one word of an index has a bit for.
const BITS: usize = 64;

/// An index to look at. Slices of any length and content may be lent: what is wrong with them is refused.
#[derive(Clone, Copy, Debug, Default, PartialEq, Eq)]
pub struct Index<'a> {
    /// [`words_of`] the cells: cell c is bit c % 64 of word c / 64, set if the cell is interface.
    pub words: &'a [u64],
    /// One: the number of interface cells.
    pub count: &'a [u64],
}

/// An index to be written; its slices are those of [`Index`].
#[derive(Debug, Default, PartialEq, Eq)]
pub struct IndexMut<'a> {
    pub words: &'a mut [u64],
    pub count: &'a mut [u64],
}

/// A state with its index, to look at.
#[derive(Clone, Copy, Debug, Default, PartialEq, Eq)]
pub struct Held<'a> {
    pub state: State<'a>,
    pub index: Index<'a>,
}

/// A state with its index, to be written.
#[derive(Debug, Default, PartialEq, Eq)]
pub struct HeldMut<'a> {
    pub state: StateMut<'a>,
    pub index: IndexMut<'a>,
}

/// What [`lent::surface_next`] answers.
#[derive(Clone, Copy, Debug, PartialEq, Eq, Hash)]
pub struct Next {
    /// The interface cell, if there is one.
    pub cell: Option<usize>,
    /// How many words were read.
    pub words: usize,
}

/// The words of the index of so many cells.
pub const fn words_of(cells: usize) -> usize {
    cells.div_ceil(BITS)
}

impl IndexMut<'_> {
    /// Makes the index of these flags. The slices must be of their lengths, as those of one's own are.
    pub(crate) fn make(&mut self, flags: &[u8]) {
        for (word, cells) in self.words.iter_mut().zip(flags.chunks(BITS)) {
            *word = cells.iter().rev().fold(0, |word, &flag| word << 1 | u64::from(flag == INTERFACE));
        }
        self.count.fill(self.words.iter().map(|word| u64::from(word.count_ones())).sum());
    }
}

/// The interface cells of a grid in rising order, by the words of its index: [`Grid::surface`](crate::Grid::surface).
///
/// To the end it reads at most the words and one more for each cell found, as is proved of the library's question.
#[derive(Clone, Debug)]
pub struct Surface<'a> {
    sides: Sides,
    words: Cow<'a, [u64]>,
    /// What the question answers next; none where the last answer was that there is no cell.
    ahead: Option<Next>,
    read: usize,
}

impl<'a> Surface<'a> {
    /// From this cell on, or refusal 13 for a start above the number of cells.
    pub(crate) fn new(sides: Sides, words: Cow<'a, [u64]>, start: usize) -> Result<Surface<'a>, Refusal> {
        let ahead = Some(lent::surface_next(sides, &words, start)?);
        Ok(Surface { sides, words, ahead, read: 0 })
    }

    /// How many words the answers so far have read.
    pub fn words_read(&self) -> usize {
        self.read
    }
}

impl Iterator for Surface<'_> {
    type Item = usize;

    fn next(&mut self) -> Option<usize> {
        let Next { cell, words } = self.ahead.take()?;
        self.read += words;
        // A cell found lies below the number of cells, so that the one after it is no start above it.
        self.ahead = cell.and_then(|cell| lent::surface_next(self.sides, &self.words, cell + 1).ok());
        cell
    }
}

impl FusedIterator for Surface<'_> {}
