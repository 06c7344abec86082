// The index of the surface, as docs/AMENDMENTS.md has it under P2: a bit for each cell and a stored count, loading, the two questions, and step, run and
// reader on sets with their index.

use crate::grid::{refuse, Grid, Refusal};
use crate::record::{self, opened, Reading};
use crate::run::{advance, Run, MOST_STEPS};
use crate::sets::{Set, SetMut, Store};
use crate::settings::test_flow;
use crate::state::{good_state, State, INTERFACE};
use crate::step::next_state;
use crate::turbulence::Relaxation;

/// W, the words of n cells.
pub fn words_of(n: usize) -> usize {
    n.div_ceil(64)
}

/// An index that is only read.
#[derive(Clone, Copy, Debug, PartialEq, Eq)]
pub struct Index<'a> {
    pub words: &'a [u64],
    pub count: &'a [u64],
}

/// An index that may be written.
#[derive(Debug)]
pub struct IndexMut<'a> {
    pub words: &'a mut [u64],
    pub count: &'a mut [u64],
}

/// Vectors of one's own that can be lent as an index.
#[derive(Clone, Debug, PartialEq, Eq)]
pub struct IndexStore {
    pub words: Vec<u64>,
    pub count: Vec<u64>,
}

/// A set with its index.
#[derive(Clone, Copy, Debug)]
pub struct Held<'a> {
    pub set: Set<'a>,
    pub index: Index<'a>,
}

#[derive(Debug)]
pub struct HeldMut<'a> {
    pub set: SetMut<'a>,
    pub index: IndexMut<'a>,
}

#[derive(Clone, Debug, PartialEq, Eq)]
pub struct HeldStore {
    pub set: Store,
    pub index: IndexStore,
}

impl Index<'_> {
    /// Test 2 for a grid of n cells.
    pub fn fits(&self, n: usize) -> bool {
        self.words.len() == words_of(n) && self.count.len() == 1
    }

    /// Test 14: every word is the one that the flags make, and the count is the number of interface cells.
    fn test_true(&self, flags: &[u8]) -> Result<(), Refusal> {
        if *self == IndexStore::of(flags).lend() {
            Ok(())
        } else {
            refuse(14, 0)
        }
    }
}

impl IndexMut<'_> {
    pub fn as_index(&self) -> Index<'_> {
        Index { words: self.words, count: self.count }
    }

    /// Writes the index of these flags.
    fn put(&mut self, flags: &[u8]) {
        let made = IndexStore::of(flags);
        self.words.copy_from_slice(&made.words);
        self.count.copy_from_slice(&made.count);
    }
}

impl IndexStore {
    pub fn blank(n: usize) -> IndexStore {
        IndexStore { words: vec![0; words_of(n)], count: vec![0] }
    }

    /// The index that the flags make.
    pub fn of(flags: &[u8]) -> IndexStore {
        let mut index = IndexStore::blank(flags.len());
        for (c, _) in flags.iter().enumerate().filter(|(_, &flag)| flag == INTERFACE) {
            index.words[c / 64] += 1 << (c % 64);
            index.count[0] += 1;
        }
        index
    }

    pub fn lend(&self) -> Index<'_> {
        Index { words: &self.words, count: &self.count }
    }

    pub fn lend_mut(&mut self) -> IndexMut<'_> {
        IndexMut { words: &mut self.words, count: &mut self.count }
    }
}

impl Held<'_> {
    /// Test 2 for a grid of n cells.
    pub fn fits(&self, n: usize) -> bool {
        self.set.fits(n) && self.index.fits(n)
    }
}

impl HeldMut<'_> {
    pub fn as_held(&self) -> Held<'_> {
        Held { set: self.set.as_set(), index: self.index.as_index() }
    }

    /// Writes a state and its index.
    pub fn put(&mut self, state: &State) {
        self.set.put(state);
        self.index.put(self.set.flags);
    }
}

impl HeldStore {
    /// A set with the index that its flags make.
    pub fn of(set: Store) -> HeldStore {
        HeldStore { index: IndexStore::of(&set.flags), set }
    }

    pub fn lend(&self) -> Held<'_> {
        Held { set: self.set.lend(), index: self.index.lend() }
    }

    pub fn lend_mut(&mut self) -> HeldMut<'_> {
        HeldMut { set: self.set.lend_mut(), index: self.index.lend_mut() }
    }
}

/// Loading: tests 1, 2, 4, 5, 6 and 14.
pub fn load(sides: [u32; 3], held: Held) -> Result<(), Refusal> {
    let grid = Grid::new(sides)?;
    if !held.fits(grid.n) {
        return refuse(2, 0);
    }
    good_state(&grid, held.set)?;
    held.index.test_true(held.set.flags)
}

/// Tests 1 and 2 of the questions.
fn asked(sides: [u32; 3], words: &[u64]) -> Result<usize, Refusal> {
    let grid = Grid::new(sides)?;
    if words.len() != words_of(grid.n) {
        return refuse(2, 0);
    }
    Ok(grid.n)
}

/// Cell c is bit c mod 64 of word c/64.
fn set(words: &[u64], c: usize) -> bool {
    words[c / 64] >> (c % 64) & 1 == 1
}

/// How many: the set bits below N.
pub fn surface_count(sides: [u32; 3], words: &[u64]) -> Result<usize, Refusal> {
    let n = asked(sides, words)?;
    Ok((0..n).filter(|&c| set(words, c)).count())
}

/// What "next" answers: the cell, if there is one, and the words read.
#[derive(Clone, Copy, Debug, PartialEq, Eq)]
pub struct Next {
    pub cell: Option<usize>,
    pub words: usize,
}

/// Next: the lowest cell at or after the start whose bit below N is set.
pub fn surface_next(sides: [u32; 3], words: &[u64], start: usize) -> Result<Next, Refusal> {
    let n = asked(sides, words)?;
    if start > n {
        return refuse(13, 0);
    }
    let cell = (start..n).find(|&c| set(words, c));
    let words = match cell {
        Some(cell) => cell / 64 - start / 64 + 1,
        None if start == n => 0,
        None => words_of(n) - start / 64,
    };
    Ok(Next { cell, words })
}

/// Tests 1 to 6 and 14 before a step or a run.
fn tested(
    sides: [u32; 3],
    p: i32,
    gravity: [i32; 3],
    first: Held,
    second: Held,
    marks: &[u8],
) -> Result<(Grid, State), Refusal> {
    let grid = Grid::new(sides)?;
    if !first.fits(grid.n) || !second.fits(grid.n) || marks.len() != grid.n {
        return refuse(2, 0);
    }
    test_flow(p, gravity)?;
    let state = good_state(&grid, first.set)?;
    first.index.test_true(first.set.flags)?;
    Ok((grid, state))
}

/// The step: the next state and its index into the second; after 7 or 8 copies of the first's.
pub fn step(
    sides: [u32; 3],
    relaxation: impl Into<Relaxation>,
    gravity: [i32; 3],
    first: Held,
    mut second: HeldMut,
    marks: &mut [u8],
) -> Result<(), Refusal> {
    let relaxation = relaxation.into();
    let (grid, old) = tested(sides, relaxation.p, gravity, first, second.as_held(), marks)?;
    let next = next_state(&grid, &old, relaxation, gravity);
    second.put(next.as_ref().unwrap_or(&old));
    marks.fill(0);
    next.map(|_| ())
}

/// The run: both sets then hold the state reached and its index.
pub fn run(
    sides: [u32; 3],
    relaxation: impl Into<Relaxation>,
    gravity: [i32; 3],
    steps: u32,
    mut first: HeldMut,
    mut second: HeldMut,
    marks: &mut [u8],
) -> Run {
    if steps > MOST_STEPS {
        return Run { count: 0, refusal: Some(Refusal { number: 9, place: 0 }) };
    }
    let relaxation = relaxation.into();
    let tested = tested(sides, relaxation.p, gravity, first.as_held(), second.as_held(), marks);
    let (grid, mut state) = match tested {
        Ok(accepted) => accepted,
        Err(refusal) => return Run { count: 0, refusal: Some(refusal) },
    };
    let outcome = advance(&grid, &mut state, relaxation, gravity, steps);
    first.put(&state);
    second.put(&state);
    marks.fill(0);
    outcome
}

/// The reader: test 2 of words and count stands with that of the other slices, and an accepted record's flags make the index.
pub fn read<'a>(
    bytes: &'a [u8],
    parts: &mut [i32],
    masses: &mut [i32],
    fills: &mut [u32],
    carry: &mut [i64],
    mut index: IndexMut,
) -> Result<Reading<'a>, Refusal> {
    if !index.as_index().fits(opened(bytes)?.n) {
        return refuse(2, 0);
    }
    let reading = record::read(bytes, parts, masses, fills, carry)?;
    index.put(reading.flags);
    Ok(reading)
}
