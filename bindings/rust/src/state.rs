// One state of a grid as five slices, and what can be counted in it.

use crate::index::words_of;
use crate::{Held, HeldMut, Index, IndexMut};

/// The flag of a cell with neither wall nor water.
pub const EMPTY: u8 = 0;
/// The flag of a cell at the water's surface.
pub const INTERFACE: u8 = 1;
/// The flag of a cell full of water.
pub const FLUID: u8 = 2;
/// The flag of a wall.
pub const WALL: u8 = 3;

/// One density unit: the water of a full cell under no pressure.
pub const ONE: i32 = 589_824;
/// The fill of a full cell.
pub const FULL: u32 = 65_536;
/// Parts of a cell.
pub const PARTS: usize = 19;

/// A state to look at. Slices of any length and content may be lent: what is wrong with them is refused.
#[derive(Clone, Copy, Debug, Default, PartialEq, Eq)]
pub struct State<'a> {
    /// One per cell: [`EMPTY`], [`INTERFACE`], [`FLUID`] or [`WALL`].
    pub flags: &'a [u8],
    /// Nineteen per cell, part k of cell c at 19c + k; a cell's density is their sum.
    pub parts: &'a [i32],
    /// One per cell: its water, [`ONE`] being one density unit.
    pub masses: &'a [i32],
    /// One per cell: how full it is, 0 to [`FULL`].
    pub fills: &'a [u32],
    /// Three: the carry, water that found no cell to go to; what was poured, and what was taken.
    pub carry: &'a [i64],
}

/// A state to be written; its slices are those of [`State`].
#[derive(Debug, Default, PartialEq, Eq)]
pub struct StateMut<'a> {
    pub flags: &'a mut [u8],
    pub parts: &'a mut [i32],
    pub masses: &'a mut [i32],
    pub fills: &'a mut [u32],
    pub carry: &'a mut [i64],
}

/// The water balance of a state, in the unit of the masses.
#[derive(Clone, Copy, Debug, Default, PartialEq, Eq, Hash)]
pub struct Water {
    /// In fluid cells.
    pub fluid: i64,
    /// In interface cells.
    pub interface: i64,
    /// The carry.
    pub carry: i64,
    /// All that was poured into the grid, and all that was taken from it.
    pub poured: i64,
    pub taken: i64,
}

impl Water {
    /// All of it: what no accepted step changes by one unit. Of a state that the check refuses it may be too much for an
    /// i64, and is then the nearest one.
    pub fn total(&self) -> i64 {
        (self.fluid + self.interface).saturating_add(self.carry)
    }

    /// The total plus what was taken less what was poured: what no accepted step and no act changes by one unit. Of a state that
    /// the check refuses it is held to an i64, as the total is.
    pub fn balance(&self) -> i64 {
        self.total().saturating_add(self.taken).saturating_sub(self.poured)
    }
}

/// How many cells of each flag a state has.
#[derive(Clone, Copy, Debug, Default, PartialEq, Eq, Hash)]
pub struct Counts {
    pub empty: usize,
    pub interface: usize,
    pub fluid: usize,
    pub wall: usize,
}

impl Counts {
    /// Fluid and interface cells.
    pub fn liquid(&self) -> usize {
        self.fluid + self.interface
    }
}

impl State<'_> {
    /// The water in fluid cells, in interface cells and in the carry, and what was poured and taken.
    pub fn water(&self) -> Water {
        let of = |wanted: u8| {
            let cells = self.flags.iter().zip(self.masses);
            cells.filter(|(&flag, _)| flag == wanted).map(|(_, &mass)| i64::from(mass)).sum()
        };
        let [carry, poured, taken] = [0, 1, 2].map(|k| self.carry.get(k).copied().unwrap_or(0));
        Water { fluid: of(FLUID), interface: of(INTERFACE), carry, poured, taken }
    }

    /// How many cells there are of each flag.
    pub fn counts(&self) -> Counts {
        let of = |wanted: u8| self.flags.iter().filter(|&&flag| flag == wanted).count();
        Counts { empty: of(EMPTY), interface: of(INTERFACE), fluid: of(FLUID), wall: of(WALL) }
    }
}

impl<'a> StateMut<'a> {
    /// The same state to look at.
    pub fn as_state(&self) -> State<'_> {
        State {
            flags: self.flags,
            parts: self.parts,
            masses: self.masses,
            fills: self.fills,
            carry: self.carry,
        }
    }
}

/// Vectors of one's own from which a state of a grid and its index are lent.
#[derive(Clone, Debug)]
pub(crate) struct Buffers {
    pub flags: Vec<u8>,
    pub parts: Vec<i32>,
    pub masses: Vec<i32>,
    pub fills: Vec<u32>,
    pub carry: [i64; 3],
    pub words: Vec<u64>,
    pub count: [u64; 1],
}

impl Buffers {
    /// So many cells, all empty.
    pub fn new(cells: usize) -> Buffers {
        Buffers {
            flags: vec![EMPTY; cells],
            parts: vec![0; PARTS * cells],
            masses: vec![0; cells],
            fills: vec![0; cells],
            carry: [0; 3],
            words: vec![0; words_of(cells)],
            count: [0],
        }
    }

    pub fn lend(&self) -> State<'_> {
        State {
            flags: &self.flags,
            parts: &self.parts,
            masses: &self.masses,
            fills: &self.fills,
            carry: &self.carry,
        }
    }

    pub fn hold(&self) -> Held<'_> {
        Held { state: self.lend(), index: Index { words: &self.words, count: &self.count } }
    }

    pub fn hold_mut(&mut self) -> HeldMut<'_> {
        HeldMut {
            state: StateMut {
                flags: &mut self.flags,
                parts: &mut self.parts,
                masses: &mut self.masses,
                fills: &mut self.fills,
                carry: &mut self.carry,
            },
            index: IndexMut { words: &mut self.words, count: &mut self.count },
        }
    }

    pub fn lend_mut(&mut self) -> StateMut<'_> {
        self.hold_mut().state
    }

    /// Makes the index of the flags, after a change of them that was not the library's.
    pub fn make_index(&mut self) {
        let flags = &self.flags;
        IndexMut { words: &mut self.words, count: &mut self.count }.make(flags);
    }
}
