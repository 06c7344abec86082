// Lent sets: five slices of any lengths and values, and vectors to lend them from.

use crate::state::State;

/// A set that is only read.
#[derive(Clone, Copy, Debug, PartialEq, Eq)]
pub struct Set<'a> {
    pub flags: &'a [u8],
    pub parts: &'a [i32],
    pub masses: &'a [i32],
    pub fills: &'a [u32],
    pub carry: &'a [i64],
}

/// A set that may be written.
#[derive(Debug)]
pub struct SetMut<'a> {
    pub flags: &'a mut [u8],
    pub parts: &'a mut [i32],
    pub masses: &'a mut [i32],
    pub fills: &'a mut [u32],
    pub carry: &'a mut [i64],
}

/// Vectors of one's own that can be lent as a set.
#[derive(Clone, Debug, PartialEq, Eq)]
pub struct Store {
    pub flags: Vec<u8>,
    pub parts: Vec<i32>,
    pub masses: Vec<i32>,
    pub fills: Vec<u32>,
    pub carry: Vec<i64>,
}

impl Set<'_> {
    /// Test 2 for a grid of n cells.
    pub fn fits(&self, n: usize) -> bool {
        self.flags.len() == n
            && self.parts.len() == 19 * n
            && self.masses.len() == n
            && self.fills.len() == n
            && self.carry.len() == 3
    }
}

impl SetMut<'_> {
    pub fn as_set(&self) -> Set<'_> {
        Set {
            flags: self.flags,
            parts: self.parts,
            masses: self.masses,
            fills: self.fills,
            carry: self.carry,
        }
    }

    /// Writes a state whose numbers fit their types, as those of a good state do.
    pub fn put(&mut self, state: &State) {
        for (c, cell) in state.cells.iter().enumerate() {
            self.flags[c] = cell.flag;
            for (k, &part) in cell.parts.iter().enumerate() {
                self.parts[19 * c + k] = part as i32;
            }
            self.masses[c] = cell.mass as i32;
            self.fills[c] = cell.fill as u32;
        }
        self.carry.copy_from_slice(&[state.carry, state.poured, state.taken].map(|number| number as i64));
    }
}

impl Store {
    pub fn blank(n: usize) -> Store {
        Store {
            flags: vec![0; n],
            parts: vec![0; 19 * n],
            masses: vec![0; n],
            fills: vec![0; n],
            carry: vec![0; 3],
        }
    }

    pub fn of(state: &State) -> Store {
        let mut store = Store::blank(state.cells.len());
        store.lend_mut().put(state);
        store
    }

    pub fn lend(&self) -> Set<'_> {
        Set {
            flags: &self.flags,
            parts: &self.parts,
            masses: &self.masses,
            fills: &self.fills,
            carry: &self.carry,
        }
    }

    pub fn lend_mut(&mut self) -> SetMut<'_> {
        SetMut {
            flags: &mut self.flags,
            parts: &mut self.parts,
            masses: &mut self.masses,
            fills: &mut self.fills,
            carry: &mut self.carry,
        }
    }
}
