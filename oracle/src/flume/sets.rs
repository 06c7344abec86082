// The flume's lent sets: the box's five slices, with nine parts a cell.

use crate::flume::state::State;
use crate::sets::{Set, SetMut, Store};

/// Test 2 of a set, for a grid of n cells.
pub fn fits(set: &Set, n: usize) -> bool {
    set.flags.len() == n
        && set.parts.len() == 9 * n
        && set.masses.len() == n
        && set.fills.len() == n
        && set.carry.len() == 1
}

/// Writes a state whose numbers fit their types, as those of a good state do, into a set of its lengths.
pub fn put(set: &mut SetMut, state: &State) {
    for (c, cell) in state.cells.iter().enumerate() {
        set.flags[c] = cell.flag;
        set.parts[9 * c..9 * c + 9].copy_from_slice(&cell.parts.map(|part| part as i32));
        set.masses[c] = cell.mass as i32;
        set.fills[c] = cell.fill as u32;
    }
    set.carry[0] = state.carry as i64;
}

pub fn blank(n: usize) -> Store {
    Store { flags: vec![0; n], parts: vec![0; 9 * n], masses: vec![0; n], fills: vec![0; n], carry: vec![0] }
}

pub fn store(state: &State) -> Store {
    let mut store = blank(state.cells.len());
    put(&mut store.lend_mut(), state);
    store
}
