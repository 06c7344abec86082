// A set reflected in an axis into a second set, as docs/AMENDMENTS.md has it under P13.

use crate::grid::{refuse, Grid, Refusal};
use crate::index::HeldMut;
use crate::lattice::{Vector, DIRECTIONS};
use crate::sets::Set;
use crate::state::{good_state, Cell, State};

pub const AXES: usize = 3;

/// The sign of one component changed.
pub fn turned_vector(axis: usize, vector: &Vector) -> Vector {
    let mut turned = *vector;
    turned[axis] = -turned[axis];
    turned
}

/// The direction of the reflected vector.
pub fn turned_direction(axis: usize, k: usize) -> usize {
    let turned = turned_vector(axis, &DIRECTIONS[k]);
    DIRECTIONS
        .iter()
        .position(|direction| *direction == turned)
        .expect("directions are reflected to directions")
}

/// The cell with x taken to n − 1 − x on the axis.
pub fn turned_cell(grid: &Grid, axis: usize, c: usize) -> usize {
    let mut position = grid.position(c);
    position[axis] = grid.sides[axis] - 1 - position[axis];
    grid.cell(position)
}

/// What stood in a cell stands in the reflected one, each part in the place of its reflected direction; the totals stay.
pub fn turned_state(grid: &Grid, axis: usize, state: &State) -> State {
    let mut turned = state.clone();
    for (c, cell) in state.cells.iter().enumerate() {
        let mut parts = [0; 19];
        for (k, &part) in cell.parts.iter().enumerate() {
            parts[turned_direction(axis, k)] = part;
        }
        turned.cells[turned_cell(grid, axis, c)] = Cell { parts, ..*cell };
    }
    turned
}

/// The mirror: tests 1, 2, 3, 4, 5, 6; a refusal writes nothing.
pub fn mirror(sides: [u32; 3], first: Set, mut second: HeldMut, axis: u64) -> Result<(), Refusal> {
    let grid = Grid::new(sides)?;
    if !first.fits(grid.n) || !second.as_held().fits(grid.n) {
        return refuse(2, 0);
    }
    if axis >= AXES as u64 {
        return refuse(3, 0);
    }
    let state = good_state(&grid, first)?;
    second.put(&turned_state(&grid, axis as usize, &state));
    Ok(())
}
