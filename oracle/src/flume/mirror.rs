// A flume's set reflected in an axis into a second set, as docs/AMENDMENTS.md has it under P13.

use crate::flume::grid::Grid;
use crate::flume::lattice::{Vector, DIRECTIONS};
use crate::flume::sets::{fits, put};
use crate::flume::state::{good_state, Cell, State};
use crate::grid::{refuse, Refusal};
use crate::sets::{Set, SetMut};

/// The axes of the flume, along and up.
#[derive(Clone, Copy, Debug, PartialEq, Eq)]
pub enum Axis {
    X,
    Z,
}

impl Axis {
    /// By the box's number.
    pub fn of(number: u64) -> Option<Axis> {
        match number {
            0 => Some(Axis::X),
            2 => Some(Axis::Z),
            _ => None,
        }
    }

    /// The sign of one component changed.
    pub fn turned_vector(self, [x, z]: Vector) -> Vector {
        match self {
            Axis::X => [-x, z],
            Axis::Z => [x, -z],
        }
    }

    /// The direction of the reflected vector.
    pub fn turned_direction(self, k: usize) -> usize {
        let turned = self.turned_vector(DIRECTIONS[k]);
        DIRECTIONS
            .iter()
            .position(|direction| *direction == turned)
            .expect("directions are reflected to directions")
    }

    /// The cell with x, or z, taken to n − 1 − it.
    pub fn turned_cell(self, grid: &Grid, c: usize) -> usize {
        let (x, z) = grid.position(c);
        match self {
            Axis::X => grid.cell(grid.nx - 1 - x, z),
            Axis::Z => grid.cell(x, grid.nz - 1 - z),
        }
    }

    /// What stood in a cell stands in the reflected one, each part in the place of its reflected direction; the carry stays.
    pub fn turned_state(self, grid: &Grid, state: &State) -> State {
        let mut turned = state.clone();
        for (c, cell) in state.cells.iter().enumerate() {
            let mut parts = [0; 9];
            for (k, &part) in cell.parts.iter().enumerate() {
                parts[self.turned_direction(k)] = part;
            }
            turned.cells[self.turned_cell(grid, c)] = Cell { parts, ..*cell };
        }
        turned
    }
}

/// The mirror: tests 1, 2, 3, 4, 5, 6; a refusal writes nothing.
pub fn mirror(sides: [u32; 2], first: Set, mut second: SetMut, axis: u64) -> Result<(), Refusal> {
    let grid = Grid::new(sides)?;
    if !fits(&first, grid.n()) || !fits(&second.as_set(), grid.n()) {
        return refuse(2, 0);
    }
    let Some(axis) = Axis::of(axis) else {
        return refuse(3, 0);
    };
    let state = good_state(&grid, first)?;
    put(&mut second, &axis.turned_state(&grid, &state));
    Ok(())
}
