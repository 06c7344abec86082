// The section of cells: its two sides, cell numbers and neighbours.

use crate::flume::lattice::{DIRECTIONS, MOVING};
use crate::grid::{refuse, Refusal};

/// Sides that passed test 1.
#[derive(Clone, Copy, Debug, PartialEq, Eq)]
pub struct Grid {
    pub nx: usize,
    pub nz: usize,
}

impl Grid {
    /// Test 1.
    pub fn new(sides: [u32; 2]) -> Result<Grid, Refusal> {
        if sides.iter().any(|side| !(3..=512).contains(side)) {
            return refuse(1, 0);
        }
        let [nx, nz] = sides.map(|side| side as usize);
        Ok(Grid { nx, nz })
    }

    /// N, the number of cells.
    pub fn n(&self) -> usize {
        self.nx * self.nz
    }

    pub fn cell(&self, x: usize, z: usize) -> usize {
        x + self.nx * z
    }

    pub fn position(&self, c: usize) -> (usize, usize) {
        (c % self.nx, c / self.nx)
    }

    pub fn outer(&self, c: usize) -> bool {
        let (x, z) = self.position(c);
        x == 0 || z == 0 || x == self.nx - 1 || z == self.nz - 1
    }

    /// The neighbour of c in direction i; c lies inside the outer layer.
    pub fn near(&self, c: usize, i: usize) -> usize {
        let (x, z) = self.position(c);
        let [ex, ez] = DIRECTIONS[i].map(|part| part as isize);
        self.cell(x.wrapping_add_signed(ex), z.wrapping_add_signed(ez))
    }

    /// The neighbours of c in the order of their directions; of an outer cell those that the grid has.
    pub fn neighbours(self, c: usize) -> impl Iterator<Item = usize> {
        let (x, z) = self.position(c);
        let inside = move |i: &usize| {
            let [ex, ez] = DIRECTIONS[*i].map(|part| part as isize);
            x.checked_add_signed(ex).is_some_and(|x| x < self.nx)
                && z.checked_add_signed(ez).is_some_and(|z| z < self.nz)
        };
        MOVING.filter(inside).map(move |i| self.near(c, i))
    }
}
