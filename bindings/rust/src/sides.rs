// The box of cells: its sides, and the numbers of its cells.

use crate::{lent, Refusal, State};

/// The sides of a grid in cells: each 3 to 128, their product at most 262,144.
#[derive(Clone, Copy, Debug, PartialEq, Eq, Hash)]
pub struct Sides {
    pub nx: usize,
    pub ny: usize,
    pub nz: usize,
}

impl Sides {
    /// Sides of any length; [`cells`](Sides::cells) says whether they are in range.
    pub const fn new(nx: usize, ny: usize, nz: usize) -> Sides {
        Sides { nx, ny, nz }
    }

    /// The number of cells, or refusal 1.
    pub fn cells(self) -> Result<usize, Refusal> {
        // The library tests the sides before it looks at the slices, of which none are lent.
        match lent::check(self, State::default()) {
            Err(refusal) if refusal.number == Refusal::SIDES => Err(refusal),
            _ => Ok(self.nx * self.ny * self.nz),
        }
    }

    /// The number of cell (x, y, z), or refusal 13.
    pub fn cell(self, x: usize, y: usize, z: usize) -> Result<usize, Refusal> {
        if x < self.nx && y < self.ny && z < self.nz {
            Ok(x + self.nx * (y + self.ny * z))
        } else {
            Err(Refusal::new(Refusal::OUTSIDE, 0))
        }
    }

    /// Where a cell lies: the reverse of [`cell`](Sides::cell), for sides that are not 0.
    pub fn position(self, cell: usize) -> (usize, usize, usize) {
        (cell % self.nx, cell / self.nx % self.ny, cell / self.nx / self.ny)
    }

    /// Whether a cell lies in the outer layer, which is all wall.
    pub fn is_outer(self, cell: usize) -> bool {
        let (x, y, z) = self.position(cell);
        let inside = |at: usize, side: usize| at > 0 && at + 1 < side;
        !(inside(x, self.nx) && inside(y, self.ny) && inside(z, self.nz))
    }

    /// The eighteen neighbours of a cell inside the outer layer: those that share a face or an edge with it.
    pub(crate) fn neighbours(self, cell: usize) -> impl Iterator<Item = usize> {
        let (x, y, z) = self.position(cell);
        let near = (0..27).map(|k| (k % 3, k / 3 % 3, k / 9));
        let axes_moved = |(i, j, k): (usize, usize, usize)| [i, j, k].iter().filter(|&&way| way != 1).count();
        near.filter(move |&way| matches!(axes_moved(way), 1 | 2))
            .map(move |(i, j, k)| x + i - 1 + self.nx * (y + j - 1 + self.ny * (z + k - 1)))
    }
}
