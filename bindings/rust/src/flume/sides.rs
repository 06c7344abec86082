// The section of cells: its sides, and the numbers of its cells.

use super::lent;
use crate::{Refusal, State};

/// The sides of a flume in cells, along and up: each 3 to 512.
#[derive(Clone, Copy, Debug, PartialEq, Eq, Hash)]
pub struct Sides {
    pub nx: usize,
    pub nz: usize,
}

impl Sides {
    /// Sides of any length; [`cells`](Sides::cells) says whether they are in range.
    pub const fn new(nx: usize, nz: usize) -> Sides {
        Sides { nx, nz }
    }

    /// The number of cells, or refusal 1.
    pub fn cells(self) -> Result<usize, Refusal> {
        // The library tests the sides before it looks at the slices, of which none are lent.
        match lent::check(self, State::default()) {
            Err(refusal) if refusal.number == Refusal::SIDES => Err(refusal),
            _ => Ok(self.nx * self.nz),
        }
    }

    /// The number of cell (x, z), or refusal 13.
    pub fn cell(self, x: usize, z: usize) -> Result<usize, Refusal> {
        if x < self.nx && z < self.nz {
            Ok(x + self.nx * z)
        } else {
            Err(Refusal::new(Refusal::OUTSIDE, 0))
        }
    }

    /// Where a cell lies: the reverse of [`cell`](Sides::cell), for sides that are not 0.
    pub fn position(self, cell: usize) -> (usize, usize) {
        (cell % self.nx, cell / self.nx)
    }

    /// Whether a cell lies in the outer layer, which is all wall.
    pub fn is_outer(self, cell: usize) -> bool {
        let (x, z) = self.position(cell);
        let inside = |at: usize, side: usize| at > 0 && at + 1 < side;
        !(inside(x, self.nx) && inside(z, self.nz))
    }

    /// The eight neighbours of a cell inside the outer layer.
    pub(super) fn neighbours(self, cell: usize) -> impl Iterator<Item = usize> {
        let (x, z) = self.position(cell);
        let near = (0..9).filter(|&k| k != 4).map(|k| (k % 3, k / 3));
        near.map(move |(i, k)| x + i - 1 + self.nx * (z + k - 1))
    }

    /// The two sides that a record begins with, behind their count.
    pub(super) fn in_record(record: &[u8]) -> Option<Sides> {
        let side = |at: usize| {
            let bytes = record.get(at..at + 4)?;
            usize::try_from(u32::from_le_bytes(bytes.try_into().ok()?)).ok()
        };
        Some(Sides::new(side(4)?, side(8)?))
    }
}
