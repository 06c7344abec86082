// The box of cells: its sides, cell numbers, neighbours, and the form of every refusal.

use crate::lattice::DIRECTIONS;

/// Number and place of document 01's table.
#[derive(Clone, Copy, Debug, PartialEq, Eq, PartialOrd, Ord)]
pub struct Refusal {
    pub number: u32,
    pub place: u64,
}

pub fn refuse<T>(number: u32, place: usize) -> Result<T, Refusal> {
    Err(Refusal { number, place: place as u64 })
}

/// Sides that passed test 1.
#[derive(Clone, Copy, Debug, PartialEq, Eq)]
pub struct Grid {
    pub sides: [usize; 3],
    /// N, the number of cells.
    pub n: usize,
}

impl Grid {
    /// Test 1.
    pub fn new(sides: [u32; 3]) -> Result<Grid, Refusal> {
        let n: u128 = sides.iter().map(|&side| u128::from(side)).product();
        if sides.iter().any(|side| !(3..=128).contains(side)) || n > 262_144 {
            return refuse(1, 0);
        }
        Ok(Grid { sides: sides.map(|side| side as usize), n: n as usize })
    }

    pub fn cell(&self, [x, y, z]: [usize; 3]) -> usize {
        x + self.sides[0] * (y + self.sides[1] * z)
    }

    pub fn position(&self, c: usize) -> [usize; 3] {
        let [nx, ny, _] = self.sides;
        [c % nx, c / nx % ny, c / nx / ny]
    }

    pub fn outer(&self, c: usize) -> bool {
        let position = self.position(c);
        (0..3).any(|axis| position[axis] == 0 || position[axis] == self.sides[axis] - 1)
    }

    /// The neighbour of c in direction k; c lies inside the outer layer.
    pub fn near(&self, c: usize, k: usize) -> usize {
        let [nx, ny, _] = self.sides.map(|side| side as i128);
        let [ex, ey, ez] = DIRECTIONS[k];
        (c as i128 + ex + nx * (ey + ny * ez)) as usize
    }

    /// The eighteen neighbours of c in the order of their directions.
    pub fn neighbours(self, c: usize) -> impl Iterator<Item = usize> {
        (1..19).map(move |k| self.near(c, k))
    }
}
