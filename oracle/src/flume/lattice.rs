// D2Q9: the nine directions and their weights; the moments and the equilibrium of one cell's parts.

use crate::lattice::cut;

pub type Parts = [i128; 9];
/// Along x, and up.
pub type Vector = [i128; 2];

pub const DIRECTIONS: [Vector; 9] =
    [[0, 0], [1, 0], [-1, 0], [0, 1], [0, -1], [1, 1], [-1, -1], [1, -1], [-1, 1]];

/// In 36ths.
pub const WEIGHTS: [i128; 9] = [16, 4, 4, 4, 4, 1, 1, 1, 1];

/// Directions 1 to 8.
pub const MOVING: std::ops::Range<usize> = 1..9;

pub fn dot([ax, az]: Vector, [bx, bz]: Vector) -> i128 {
    ax * bx + az * bz
}

/// Density and momentum of a cell.
#[derive(Clone, Copy, Debug, PartialEq, Eq)]
pub struct Flow {
    pub rho: i128,
    pub j: Vector,
}

impl Flow {
    pub fn of(parts: &Parts) -> Flow {
        let sum = |axis: usize| parts.iter().zip(DIRECTIONS).map(|(part, e)| part * e[axis]).sum();
        Flow { rho: parts.iter().sum(), j: [sum(0), sum(1)] }
    }

    /// Q of stage 4: the exact equilibrium part of direction i is w·Q/(72ρ).
    pub fn q(&self, i: usize) -> i128 {
        let along = dot(DIRECTIONS[i], self.j);
        2 * self.rho * self.rho + 6 * self.rho * along + 9 * along * along - 3 * dot(self.j, self.j)
    }

    /// Stage 5's parts: the moving ones cut, part 0 the rest of ρ.
    pub fn equilibrium(&self) -> Parts {
        let mut parts = [0; 9];
        for i in MOVING {
            parts[i] = cut(WEIGHTS[i] * self.q(i), 72 * self.rho);
        }
        parts[0] = self.rho - parts.iter().sum::<i128>();
        parts
    }
}
