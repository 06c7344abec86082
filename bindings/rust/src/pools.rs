// The pools of a grid: which of its water hangs together.

use crate::{lent, Grid, Refusal, State};

/// A pool: a greatest set of liquid cells that chains of liquid neighbours join.
#[derive(Clone, Copy, Debug, PartialEq, Eq, Hash)]
pub struct Pool {
    /// From 1, in the order of the lowest cells: the mark of its cells.
    pub number: u16,
    /// How many cells it has.
    pub cells: u32,
    /// The sum of their masses, which may be 0 or below.
    pub water: i64,
    /// Its cell with the lowest number.
    pub lowest: usize,
}

/// The pools of a grid, and whose each cell is.
#[derive(Clone, Debug, PartialEq, Eq)]
pub struct Pools {
    /// In the order of their numbers.
    pub list: Vec<Pool>,
    /// One per cell: the number of its pool, 0 where it is not liquid.
    pub marks: Vec<u16>,
}

impl Pools {
    /// The water of all pools: the grid's total without the carry.
    pub fn water(&self) -> i64 {
        self.list.iter().map(|pool| pool.water).sum()
    }
}

impl Grid {
    /// The pools of the grid, or refusal 4, 5 or 6.
    pub fn pools(&self) -> Result<Pools, Refusal> {
        let state = self.state();
        // Carry, poured and taken, as far as the state has them.
        let mut carry = [0; 3];
        carry.iter_mut().zip(state.carry).for_each(|(number, held)| *number = *held);
        let cells = state.flags.len();
        // There are never more, as is proved.
        let most = (self.sides.nx - 1) * (self.sides.ny - 1) * (self.sides.nz - 1) / 4;
        let (mut counts, mut waters) = (vec![0; most], vec![0; most]);
        let (mut marks, mut work) = (vec![0; cells], vec![0; cells]);
        let state = State { carry: &carry, ..state };
        let found = lent::pools(self.sides, state, &mut counts, &mut waters, &mut marks, &mut work)?;

        let mut list: Vec<Pool> = Vec::with_capacity(found);
        for (cell, &mark) in marks.iter().enumerate() {
            // Numbers rise with the lowest cells, so that each new one is the next.
            if usize::from(mark) > list.len() {
                let k = list.len();
                list.push(Pool { number: mark, cells: counts[k], water: waters[k], lowest: cell });
            }
        }
        Ok(Pools { list, marks })
    }
}
