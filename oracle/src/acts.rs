// Pour and take, as docs/AMENDMENTS.md has them under P5.

use crate::grid::{refuse, Grid, Refusal};
use crate::sets::SetMut;
use crate::state::{good_state, INTERFACE, MASS_LIMIT, TOTAL_LIMIT};

pub const MOST: i128 = 589_824;

#[derive(Clone, Copy, Debug, PartialEq, Eq)]
pub enum Act {
    Pour,
    Take,
}

/// What was moved. A refusal writes nothing.
pub fn act(act: Act, sides: [u32; 3], mut set: SetMut, cell: u64, amount: i64) -> Result<i64, Refusal> {
    let grid = Grid::new(sides)?;
    if !set.as_set().fits(grid.n) {
        return refuse(2, 0);
    }
    let mut state = good_state(&grid, set.as_set())?;
    let Some(touched) = usize::try_from(cell).ok().and_then(|cell| state.cells.get_mut(cell)) else {
        return refuse(13, 0);
    };
    if touched.flag != INTERFACE {
        return refuse(15, cell as usize);
    }
    let amount = i128::from(amount);
    if !(1..=MOST).contains(&amount) {
        return refuse(16, 0);
    }
    let moved = match act {
        Act::Pour => amount,
        Act::Take => amount.min(touched.mass).max(0),
    };
    match act {
        Act::Pour => {
            touched.mass += moved;
            state.poured += moved;
        }
        Act::Take => {
            touched.mass -= moved;
            state.taken += moved;
        }
    }
    touched.fill = touched.worked_out_fill();
    let passed = [(touched.mass, MASS_LIMIT), (state.poured, TOTAL_LIMIT), (state.taken, TOTAL_LIMIT)];
    if passed.iter().any(|(number, limit)| number > limit) {
        return refuse(16, 0);
    }
    set.put(&state);
    Ok(moved as i64)
}

pub fn pour(sides: [u32; 3], set: SetMut, cell: u64, amount: i64) -> Result<i64, Refusal> {
    act(Act::Pour, sides, set, cell, amount)
}

pub fn take(sides: [u32; 3], set: SetMut, cell: u64, amount: i64) -> Result<i64, Refusal> {
    act(Act::Take, sides, set, cell, amount)
}
