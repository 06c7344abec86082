// Readings for the tunnel: placing, cell point, depth. Exact as whole numbers, and as f32.

use crate::grid::{refuse, Grid, Refusal};
use crate::lattice::floor;
use crate::settings::test_survey;
use crate::state::{FULL, WALL};

/// Placing: the number of the cell that holds a survey point. Tests 1, 3, 13.
pub fn place(sides: [u32; 3], edge: i32, origin: [i64; 3], point: [i64; 3]) -> Result<u64, Refusal> {
    let grid = Grid::new(sides)?;
    test_survey(edge, &origin)?;
    test_survey(edge, &point)?;
    let mut position = [0; 3];
    for axis in 0..3 {
        let way = i128::from(point[axis]) - i128::from(origin[axis]);
        let step = floor(way, i128::from(edge));
        if !(0..grid.sides[axis] as i128).contains(&step) {
            return refuse(13, 0);
        }
        position[axis] = step as usize;
    }
    Ok(grid.cell(position) as u64)
}

/// Cell centre in halves of a cell from the grid's corner, and the fill in 65,536ths.
#[derive(Clone, Copy, Debug, PartialEq, Eq)]
pub struct CellPoint {
    pub halves: [u32; 3],
    pub fill: u32,
}

impl CellPoint {
    /// The four numbers document 01 asks for, exact because each is a small whole over a power of two.
    pub fn floats(&self) -> [f32; 4] {
        let [x, y, z] = self.halves.map(|half| half as f32 / 2.0);
        [x, y, z, self.fill as f32 / 65_536.0]
    }
}

/// Cell point. Tests 1, 2, 13, then that cell's fill, 6.
pub fn cell_point(sides: [u32; 3], fills: &[u32], cell: u64) -> Result<CellPoint, Refusal> {
    let grid = Grid::new(sides)?;
    if fills.len() != grid.n {
        return refuse(2, 0);
    }
    if cell >= grid.n as u64 {
        return refuse(13, 0);
    }
    let c = cell as usize;
    if i128::from(fills[c]) > FULL {
        return refuse(6, c);
    }
    let halves = grid.position(c).map(|coordinate| 2 * coordinate as u32 + 1);
    Ok(CellPoint { halves, fill: fills[c] })
}

#[derive(Clone, Copy, Debug, PartialEq, Eq)]
pub enum Depth {
    Solid,
    Dry,
    /// The sum of the column's fills, in 65,536ths of a cell; never 0.
    Deep(u32),
}

impl Depth {
    /// The depth in cells, exact because the sum is at most 2^23.
    pub fn float(&self) -> Option<f32> {
        match self {
            Depth::Deep(sum) => Some(*sum as f32 / 65_536.0),
            _ => None,
        }
    }
}

/// Depth of column (x, y). Tests 1, 2, 13, then 4 and 6 in the column alone.
pub fn depth(sides: [u32; 3], flags: &[u8], fills: &[u32], x: u64, y: u64) -> Result<Depth, Refusal> {
    let grid = Grid::new(sides)?;
    if flags.len() != grid.n || fills.len() != grid.n {
        return refuse(2, 0);
    }
    if x >= grid.sides[0] as u64 || y >= grid.sides[1] as u64 {
        return refuse(13, 0);
    }
    let column = || (0..grid.sides[2]).map(|z| grid.cell([x as usize, y as usize, z]));
    if let Some(c) = column().find(|&c| flags[c] > WALL) {
        return refuse(4, c);
    }
    if let Some(c) = column().find(|&c| i128::from(fills[c]) > FULL) {
        return refuse(6, c);
    }
    if column().all(|c| flags[c] == WALL) {
        return Ok(Depth::Solid);
    }
    match column().filter(|&c| flags[c] != WALL).map(|c| fills[c]).sum() {
        0 => Ok(Depth::Dry),
        sum => Ok(Depth::Deep(sum)),
    }
}
