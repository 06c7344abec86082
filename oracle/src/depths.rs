// Writing the depth map, as docs/AMENDMENTS.md has it under P8: a grid's depths as a height grid's text, in whole millimetres.

use crate::grid::{refuse, Grid, Refusal};
use crate::lattice::floor;
use crate::sets::Set;
use crate::settings::test_survey;
use crate::state::{good_state, State, FULL, WALL};

/// What stands for a column that is all wall.
const SOLID: i128 = -9999;

/// Millimetres as metres with three decimals.
pub fn metres(millimetres: i128) -> String {
    let sign = if millimetres < 0 { "-" } else { "" };
    let size = millimetres.abs();
    format!("{sign}{}.{:03}", size / 1000, size % 1000)
}

/// The value of column (x, y).
fn value(grid: &Grid, state: &State, edge: i128, x: usize, y: usize) -> i128 {
    let column = (0..grid.sides[2]).map(|z| &state.cells[grid.cell([x, y, z])]);
    let open: Vec<i128> = column.filter(|cell| cell.flag != WALL).map(|cell| cell.fill).collect();
    if open.is_empty() {
        SOLID
    } else {
        floor(open.iter().sum::<i128>() * edge, FULL)
    }
}

/// The text of a good state.
fn text(grid: &Grid, state: &State, edge: i128, corner: [i64; 2]) -> String {
    let [nx, ny, _] = grid.sides;
    let [x, y] = corner.map(|coordinate| metres(coordinate.into()));
    let mut text = format!(
        "ncols {nx}\nnrows {ny}\nxllcorner {x}\nyllcorner {y}\ncellsize {}\nNODATA_value {SOLID}\n",
        metres(edge)
    );
    for y in (0..ny).rev() {
        let row: Vec<String> = (0..nx).map(|x| value(grid, state, edge, x, y).to_string()).collect();
        text += &(row.join(" ") + "\n");
    }
    text
}

/// The writer: 1 to 6, 12. The text's length; room past it stays untouched.
pub fn write(
    sides: [u32; 3],
    edge: i32,
    corner: [i64; 2],
    set: Set,
    room: &mut [u8],
) -> Result<usize, Refusal> {
    let grid = Grid::new(sides)?;
    if !set.fits(grid.n) {
        return refuse(2, 0);
    }
    test_survey(edge, &corner)?;
    let state = good_state(&grid, set)?;
    let text = text(&grid, &state, edge.into(), corner);
    match room.get_mut(..text.len()) {
        Some(front) => {
            front.copy_from_slice(text.as_bytes());
            Ok(text.len())
        }
        None => refuse(12, text.len()),
    }
}
