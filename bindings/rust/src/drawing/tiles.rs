// What is seen of each cell or column.

use super::{share, Axis, View};
use crate::{Depth, Grid, Refusal, FLUID, INTERFACE, WALL};

/// A square of the drawing.
#[derive(Clone, Copy, Debug, PartialEq)]
pub enum Tile {
    /// A wall, or a column of nothing else.
    Wall,
    /// An empty cell, or a dry column.
    Empty,
    /// An interface cell with its fill as a share.
    Interface(f32),
    Fluid,
    /// A column with water, so many cells deep.
    Deep(f32),
}

impl Tile {
    pub fn depth(&self) -> f32 {
        match self {
            Tile::Deep(cells) => *cells,
            _ => 0.0,
        }
    }

    /// How full a cell is, none where it is wall.
    pub fn fill(&self) -> Option<f32> {
        match *self {
            Tile::Wall => None,
            Tile::Empty => Some(0.0),
            Tile::Interface(fill) => Some(fill),
            Tile::Fluid | Tile::Deep(_) => Some(1.0),
        }
    }

    /// The letter of the drawing as text: those of examples/sump.txt, and tenths.
    pub fn letter(&self, darkest: f32) -> char {
        match *self {
            Tile::Wall => '#',
            Tile::Empty => '.',
            Tile::Interface(fill) => tenth(fill),
            Tile::Fluid => 'w',
            Tile::Deep(cells) => tenth(cells / darkest),
        }
    }
}

fn tenth(share: f32) -> char {
    char::from(b'0' + (10.0 * share).clamp(0.0, 9.0) as u8)
}

/// The square of a cell.
pub fn cell(flag: u8, fill: u32) -> Tile {
    match flag {
        WALL => Tile::Wall,
        INTERFACE => Tile::Interface(share(fill)),
        FLUID => Tile::Fluid,
        _ => Tile::Empty,
    }
}

/// The squares of a view, by rows from the top.
pub fn rows(grid: &Grid, view: View) -> Result<Vec<Vec<Tile>>, Refusal> {
    let sides = grid.sides();
    let side = |axis: Axis| [sides.nx, sides.ny, sides.nz][axis as usize];
    let (across, up) = view.axes();
    let tile = |right: usize, height: usize| match view {
        View::Above => Ok(match grid.depth(right, height)? {
            Depth::Solid => Tile::Wall,
            Depth::Dry => Tile::Empty,
            Depth::Deep(cells) => Tile::Deep(cells),
        }),
        View::Section(axis, at) => {
            let mut place = [0; 3];
            (place[across as usize], place[up as usize], place[axis as usize]) = (right, height, at);
            let cell = sides.cell(place[0], place[1], place[2])?;
            let state = grid.state();
            Ok(self::cell(state.flags[cell], state.fills[cell]))
        }
    };
    let row = |height: usize| (0..side(across)).map(|right| tile(right, height)).collect();
    (0..side(up)).rev().map(row).collect()
}
