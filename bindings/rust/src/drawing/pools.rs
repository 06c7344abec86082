//! The pools of a grid as text and as a picture: a line for each, and each in a colour of its own.

mod sheet;

use crate::drawing::{called, share, unit, Axis, View};
use crate::picture::Picture;
use crate::spelling::{counted, grouped};
use crate::{Grid, Pool, Pools, Refusal, Sides, Site, EMPTY, FLUID, WALL};

/// A square of the picture.
#[derive(Clone, Copy, Debug, PartialEq)]
enum Square {
    /// A wall, or a column of nothing else.
    Wall,
    /// An empty cell, or a dry column.
    Empty,
    /// A liquid cell, or a column whose highest one it is: its pool, and how full it is drawn.
    Liquid(u16, f32),
}

/// The pools of a grid, ready to be told or drawn.
#[derive(Clone, Debug)]
pub struct PoolMap {
    title: String,
    view: View,
    /// From the top.
    rows: Vec<Vec<Square>>,
    list: Vec<Pool>,
    carry: i64,
    sides: Sides,
    site: Site,
}

/// A share of a whole in hundredths of a hundredth, to the nearest; none of a whole that is not above 0.
fn percent(part: i64, whole: i64) -> String {
    if whole <= 0 {
        return "-".into();
    }
    let (part, whole) = (20_000 * i128::from(part), 2 * i128::from(whole));
    let rounded = (part + part.signum() * whole / 2) / whole;
    let sign = if rounded < 0 { "-" } else { "" };
    let rounded = rounded.unsigned_abs();
    format!("{sign}{}.{:02} %", grouped((rounded / 100) as i128), rounded % 100)
}

impl PoolMap {
    /// The pools of a grid that lies there, drawn by this view: refusals as [`Grid::pools`] gives them; 13 for a section outside.
    pub fn new(grid: &Grid, site: Site, view: View) -> Result<PoolMap, Refusal> {
        let pools = grid.pools()?;
        let rows = rows(grid, view, &pools)?;
        let title = match view {
            View::Above => "Pools from above".to_string(),
            View::Section(axis, at) => format!("Pools at {} = {at}", axis.name()),
        };
        let (sides, carry) = (grid.sides(), grid.water().carry);
        Ok(PoolMap { title, view, rows, list: pools.list, carry, sides, site })
    }

    /// With a name before the title, as [`Drawing::named`](crate::drawing::Drawing::named) has it.
    pub fn named(mut self, name: &str) -> PoolMap {
        self.title = called(name, &self.title);
        self
    }

    /// The water of all pools.
    fn water(&self) -> i64 {
        self.list.iter().map(|pool| pool.water).sum()
    }

    /// Number, cells, water, share of all pools' water and lowest cell.
    fn told(&self, pool: &Pool) -> [String; 5] {
        let (x, y, z) = self.sides.position(pool.lowest);
        [
            pool.number.to_string(),
            grouped(pool.cells),
            grouped(pool.water),
            percent(pool.water, self.water()),
            format!("{} (x {x}, y {y}, z {z})", pool.lowest),
        ]
    }

    /// All pools together.
    fn together(&self) -> [String; 4] {
        let cells: i64 = self.list.iter().map(|pool| i64::from(pool.cells)).sum();
        let water = self.water();
        ["all".into(), grouped(cells), grouped(water), percent(water, water)]
    }

    /// A line for each pool, then all of them together, the carry and the total.
    pub fn text(&self) -> String {
        let many = match self.list.len() {
            0 => "no pools".to_string(),
            1 => "1 pool".to_string(),
            many => format!("{} pools", counted(many)),
        };
        let mut text = format!("{many}; {}\n", unit());
        text += &format!("{:>6}{:>12}{:>24}{:>12}  {}\n", "pool", "cells", "water", "share", "lowest cell");
        for pool in &self.list {
            let [number, cells, water, share, lowest] = self.told(pool);
            text += &format!("{number:>6}{cells:>12}{water:>24}{share:>12}  {lowest}\n");
        }
        let [all, cells, water, share] = self.together();
        text += &format!("{all:>6}{cells:>12}{water:>24}{share:>12}\n");
        for (name, amount) in [("carry", self.carry), ("total", self.water() + self.carry)] {
            text += &format!("{name:>6}{:>36}\n", grouped(amount));
        }
        text
    }

    /// The picture, with the lines as a description in its file too.
    pub fn picture(&self) -> Picture {
        let mut picture = sheet::picture(self);
        picture.note("Title", &self.title);
        picture.note("Description", &self.text());
        picture
    }
}

/// The squares of a view, by rows from the top.
fn rows(grid: &Grid, view: View, pools: &Pools) -> Result<Vec<Vec<Square>>, Refusal> {
    let sides = grid.sides();
    let state = grid.state();
    let side = |axis: Axis| [sides.nx, sides.ny, sides.nz][axis as usize];
    let (across, up) = view.axes();
    let square = |right: usize, height: usize| match view {
        View::Above => {
            let column = (0..sides.nz).rev().map(|z| sides.cell(right, height, z));
            let column = column.collect::<Result<Vec<usize>, Refusal>>()?;
            let highest = column.iter().map(|&cell| pools.marks[cell]).find(|&mark| mark > 0);
            Ok(match highest {
                Some(mark) => Square::Liquid(mark, 1.0),
                None if column.iter().all(|&cell| state.flags[cell] == WALL) => Square::Wall,
                None => Square::Empty,
            })
        }
        View::Section(axis, at) => {
            let mut place = [0; 3];
            (place[across as usize], place[up as usize], place[axis as usize]) = (right, height, at);
            let cell = sides.cell(place[0], place[1], place[2])?;
            Ok(match state.flags[cell] {
                WALL => Square::Wall,
                EMPTY => Square::Empty,
                FLUID => Square::Liquid(pools.marks[cell], 1.0),
                _ => Square::Liquid(pools.marks[cell], share(state.fills[cell])),
            })
        }
    };
    let row = |height: usize| (0..side(across)).map(|right| square(right, height)).collect();
    (0..side(up)).rev().map(row).collect()
}

#[cfg(test)]
mod tests {
    use super::percent;

    #[test]
    fn shares_are_rounded_to_the_nearest() {
        for (part, whole, text) in [
            (1, 3, "33.33 %"),
            (2, 3, "66.67 %"),
            (-7, 993, "-0.70 %"),
            (1000, 993, "100.70 %"),
            (1, 20_000, "0.01 %"),
            (-1, 20_001, "0.00 %"),
            (0, 5, "0.00 %"),
            (5, 0, "-"),
            (5, -5, "-"),
            (i64::MAX, 1, "922,337,203,685,477,580,700.00 %"),
        ] {
            assert_eq!(percent(part, whole), text);
        }
    }
}
