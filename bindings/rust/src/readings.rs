// What a reading of the grid answers.

use crate::Point;

/// The water in one column of cells.
#[derive(Clone, Copy, Debug, PartialEq)]
pub enum Depth {
    /// Every cell is wall.
    Solid,
    /// There are other cells, and no water in them.
    Dry,
    /// The depth in cells, exact and above 0.
    Deep(f32),
}

/// The centre of a cell in cells from the grid's corner, and its fill as a share of 1; all four exact.
#[derive(Clone, Copy, Debug, PartialEq)]
pub struct CellPoint {
    pub x: f32,
    pub y: f32,
    pub z: f32,
    pub fill: f32,
}

/// A survey point along the gutter, and how far along it lies.
#[derive(Clone, Copy, Debug, PartialEq, Eq, Hash)]
pub struct Station {
    /// In whole millimetres; any number, as long as it is above that of the station before.
    pub chainage: i64,
    pub point: Point,
}

/// What a profile says of one point of its list.
#[derive(Clone, Copy, Debug, PartialEq)]
pub enum Line {
    /// No cell of the grid holds the point.
    Outside,
    /// The water in the column of the cell that holds it.
    Inside(Depth),
}

/// A long profile: a line for each point of its list, in list order.
#[derive(Clone, Debug, PartialEq)]
pub struct Profile {
    pub lines: Vec<Line>,
    /// The deepest point, the first among equals; none if no point is wet.
    pub deepest: Option<usize>,
}
