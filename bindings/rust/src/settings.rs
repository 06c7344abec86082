// Settings of a step, and where a grid lies in the survey.

use crate::{InMode, Mode};

/// What a step is made with, beside its mode.
#[derive(Clone, Copy, Debug, PartialEq, Eq, Hash)]
pub struct Settings {
    /// The relaxation in 1,024ths, 1 to 2037: the lower, the more viscous the water.
    pub p: i64,
    /// Gravity in cells per step and step, in 1,048,576ths; gx² + gy² + gz² is at most 1,099,511.
    pub gx: i64,
    pub gy: i64,
    pub gz: i64,
}

/// An axis of the grid, by the library's number.
#[derive(Clone, Copy, Debug, PartialEq, Eq, Hash)]
pub enum Axis {
    X = 0,
    Y = 1,
    Z = 2,
}

impl Settings {
    /// For a step or a run in this mode.
    pub const fn in_mode(self, mode: Mode) -> InMode<Settings> {
        InMode { settings: self, mode }
    }

    /// With the sign of gravity's component along this axis changed, as belongs to a grid that is mirrored in it.
    pub fn mirrored(self, axis: Axis) -> Settings {
        // The widest number of its type, which no call accepts, has no opposite and stays.
        match axis {
            Axis::X => Settings { gx: self.gx.saturating_neg(), ..self },
            Axis::Y => Settings { gy: self.gy.saturating_neg(), ..self },
            Axis::Z => Settings { gz: self.gz.saturating_neg(), ..self },
        }
    }
}

/// A survey point in whole millimetres, each coordinate within ±10,000,000,000.
#[derive(Clone, Copy, Debug, Default, PartialEq, Eq, Hash)]
pub struct Point {
    pub x: i64,
    pub y: i64,
    pub z: i64,
}

impl Point {
    /// The point with these coordinates.
    pub const fn new(x: i64, y: i64, z: i64) -> Point {
        Point { x, y, z }
    }
}

/// Where a grid lies.
#[derive(Clone, Copy, Debug, PartialEq, Eq, Hash)]
pub struct Site {
    /// The edge of a cell, 1 to 1,000 millimetres.
    pub edge: i64,
    /// The survey point of the grid's corner, that of cell 0.
    pub origin: Point,
}
