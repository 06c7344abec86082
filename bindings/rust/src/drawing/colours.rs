// The colours of walls and water.

use crate::picture::Colour;

pub const WALL: Colour = [150, 146, 138];
pub const EMPTY: Colour = [252, 250, 244];
pub const FLUID: Colour = [26, 92, 160];
/// An interface cell: its water, and the rest of it.
pub const SURFACE: Colour = [74, 154, 208];
pub const ABOVE_SURFACE: Colour = [214, 236, 246];
/// Ticks, and what is said beside the picture.
pub const PALE_INK: Colour = [96, 104, 112];

/// Of pools, told apart also by those who see few colours.
pub const POOLS: [Colour; 10] = [
    [26, 92, 160],
    [222, 134, 16],
    [10, 138, 104],
    [178, 60, 92],
    [112, 82, 168],
    [134, 110, 22],
    [24, 150, 178],
    [196, 84, 30],
    [92, 124, 40],
    [150, 70, 130],
];

/// What is left of a colour in the part of a cell above its water.
pub fn pale(colour: Colour) -> Colour {
    colour.map(|channel| (f32::from(channel) * 0.25 + 255.0 * 0.75) as u8)
}

/// From the shallowest to the deepest, and in how many steps, so that a palette holds them all.
const BLUES: [[f32; 3]; 3] = [[214.0, 234.0, 246.0], [72.0, 148.0, 200.0], [8.0, 44.0, 104.0]];
const STEPS: f32 = 40.0;

/// The blue of a depth; by its root, so that a film still shows beside a sump.
pub fn blue(depth: f32, darkest: f32) -> Colour {
    let share = if darkest > 0.0 { (depth / darkest).clamp(0.0, 1.0) } else { 0.0 };
    let share = (share.sqrt() * 2.0 * STEPS).round() / STEPS;
    let (from, way) = if share < 1.0 { (0, share) } else { (1, share - 1.0) };
    std::array::from_fn(|k| (BLUES[from][k] + way * (BLUES[from + 1][k] - BLUES[from][k])) as u8)
}

/// The colour of a square's edge: a little darker.
pub fn edge(colour: Colour) -> Colour {
    colour.map(|channel| (f32::from(channel) * 0.92) as u8)
}
