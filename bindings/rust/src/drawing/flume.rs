// A flume from the side, by the kinds and fills of its cells.

use super::tiles::{cell, Tile};
use super::{counted_water, Axis, Drawing, View};
use crate::spelling::{litres_per_metre, thousandths};
use crate::Flume;

/// The water balance of a flume to the unit, as names and numbers: four counts of cells, four amounts of water, and the total in litres per
/// metre of its width.
pub fn flume_balance(flume: &Flume) -> Vec<(&'static str, String)> {
    let mut lines = counted_water(flume.counts(), flume.water());
    lines.push(("litres per metre", litres_per_metre(flume.total(), flume.edge())));
    lines
}

impl Drawing {
    /// A flume from the side.
    pub fn of_flume(flume: &Flume) -> Drawing {
        let (sides, origin) = (flume.sides(), flume.origin());
        let cells: Vec<Tile> =
            flume.flags().iter().zip(flume.fills()).map(|(&flag, &fill)| cell(flag, fill)).collect();
        let [x, z] = [origin.x, origin.z].map(thousandths);
        Drawing {
            title: "Flume from the side".to_string(),
            view: View::Section(Axis::Y, 0),
            rows: cells.chunks(sides.nx).rev().map(<[Tile]>::to_vec).collect(),
            deepest: 0.0,
            darkest: 0.0,
            block: (1, 1),
            place: [
                format!("{} x {} cells of {} mm", sides.nx, sides.nz, flume.edge()),
                format!("metres from the origin, x {x}, z {z}"),
            ],
            edge: flume.edge(),
            balance: flume_balance(flume),
        }
    }

    /// A section as text with at most so many letters a line. Where there are more cells, a letter stands for a block of them, about twice as
    /// wide as high, as a letter is about twice as high as wide.
    pub fn text_within(&self, letters: usize) -> String {
        let wide = self.rows[0].len().div_ceil(letters.max(1));
        if wide <= 1 {
            return self.text();
        }
        let high = wide.div_ceil(2);
        // Blocks are counted from the lower left corner.
        let layers: Vec<&Vec<Tile>> = self.rows.iter().rev().collect();
        let line = |layers: &[&Vec<Tile>]| {
            let columns = (0..layers[0].len()).step_by(wide);
            let block = |from: usize| {
                let to = (from + wide).min(layers[0].len());
                layers.iter().flat_map(|layer| layer[from..to].iter().copied()).collect::<Vec<Tile>>()
            };
            columns.map(|from| together(&block(from))).collect::<Vec<Tile>>()
        };
        let rows = layers.chunks(high).rev().map(line).collect();
        Drawing { rows, block: (wide, high), ..self.clone() }.text()
    }
}

/// A block of cells as one: wall where half of it is or more, else by the mean fill of the others.
fn together(tiles: &[Tile]) -> Tile {
    let open: Vec<f32> = tiles.iter().filter_map(Tile::fill).collect();
    if 2 * open.len() <= tiles.len() {
        return Tile::Wall;
    }
    match open.iter().sum::<f32>() / open.len() as f32 {
        full if full >= 1.0 => Tile::Fluid,
        mean if mean > 0.0 => Tile::Interface(mean),
        _ => Tile::Empty,
    }
}
