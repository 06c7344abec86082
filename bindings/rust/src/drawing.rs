//! A grid or a flume as a picture or as text: its depths from above, or the cells of a section, with legend, scale and water balance.

mod colours;
mod flume;
pub mod long;
pub mod pools;
mod scale;
mod sheet;
mod tiles;

use crate::picture::Picture;
use crate::spelling::{counted, grouped, litres, thousandths};
use crate::{Counts, Grid, Refusal, Site, Water, FULL, ONE};

use tiles::Tile;

pub use flume::flume_balance;

/// An axis of the grid.
#[derive(Clone, Copy, Debug, PartialEq, Eq)]
pub enum Axis {
    X,
    Y,
    Z,
}

/// What is drawn of a grid.
#[derive(Clone, Copy, Debug, PartialEq, Eq)]
pub enum View {
    /// The depth of every column, north up.
    Above,
    /// The cells with this number along an axis: along x and y an upright section, along z a level one.
    Section(Axis, usize),
}

/// A view of a grid, ready to be drawn.
#[derive(Clone, Debug)]
pub struct Drawing {
    title: String,
    view: View,
    /// From the top.
    rows: Vec<Vec<Tile>>,
    /// In cells, of the columns seen from above; 0 where none is wet, and in a section.
    deepest: f32,
    /// The depth that is drawn darkest.
    darkest: f32,
    /// How many cells a letter of the text stands for, along and up.
    block: (usize, usize),
    /// The grid and where it lies, in two lines.
    place: [String; 2],
    /// Of a cell, in millimetres.
    edge: i64,
    balance: Vec<(&'static str, String)>,
}

/// How many of the balance's lines count cells.
const COUNTS: usize = 4;
/// Letters of a name that are drawn.
const LONGEST_NAME: usize = 32;

/// The water balance to the unit, as names and numbers: four counts of cells, four amounts of water, and the total in litres.
pub fn balance(grid: &Grid, edge: i64) -> Vec<(&'static str, String)> {
    let mut lines = counted_water(grid.counts(), grid.water());
    lines.push(("total in litres", litres(grid.total(), edge)));
    lines
}

/// Four counts of cells and four amounts of water.
fn counted_water(counts: Counts, water: Water) -> Vec<(&'static str, String)> {
    vec![
        ("fluid cells", counted(counts.fluid)),
        ("interface cells", counted(counts.interface)),
        ("empty cells", counted(counts.empty)),
        ("wall cells", counted(counts.wall)),
        ("in fluid cells", grouped(water.fluid)),
        ("in interface cells", grouped(water.interface)),
        ("carry", grouped(water.carry)),
        ("total", grouped(water.total())),
    ]
}

/// The unit of the balance.
pub fn unit() -> String {
    format!("water in units, {} to a full cell", grouped(ONE))
}

/// A grid of these sides and where it lies, in two lines.
fn place([nx, ny, nz]: [usize; 3], site: Site) -> [String; 2] {
    let [x, y, z] = [site.origin.x, site.origin.y, site.origin.z].map(thousandths);
    [
        format!("{nx} x {ny} x {nz} cells of {} mm", site.edge),
        format!("metres from the origin, x {x}, y {y}, z {z}"),
    ]
}

/// A title with a name before it: what is no letter of ASCII as a question mark, and a long name cut.
fn called(name: &str, title: &str) -> String {
    let plain = |letter: char| if (' '..='~').contains(&letter) { letter } else { '?' };
    let mut short: String = name.chars().map(plain).take(LONGEST_NAME).collect();
    if name.chars().nth(LONGEST_NAME).is_some() {
        short += "...";
    }
    format!("{short}: {title}")
}

impl Axis {
    /// x, y or z.
    pub fn name(self) -> &'static str {
        ["x", "y", "z"][self as usize]
    }
}

impl View {
    /// What runs to the right and what runs up.
    fn axes(self) -> (Axis, Axis) {
        match self {
            View::Above | View::Section(Axis::Z, _) => (Axis::X, Axis::Y),
            View::Section(Axis::Y, _) => (Axis::X, Axis::Z),
            View::Section(Axis::X, _) => (Axis::Y, Axis::Z),
        }
    }
}

impl Drawing {
    /// A view of a grid that lies there; refusal 13 for a section outside it.
    pub fn new(grid: &Grid, site: Site, view: View) -> Result<Drawing, Refusal> {
        let rows = tiles::rows(grid, view)?;
        let deepest = rows.iter().flatten().map(Tile::depth).fold(0.0, f32::max);
        let title = match view {
            View::Above => "Depth from above".to_string(),
            View::Section(axis, at) => format!("Section at {} = {at}", axis.name()),
        };
        let sides = grid.sides();
        let place = place([sides.nx, sides.ny, sides.nz], site);
        let balance = balance(grid, site.edge);
        Ok(Drawing {
            title,
            view,
            rows,
            deepest,
            darkest: deepest,
            block: (1, 1),
            place,
            edge: site.edge,
            balance,
        })
    }

    /// With a name before the title; what is no letter of ASCII is drawn as a question mark, and a long name is cut.
    pub fn named(mut self, name: &str) -> Drawing {
        self.title = called(name, &self.title);
        self
    }

    /// The deepest column seen from above, in cells; 0 in a section.
    pub fn deepest(&self) -> f32 {
        self.deepest
    }

    /// With the darkest blue, from above, for a depth of so many cells, so that two pictures can be compared.
    pub fn darkest_at(mut self, cells: f32) -> Drawing {
        if self.view == View::Above {
            self.darkest = cells;
        }
        self
    }

    /// A depth in cells as millimetres.
    fn in_millimetres(&self, cells: f32) -> String {
        match f64::from(cells) * self.edge as f64 {
            few if few < 100.0 => format!("{few:.1} mm"),
            many => format!("{} mm", grouped(many.round() as i64)),
        }
    }

    /// The picture, with the balance as a description in its file too.
    pub fn picture(&self) -> Picture {
        let mut picture = sheet::picture(self);
        picture.note("Title", &self.title);
        let lines = self.balance.iter().map(|(name, number)| format!("{name} {number}"));
        picture.note("Description", &format!("{}\n{}", unit(), lines.collect::<Vec<_>>().join("\n")));
        picture
    }

    /// The same as text, a letter for each cell or column.
    pub fn text(&self) -> String {
        let (across, up) = self.view.axes();
        let (wide, high) = self.block;
        let mut text = format!("{}\n{}\n{}\n\n", self.title, self.place[0], self.place[1]);
        text += &format!("{:>5}\n", up.name());
        let height = self.rows.len();
        for (row, tiles) in self.rows.iter().enumerate() {
            let number = height - 1 - row;
            let label = if number % 5 == 0 || row == 0 { (high * number).to_string() } else { String::new() };
            text += &format!(
                "{label:>5} {}\n",
                tiles.iter().map(|tile| tile.letter(self.darkest)).collect::<String>()
            );
        }
        let labels = (0..self.rows[0].len()).step_by(10).map(|number| format!("{:<10}", wide * number));
        text += &format!("      {}  {}\n\n", labels.collect::<String>().trim_end(), across.name());
        text += &match self.view {
            View::Above if self.deepest > 0.0 => format!(
                "# solid, . dry, 0 to 9 tenths of {:.2} cells; the deepest has {:.2}, {}\n",
                self.darkest,
                self.deepest,
                self.in_millimetres(self.deepest)
            ),
            View::Above => "# solid, . dry\n".to_string(),
            View::Section(..) if wide > 1 => format!(
                "a letter for {wide} x {high} cells: # wall, . no water, 0 to 9 by tenths of their mean fill, w full\n"
            ),
            View::Section(..) => {
                "# wall, . empty, 0 to 9 interface by tenths of its fill, w fluid\n".to_string()
            }
        };
        text + "\n" + &table(&self.balance)
    }
}

/// The balance in lines, as `skw water` tells it.
pub fn table(balance: &[(&str, String)]) -> String {
    let mut text = String::new();
    for (place, (name, number)) in balance.iter().enumerate() {
        if place == COUNTS {
            text += &format!("{}\n", unit());
        }
        text += &format!("{name:<20}{number:>24}\n");
    }
    text
}

/// A fill as a share.
fn share(fill: u32) -> f32 {
    fill as f32 / FULL as f32
}
