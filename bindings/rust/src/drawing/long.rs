//! A long profile as text and as a picture: the invert and the water on it along a list of survey points, and the deepest of them.

mod sheet;

use crate::picture::Picture;
use crate::spelling::{counted, thousandths};
use crate::{Depth, Grid, Line, Profile, Refusal, Site, Station, FULL, WALL};

/// What is shown of a point.
#[derive(Clone, Copy, Debug)]
struct Spot {
    chainage: i64,
    line: Line,
    /// The height of the invert in millimetres: where the lowest cell of the column begins that is not wall.
    invert: Option<i64>,
}

/// A long profile, ready to be told or drawn.
#[derive(Clone, Debug)]
pub struct LongProfile {
    title: String,
    spots: Vec<Spot>,
    deepest: Option<usize>,
    edge: i64,
}

/// Tenths of a millimetre as a number.
fn tenths(number: u64) -> String {
    format!("{}.{}", number / 10, number % 10)
}

impl Spot {
    /// The depth in cells, 0 unless deep.
    fn cells(&self) -> f32 {
        match self.line {
            Line::Inside(Depth::Deep(cells)) => cells,
            _ => 0.0,
        }
    }

    /// The depth in 65,536ths of a cell: the f32 is exact.
    fn parts(&self) -> u64 {
        (f64::from(self.cells()) * f64::from(FULL)) as u64
    }

    /// In tenths of a millimetre, to the nearest.
    fn tenths(&self, edge: i64) -> u64 {
        (20 * self.parts() * edge as u64 + u64::from(FULL)) / (2 * u64::from(FULL))
    }
}

impl LongProfile {
    /// The profile of a grid that lies there; refusals as [`Grid::profile`] gives them.
    pub fn new(grid: &Grid, site: Site, stations: &[Station]) -> Result<LongProfile, Refusal> {
        let Profile { lines, deepest } = grid.profile(site, stations)?;
        let spots = stations.iter().zip(lines).map(|(station, line)| Spot {
            chainage: station.chainage,
            line,
            invert: grid.place(site, station.point).ok().and_then(|cell| invert(grid, site, cell)),
        });
        Ok(LongProfile { title: "Long profile".into(), spots: spots.collect(), deepest, edge: site.edge })
    }

    /// With a name before the title.
    pub fn named(mut self, name: &str) -> LongProfile {
        self.title = format!("{name}: {}", self.title);
        self
    }

    /// How many points there are, and how many of each kind, as names and numbers.
    fn counts(&self) -> [(&'static str, usize); 5] {
        let of = |wanted: fn(&Line) -> bool| self.spots.iter().filter(|spot| wanted(&spot.line)).count();
        [
            ("points", self.spots.len()),
            ("deep", of(|line| matches!(line, Line::Inside(Depth::Deep(_))))),
            ("dry", of(|line| matches!(line, Line::Inside(Depth::Dry)))),
            ("solid", of(|line| matches!(line, Line::Inside(Depth::Solid)))),
            ("outside", of(|line| matches!(line, Line::Outside))),
        ]
    }

    /// The deepest point in a line.
    fn deepest_line(&self) -> String {
        let Some(at) = self.deepest else {
            return "deepest: none, as no point is wet".into();
        };
        let spot = &self.spots[at];
        let depth = tenths(spot.tenths(self.edge));
        format!("deepest: {depth} mm at chainage {} m, point {at}", thousandths(spot.chainage))
    }

    /// A line for each point, then how many there are of each kind, and the deepest.
    pub fn text(&self) -> String {
        let mut text = format!(
            "{:>6} {:>16} {:>16} {:>10} {:>16}\n",
            "point", "chainage/m", "invert/m", "depth/mm", "depth/cells"
        );
        for (point, spot) in self.spots.iter().enumerate() {
            let invert = spot.invert.map_or("-".into(), thousandths);
            let (depth, cells) = match spot.line {
                Line::Outside => ("outside".into(), String::new()),
                Line::Inside(Depth::Solid) => ("solid".into(), String::new()),
                Line::Inside(Depth::Dry) => ("dry".into(), String::new()),
                Line::Inside(Depth::Deep(_)) => {
                    (tenths(spot.tenths(self.edge)), format!("{}/{FULL}", spot.parts()))
                }
            };
            let line =
                format!("{point:>6} {:>16} {invert:>16} {depth:>10} {cells:>16}", thousandths(spot.chainage));
            text += line.trim_end();
            text.push('\n');
        }
        let counts = self.counts().map(|(name, count)| format!("{} {name}", counted(count)));
        text + &format!("{}\n{}\n", counts.join(", "), self.deepest_line())
    }

    /// The picture, with the deepest as a description in its file too.
    pub fn picture(&self) -> Picture {
        let mut picture = sheet::picture(self);
        picture.note("Title", &self.title);
        picture.note("Description", &self.deepest_line());
        picture
    }
}

/// Where the lowest cell that is not wall begins in the column of a cell.
fn invert(grid: &Grid, site: Site, cell: usize) -> Option<i64> {
    let sides = grid.sides();
    let (x, y, _) = sides.position(cell);
    let flags = grid.state().flags;
    let open = |z: &usize| sides.cell(x, y, *z).is_ok_and(|cell| flags[cell] != WALL);
    (0..sides.nz).find(open).map(|z| site.origin.z + z as i64 * site.edge)
}
