// Height grids, the text that surveyors hand each other: an invert read as a dry grid, and a grid's depths written.

use crate::state::Buffers;
use crate::{lent, Grid, Record, Refusal, Settings, Sides, Site};

/// No header of a depth map is longer, and no value with the blank or the line's end behind it.
const HEADER: usize = 102;
const VALUE: usize = 7;

impl Grid {
    /// The dry grid of an invert, `nz` cells high above an origin at this height, in millimetres, with its settings and site.
    ///
    /// Heights are whole millimetres above the origin's height: a cell whose centre lies below its column's height is wall, and so is
    /// every cell of a column with -9999. The outer layer is wall in any case. Refusals 19 of a header line, 1, 3, then 20 of a row.
    pub fn from_invert(text: &[u8], nz: usize, height: i64, settings: Settings) -> Result<Record, Refusal> {
        // The library looks at the lengths of its slices once the header is readable and the sides are in range.
        let cells = sides_in(text, nz).and_then(|sides| sides.cells().ok()).unwrap_or(0);
        let mut first = Buffers::new(cells);
        let (sides, site) = lent::invert_read(text, nz, height, settings, first.hold_mut())?;
        Ok(Record { grid: Grid::holding(sides, first), settings, site })
    }

    /// The depth map: the depth of every column in whole millimetres, rounded down, -9999 where it is all wall, as a height grid's text.
    /// Of the site, the origin's height is not looked at. Refusals 3 to 6.
    pub fn depth_map(&self, site: Site) -> Result<String, Refusal> {
        let mut room = vec![0; HEADER + VALUE * self.sides.nx * self.sides.ny];
        let length = lent::depths_write(self.sides, site, self.state(), &mut room)?;
        room.truncate(length);
        // The library writes letters, digits, signs, points, blanks and line ends alone.
        Ok(room.into_iter().map(char::from).collect())
    }
}

/// The sides of an invert whose first two lines the library takes: behind the keyword a whole number, perhaps with a point and zeros.
fn sides_in(text: &[u8], nz: usize) -> Option<Sides> {
    let mut lines = text.split(|&byte| byte == b'\n');
    let mut side = || {
        let mut words = lines.next()?.split(|byte| b" \t\r".contains(byte)).filter(|word| !word.is_empty());
        let digits = words.nth(1)?.split(|&byte| byte == b'.').next()?;
        std::str::from_utf8(digits).ok()?.parse().ok()
    };
    Some(Sides::new(side()?, side()?, nz))
}
