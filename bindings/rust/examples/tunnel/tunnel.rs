// The tunnel with its account, and what is done to its water: hose, seep, pump, drops; and the look into the mirror.

use std::fs;
use std::ops::RangeInclusive;
use std::path::Path;

use skwarzyna::{Axis, Grid, Mode, Record, Refusal, Settings, Sides, Site, EMPTY, ONE};

use crate::{Outcome, MIDDLE};

/// Along x: the two sumps, and where the pump stands in the lower one.
pub const UPPER: RangeInclusive<usize> = 36..=45;
pub const LOWER: RangeInclusive<usize> = 97..=115;
const PUMP: RangeInclusive<usize> = 106..=112;
/// Water of no more cells than this, apart from all other, is a drop.
const DROP: u32 = 2;

/// What was poured and taken, in units, by whom.
#[derive(Clone, Copy, Default)]
pub struct Account {
    pub hose: i64,
    pub seep: i64,
    pub pump: i64,
    /// What was taken at one place and poured at another, where drops were gathered, and how many these were.
    pub moved: i64,
    pub drops: usize,
}

pub struct Tunnel {
    pub grid: Grid,
    pub site: Site,
    /// The water that it held at first.
    pub start: i64,
    pub account: Account,
    /// Looks into the mirror, and how many of them saw a calm step.
    pub looks: usize,
    pub calm: usize,
}

/// Where water comes into the tunnel: around which column, how far around it in cells, and how much at a stroke.
pub struct Source {
    pub at: (usize, usize),
    pub reach: usize,
    pub amount: i64,
}

impl Source {
    fn is_over(&self, sides: Sides, cell: usize) -> bool {
        let (x, y, _) = sides.position(cell);
        x.abs_diff(self.at.0) <= self.reach && y.abs_diff(self.at.1) <= self.reach
    }

    /// The cell that it pours into: of the surface under it the lowest cell, and of these the emptiest. Water is poured into the surface, and a dry
    /// tunnel has none: then it is the lowest open cell of the middle, made surface, without water. None where all of that is under water.
    fn cell(&self, grid: &mut Grid) -> Result<Option<usize>, Refusal> {
        let (sides, masses) = (grid.sides(), grid.state().masses);
        let under = grid.surface(0)?.filter(|&cell| self.is_over(sides, cell));
        let lowest = under.min_by_key(|&cell| (sides.position(cell).2, masses[cell]));
        if lowest.is_some() {
            return Ok(lowest);
        }
        let column = (0..sides.nz).map(|z| sides.cell(self.at.0, self.at.1, z));
        let column = column.collect::<Result<Vec<usize>, Refusal>>()?;
        let open = column.into_iter().find(|&cell| grid.state().flags[cell] == EMPTY);
        if let Some(cell) = open {
            grid.set_interface(cell, 0)?;
        }
        Ok(open)
    }

    /// A stroke: what was poured, nothing where all is under water.
    pub fn pour(&self, grid: &mut Grid) -> Result<i64, Refusal> {
        match self.cell(grid)? {
            Some(cell) => grid.pour(cell, self.amount),
            None => Ok(0),
        }
    }
}

impl Tunnel {
    /// The dry tunnel of an ASCII grid of heights.
    pub fn read(invert: &Path, nz: usize, height: i64, settings: Settings) -> Outcome<Tunnel> {
        let name = invert.display();
        let text = fs::read(invert).map_err(|error| format!("{name}: {error}"))?;
        let Record { grid, site, .. } =
            Grid::from_invert(&text, nz, height, settings).map_err(|refusal| format!("{name}: {refusal}"))?;
        let Sides { nx, ny, .. } = grid.sides();
        if nx <= *LOWER.end() || ny <= MIDDLE {
            return Err(format!(
                "{name}: {nx} x {ny} columns are too few for sumps and hose of this example"
            )
            .into());
        }
        let start = grid.total();
        Ok(Tunnel { grid, site, start, account: Account::default(), looks: 0, calm: 0 })
    }

    /// A stroke of the pump: at most this amount from the fullest cell of the surface over it.
    pub fn lift(&mut self, amount: i64) -> Result<(), Refusal> {
        let (sides, masses) = (self.grid.sides(), self.grid.state().masses);
        let over = self.grid.surface(0)?.filter(|&cell| PUMP.contains(&sides.position(cell).0));
        if let Some(cell) = over.max_by_key(|&cell| masses[cell]) {
            self.account.pump += self.grid.take(cell, amount)?;
        }
        Ok(())
    }

    /// Puts drops back into the nearest water, but for what a source has just begun. A cell that a falling surface leaves behind alone gains speed by
    /// gravity in every step until it passes the limit, and the run ends with refusal 7 or 8. Its water is taken there and poured here, so that the
    /// library keeps account of it.
    pub fn gather_drops(&mut self, sources: &[Source]) -> Result<(), Refusal> {
        let (pools, sides) = (self.grid.pools()?, self.grid.sides());
        let few = |mark: u16| mark > 0 && pools.list[usize::from(mark) - 1].cells <= DROP;
        let fed = |cell: usize| sources.iter().any(|source| source.is_over(sides, cell));
        let drop = |cell: usize| few(pools.marks[cell]) && !fed(cell);
        let drops: Vec<usize> = (0..pools.marks.len()).filter(|&cell| drop(cell)).collect();
        for cell in drops {
            let water = self.grid.surface(0)?.filter(|&near| !few(pools.marks[near]));
            let Some(near) = water.min_by_key(|&near| apart(sides, cell, near)) else { continue };
            // A cell of the surface may owe water, too.
            let mass = i64::from(self.grid.state().masses[cell]);
            let (from, to) = if mass > 0 { (cell, near) } else { (near, cell) };
            if self.carry_over(from, to, mass.abs())? {
                // Nothing is in it now, so that nothing is lost with it.
                self.grid.set_empty(cell)?;
                self.account.drops += 1;
            }
        }
        Ok(())
    }

    /// Takes an amount from one cell and pours it into another, as far as there is so much; whether it was.
    fn carry_over(&mut self, from: usize, to: usize, amount: i64) -> Result<bool, Refusal> {
        let mut left = amount;
        while left > 0 {
            let taken = self.grid.take(from, left.min(ONE.into()))?;
            if taken == 0 {
                return Ok(false);
            }
            self.grid.pour(to, taken)?;
            self.account.moved += taken;
            left -= taken;
        }
        Ok(true)
    }

    /// Holds the tunnel to its mirror image: mirrored twice it is itself, and if its next step is calm, so that no cell fills or empties, that step of
    /// the mirrored tunnel is the mirrored step.
    pub fn look_in_the_mirror(&mut self, settings: Settings, mode: Mode) -> Outcome<()> {
        let mut mirrored = self.grid.mirrored(Axis::X)?;
        if mirrored.mirrored(Axis::X)? != self.grid {
            return Err("mirrored and mirrored back the tunnel is another".into());
        }
        self.looks += 1;
        let mut after = self.grid.clone();
        // What is refused here is refused in the run as well, and told there.
        let calm =
            after.step(settings.in_mode(mode)).is_ok() && after.state().flags == self.grid.state().flags;
        if calm {
            self.calm += 1;
            mirrored.step(settings.mirrored(Axis::X).in_mode(mode))?;
            if mirrored != after.mirrored(Axis::X)? {
                return Err("a calm step of the mirrored tunnel is not the mirrored step".into());
            }
        }
        Ok(())
    }

    /// The water in these columns.
    pub fn within(&self, columns: &RangeInclusive<usize>) -> i64 {
        let (sides, masses) = (self.grid.sides(), self.grid.state().masses.iter().enumerate());
        let here = masses.filter(|(cell, _)| columns.contains(&sides.position(*cell).0));
        here.map(|(_, &mass)| i64::from(mass)).sum()
    }
}

/// How far two cells lie apart, seen from above before all.
fn apart(sides: Sides, a: usize, b: usize) -> (usize, usize) {
    let ((x, y, z), (u, v, w)) = (sides.position(a), sides.position(b));
    (x.abs_diff(u) + y.abs_diff(v), z.abs_diff(w))
}
