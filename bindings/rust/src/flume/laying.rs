// Laying walls and water cell by cell, so that a good state stays good.

use super::{Flume, PARTS};
use crate::{Refusal, EMPTY, FLUID, FULL, INTERFACE, ONE, WALL};

/// The density of water, and so the mass of a fluid cell.
const DENSITIES: std::ops::RangeInclusive<i32> = 294_912..=1_179_648;
/// The mass of an interface cell lies within this of 0.
const MASS_LIMIT: i32 = 2_359_296;

/// Each call changes a cell, whatever it was, and of its neighbours what the closed layer asks for. It is refused, and changes nothing, with
/// 13 where there is no such cell, with 4 where an outer cell would not be wall, and with 6 where the mass is out of range. Water that a
/// cell held is gone, and what is laid is new: the total changes.
impl Flume {
    /// Makes a cell wall.
    pub fn set_wall(&mut self, cell: usize) -> Result<(), Refusal> {
        self.within(cell)?;
        self.blank(cell, WALL);
        Ok(())
    }

    /// Makes a cell empty; fluid neighbours become interface and keep their water.
    pub fn set_empty(&mut self, cell: usize) -> Result<(), Refusal> {
        self.inside(cell)?;
        self.blank(cell, EMPTY);
        for near in self.sides.neighbours(cell) {
            if self.first.flags[near] == FLUID {
                self.first.flags[near] = INTERFACE;
            }
        }
        Ok(())
    }

    /// Fills a cell with water at rest of this mass, 294,912 to 1,179,648, [`ONE`] under no pressure; empty neighbours become
    /// interface without water.
    pub fn set_fluid(&mut self, cell: usize, mass: i32) -> Result<(), Refusal> {
        self.inside(cell)?;
        if !DENSITIES.contains(&mass) {
            return Err(Refusal::new(Refusal::STATE, cell));
        }
        self.fill(cell, FLUID, mass, mass);
        for near in self.sides.neighbours(cell) {
            if self.first.flags[near] == EMPTY {
                self.fill(near, INTERFACE, ONE, 0);
            }
        }
        Ok(())
    }

    /// Makes a cell interface, with water at rest of this mass, within ±2,359,296; [`ONE`] is a full cell.
    pub fn set_interface(&mut self, cell: usize, mass: i32) -> Result<(), Refusal> {
        self.inside(cell)?;
        if !(-MASS_LIMIT..=MASS_LIMIT).contains(&mass) {
            return Err(Refusal::new(Refusal::STATE, cell));
        }
        self.fill(cell, INTERFACE, ONE, mass);
        Ok(())
    }

    /// A cell of the flume.
    fn within(&self, cell: usize) -> Result<(), Refusal> {
        if cell < self.first.flags.len() {
            Ok(())
        } else {
            Err(Refusal::new(Refusal::OUTSIDE, 0))
        }
    }

    /// A cell inside the outer layer.
    fn inside(&self, cell: usize) -> Result<(), Refusal> {
        self.within(cell)?;
        if self.sides.is_outer(cell) {
            return Err(Refusal::new(Refusal::FLAG, cell));
        }
        Ok(())
    }

    /// A cell without water.
    fn blank(&mut self, cell: usize, flag: u8) {
        self.first.flags[cell] = flag;
        self.first.parts[PARTS * cell..PARTS * (cell + 1)].fill(0);
        self.first.masses[cell] = 0;
        self.first.fills[cell] = 0;
    }

    /// Water at rest of a density in its range.
    fn fill(&mut self, cell: usize, flag: u8, density: i32, mass: i32) {
        let parts = &mut self.first.parts[PARTS * cell..PARTS * (cell + 1)];
        for (k, part) in parts.iter_mut().enumerate() {
            // The weights in 36ths; part 0 takes what the cuts of the others leave.
            *part = if k < 5 { 4 * density / 36 } else { density / 36 };
        }
        parts[0] = density - parts[1..].iter().sum::<i32>();
        let share = (i64::from(FULL) * i64::from(mass)).div_euclid(i64::from(density));
        self.first.flags[cell] = flag;
        self.first.masses[cell] = mass;
        self.first.fills[cell] = share.clamp(0, i64::from(FULL)) as u32;
    }
}
