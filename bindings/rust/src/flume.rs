//! The flume: a long section in two dimensions, x along and z up, with a record and calls of its own beside the box's.
//!
//! ```
//! use skwarzyna::flume::{Point, Settings, Sides, Site};
//! use skwarzyna::{Flume, Mode, ONE};
//!
//! # fn main() -> Result<(), Box<dyn std::error::Error>> {
//! // A closed section, and in it a block of water.
//! let sides = Sides::new(40, 12);
//! let site = Site { edge: 50, origin: Point::new(0, 0) };
//! let mut flume = Flume::new(sides, Settings { p: 1700, gx: 0, gz: -40 }, site)?;
//! for cell in [sides.cell(1, 1)?, sides.cell(2, 1)?] {
//!     flume.set_fluid(cell, ONE)?;
//! }
//! // A hundred steps, and a hundred in the turbulent mode.
//! flume.run(100)?;
//! flume.mode = Mode::Turbulent;
//! flume.run(100)?;
//! assert_eq!(flume.total(), 2 * i64::from(ONE));
//!
//! // Its record, and the flume that this holds; no record tells a mode.
//! flume.mode = Mode::Plain;
//! assert_eq!(Flume::from_record(&flume.to_record()?)?, flume);
//! # Ok(())
//! # }
//! ```
//!
//! [`Flume`] owns its buffers; [`lent`] has the same calls over slices of one's own. A [`State`] is the box's five slices, with nine parts
//! a cell, part k of cell c at 9c + k, and a carry of one number.

mod laying;
pub mod lent;
#[doc(hidden)]
pub mod raw;
mod settings;
mod sides;

use std::fmt::{Debug, Formatter, Result as Written};
use std::mem::swap;

use crate::{Counts, InMode, Mode, Refusal, State, StateMut, Stopped, Water, EMPTY, WALL};

pub use settings::{Axis, Point, Settings, Site};
pub use sides::Sides;

/// Parts of a cell.
pub const PARTS: usize = 9;

/// A flume with its water, its settings, where it lies, and the mode of its steps.
///
/// It owns two sets of buffers and the work space of a step, so that nothing is allocated while it runs.
#[derive(Clone)]
pub struct Flume {
    pub settings: Settings,
    /// Plain until one says otherwise: a record does not tell it.
    pub mode: Mode,
    pub site: Site,
    sides: Sides,
    /// The state.
    first: Buffers,
    /// Where the next one goes.
    second: Buffers,
    marks: Vec<u8>,
}

/// Vectors of one's own from which a state is lent.
#[derive(Clone)]
struct Buffers {
    flags: Vec<u8>,
    parts: Vec<i32>,
    masses: Vec<i32>,
    fills: Vec<u32>,
    carry: [i64; 1],
}

impl Buffers {
    /// So many cells, all empty.
    fn new(cells: usize) -> Buffers {
        Buffers {
            flags: vec![EMPTY; cells],
            parts: vec![0; PARTS * cells],
            masses: vec![0; cells],
            fills: vec![0; cells],
            carry: [0],
        }
    }

    fn lend(&self) -> State<'_> {
        State {
            flags: &self.flags,
            parts: &self.parts,
            masses: &self.masses,
            fills: &self.fills,
            carry: &self.carry,
        }
    }

    fn lend_mut(&mut self) -> StateMut<'_> {
        StateMut {
            flags: &mut self.flags,
            parts: &mut self.parts,
            masses: &mut self.masses,
            fills: &mut self.fills,
            carry: &mut self.carry,
        }
    }
}

impl Flume {
    /// A section of empty cells with walls around it, or refusal 1.
    pub fn new(sides: Sides, settings: Settings, site: Site) -> Result<Flume, Refusal> {
        let mut first = Buffers::new(sides.cells()?);
        for (cell, flag) in first.flags.iter_mut().enumerate() {
            if sides.is_outer(cell) {
                *flag = WALL;
            }
        }
        Ok(Flume::holding(sides, settings, site, first))
    }

    /// A flume that holds a copy of this state, if it is good; else refusal 1, 2, 4, 5 or 6.
    pub fn of(sides: Sides, settings: Settings, site: Site, state: State) -> Result<Flume, Refusal> {
        lent::check(sides, state)?;
        let mut first = Buffers::new(state.flags.len());
        first.flags.copy_from_slice(state.flags);
        first.parts.copy_from_slice(state.parts);
        first.masses.copy_from_slice(state.masses);
        first.fills.copy_from_slice(state.fills);
        first.carry.copy_from_slice(state.carry);
        Ok(Flume::holding(sides, settings, site, first))
    }

    /// The flume that a record holds; refusals as [`lent::read`] gives them, but for 2.
    pub fn from_record(record: &[u8]) -> Result<Flume, Refusal> {
        // The library looks at the lengths of its slices once the sides are in range, and at nothing before.
        let cells = Sides::in_record(record).and_then(|sides| sides.cells().ok()).unwrap_or(0);
        let mut first = Buffers::new(cells);
        let Buffers { parts, masses, fills, carry, .. } = &mut first;
        let head = lent::read(record, parts, masses, fills, carry)?;
        first.flags.copy_from_slice(head.flags);
        Ok(Flume::holding(head.sides, head.settings, head.site, first))
    }

    fn holding(sides: Sides, settings: Settings, site: Site, first: Buffers) -> Flume {
        let cells = first.flags.len();
        let (mode, second) = (Mode::Plain, Buffers::new(cells));
        Flume { settings, mode, site, sides, first, second, marks: vec![0; cells] }
    }

    /// The flume's record, which [`from_record`](Flume::from_record) reads back as the same flume in the plain mode. Refusals 3 to 6.
    pub fn to_record(&self) -> Result<Vec<u8>, Refusal> {
        let counts = self.counts();
        let mut record = vec![0; 76 + self.first.flags.len() + 4 * counts.interface + 36 * counts.liquid()];
        let length = lent::write(self.sides, self.settings, self.site, self.state(), &mut record)?;
        record.truncate(length);
        Ok(record)
    }

    /// The sides of the section.
    pub fn sides(&self) -> Sides {
        self.sides
    }

    /// The edge of a cell, in millimetres.
    pub fn edge(&self) -> i64 {
        self.site.edge
    }

    /// The survey point of the section's lower left corner.
    pub fn origin(&self) -> Point {
        self.site.origin
    }

    /// One flag per cell: empty, interface, fluid or wall.
    pub fn flags(&self) -> &[u8] {
        &self.first.flags
    }

    /// One fill per cell: how full it is, 0 to [`FULL`](crate::FULL).
    pub fn fills(&self) -> &[u32] {
        &self.first.fills
    }

    /// The state to look at.
    pub fn state(&self) -> State<'_> {
        self.first.lend()
    }

    /// The state to change at will; [`check`](Flume::check) says whether it is still good, and so does the next step.
    pub fn state_mut(&mut self) -> StateMut<'_> {
        self.first.lend_mut()
    }

    /// Whether the state is good; else refusal 4, 5 or 6.
    pub fn check(&self) -> Result<(), Refusal> {
        lent::check(self.sides, self.state())
    }

    /// The flume's settings in its mode.
    fn in_mode(&self) -> InMode<Settings> {
        self.settings.in_mode(self.mode)
    }

    /// Makes one step with the flume's settings and mode. Refused, with 3 to 8, it leaves the state as it was.
    pub fn step(&mut self) -> Result<(), Refusal> {
        lent::step(self.sides, self.in_mode(), self.first.lend(), self.second.lend_mut(), &mut self.marks)?;
        swap(&mut self.first, &mut self.second);
        Ok(())
    }

    /// Makes so many steps with the flume's settings and mode, at most 1,000, faster than one by one. Where a step is refused, the state is
    /// the one reached before it.
    pub fn run(&mut self, steps: usize) -> Result<(), Stopped> {
        let settings = self.in_mode();
        let (first, second) = (self.first.lend_mut(), self.second.lend_mut());
        lent::run(self.sides, settings, steps, first, second, &mut self.marks)
    }

    /// The flume mirrored in an axis, gravity with it, in the same mode; mirrored once more it is this flume again. Refusals 4, 5 and 6. As long
    /// as no cell is filled or emptied, it does what this flume does, mirrored.
    pub fn mirrored(&self, axis: Axis) -> Result<Flume, Refusal> {
        let mut first = Buffers::new(self.first.flags.len());
        lent::mirror(self.sides, self.state(), first.lend_mut(), axis)?;
        let mirrored = Flume::holding(self.sides, self.settings.mirrored(axis), self.site, first);
        Ok(Flume { mode: self.mode, ..mirrored })
    }

    /// How many cells there are of each flag.
    pub fn counts(&self) -> Counts {
        self.state().counts()
    }

    /// The water balance; nothing is poured into a flume or taken from it.
    pub fn water(&self) -> Water {
        self.state().water()
    }

    /// All the water, in the unit of the masses: what no step changes.
    pub fn total(&self) -> i64 {
        self.water().total()
    }
}

/// Flumes with the same sides, settings, mode, site and state.
impl PartialEq for Flume {
    fn eq(&self, other: &Flume) -> bool {
        (self.sides, self.in_mode(), self.site) == (other.sides, other.in_mode(), other.site)
            && self.state() == other.state()
    }
}

impl Eq for Flume {}

/// Sides, settings, counts and water: a flume has too many numbers to print.
impl Debug for Flume {
    fn fmt(&self, text: &mut Formatter) -> Written {
        let mut flume = text.debug_struct("Flume");
        flume.field("sides", &self.sides).field("settings", &self.settings).field("mode", &self.mode);
        flume.field("site", &self.site);
        flume.field("counts", &self.counts()).field("water", &self.water()).finish_non_exhaustive()
    }
}
