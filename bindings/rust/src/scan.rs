// A scanned tunnel that two designers share: one wall map, and a scheme of water for each.

use std::fmt::{Debug, Formatter, Result as Written};

use crate::state::Buffers;
use crate::{lent, Grid, InMode, Refusal, Settings, Sides, State, Stopped, EMPTY, WALL};

/// Which of the two.
#[derive(Clone, Copy, Debug, PartialEq, Eq, Hash)]
pub enum Designer {
    First,
    Second,
}

/// A wall map, and over it a scheme for each of two designers.
///
/// Its owner sees both; a designer is given a [`Scheme`], which shows and changes that designer's water alone, and asks for walls.
///
/// ```
/// use skwarzyna::{Designer, Refusal, Scan, Sides, ONE};
///
/// # fn main() -> Result<(), Refusal> {
/// let mut scan = Scan::new(Sides::new(5, 3, 3))?;
/// scan.scheme(Designer::Second).set_interface(23, ONE / 2)?;
///
/// // The first designer has a wall in one cell, and is not told more of the other than that water is in the way.
/// let mut mine = scan.scheme(Designer::First);
/// mine.ask_wall(22)?;
/// assert_eq!(mine.ask_wall(23), Err(Refusal { number: Refusal::IN_THE_WAY, place: 23 }));
/// assert_eq!(mine.grid().total(), 0);
/// # Ok(())
/// # }
/// ```
///
/// A scheme has no way to the other's water:
///
/// ```compile_fail
/// # let mut scan = skwarzyna::Scan::new(skwarzyna::Sides::new(5, 3, 3)).unwrap();
/// let mine = scan.scheme(skwarzyna::Designer::First);
/// mine.other.total();
/// ```
#[derive(Clone, Debug, PartialEq, Eq)]
pub struct Scan {
    map: Vec<u8>,
    /// Each scheme's grid, whose walls are the map's.
    first: Grid,
    second: Grid,
}

/// One designer's scheme while it is worked on: its water, and the walls that both share.
pub struct Scheme<'a> {
    map: &'a mut [u8],
    own: &'a mut Grid,
    /// Lent to a wall change, and to nothing else.
    other: &'a mut Grid,
}

impl Scan {
    /// A box of empty cells with walls around it for both, or refusal 1.
    pub fn new(sides: Sides) -> Result<Scan, Refusal> {
        Scan::around(&Grid::new(sides)?)
    }

    /// The walls of a grid, as a survey gave them, and no water in either scheme. Refusal 4 where the grid's flags are wrong.
    pub fn around(grid: &Grid) -> Result<Scan, Refusal> {
        let map: Vec<u8> = grid.state().flags.iter().map(|&flag| u8::from(flag == WALL)).collect();
        Scan::of(grid.sides(), &map)
    }

    /// A wall map, one byte per cell, 1 for wall and 0 for not, and no water in either scheme. Refusals 1, 2 and 4.
    pub fn of(sides: Sides, map: &[u8]) -> Result<Scan, Refusal> {
        let mut dry = Grid::new(sides)?;
        let none = Buffers::new(dry.state().flags.len());
        lent::scheme_join(sides, map, none.lend(), &mut dry.first.flags)?;
        Ok(Scan { map: map.to_vec(), first: dry.clone(), second: dry })
    }

    /// The sides of the grid.
    pub fn sides(&self) -> Sides {
        self.first.sides()
    }

    /// The wall map, which both share: one byte per cell, 1 for wall.
    pub fn map(&self) -> &[u8] {
        &self.map
    }

    /// A designer's scheme, to be worked on.
    pub fn scheme(&mut self, designer: Designer) -> Scheme<'_> {
        let Scan { map, first, second } = self;
        match designer {
            Designer::First => Scheme { map, own: first, other: second },
            Designer::Second => Scheme { map, own: second, other: first },
        }
    }

    /// The grid of a designer's scheme, for the owner of both.
    pub fn grid(&self, designer: Designer) -> &Grid {
        match designer {
            Designer::First => &self.first,
            Designer::Second => &self.second,
        }
    }
}

/// A designer's acts. What is laid, poured, taken, stepped and read is this scheme's alone; a wall is both's.
impl Scheme<'_> {
    /// The scheme's grid, its own water between the walls of both: its readings, drawings, pools and records.
    pub fn grid(&self) -> &Grid {
        self.own
    }

    /// The wall map, which both share.
    pub fn map(&self) -> &[u8] {
        self.map
    }

    /// Asks for a wall in an inner cell: accepted exactly if the cell is empty in both schemes, and then wall in both. Refusal 13 for no
    /// such cell, 17 for an outer one or one that is wall, 18 for water in the way, one's own or the other's.
    pub fn ask_wall(&mut self, cell: usize) -> Result<(), Refusal> {
        self.changed(lent::wall_add, cell)
    }

    /// Asks for an inner wall to be taken out: accepted exactly if no neighbour is fluid in either scheme, and then empty in both. Refusal
    /// 13 for no such cell, 17 for an outer one or one that is no wall, 18 for water in the way, one's own or the other's.
    pub fn remove_wall(&mut self, cell: usize) -> Result<(), Refusal> {
        self.changed(lent::wall_remove, cell)
    }

    /// Makes one step, as [`Grid::step`] does.
    pub fn step(&mut self, settings: impl Into<InMode<Settings>>) -> Result<(), Refusal> {
        self.own.step(settings)
    }

    /// Makes so many steps, as [`Grid::run`] does.
    pub fn run(&mut self, steps: usize, settings: impl Into<InMode<Settings>>) -> Result<(), Stopped> {
        self.own.run(steps, settings)
    }

    /// Pours an amount into an interface cell, as [`Grid::pour`] does.
    pub fn pour(&mut self, cell: usize, amount: i64) -> Result<i64, Refusal> {
        self.own.pour(cell, amount)
    }

    /// Takes up to an amount from an interface cell, as [`Grid::take`] does.
    pub fn take(&mut self, cell: usize, amount: i64) -> Result<i64, Refusal> {
        self.own.take(cell, amount)
    }

    /// Lays water as [`Grid::set_fluid`] does; refusal 6 at a wall.
    pub fn set_fluid(&mut self, cell: usize, mass: i32) -> Result<(), Refusal> {
        self.open(cell)?;
        self.own.set_fluid(cell, mass)
    }

    /// Lays water as [`Grid::set_interface`] does; refusal 6 at a wall.
    pub fn set_interface(&mut self, cell: usize, mass: i32) -> Result<(), Refusal> {
        self.open(cell)?;
        self.own.set_interface(cell, mass)
    }

    /// Takes the water of a cell away as [`Grid::set_empty`] does; refusal 6 at a wall.
    pub fn set_empty(&mut self, cell: usize) -> Result<(), Refusal> {
        self.open(cell)?;
        self.own.set_empty(cell)
    }

    /// Puts other water in the place of the scheme's: a state whose flags are its own, empty at walls. Refusals 2, 4, 5 and 6 change
    /// nothing.
    pub fn put(&mut self, scheme: State) -> Result<(), Refusal> {
        let sides = self.own.sides();
        let mut flags = vec![EMPTY; self.map.len()];
        lent::scheme_join(sides, self.map, scheme, &mut flags)?;
        *self.own = Grid::of(sides, State { flags: &flags, ..scheme })?;
        Ok(())
    }

    /// The scheme's own flags, without walls: what [`put`](Scheme::put) takes.
    pub fn own_flags(&self) -> Vec<u8> {
        own_flags(self.own)
    }

    /// An inner cell that is no wall is laid as the grid lays it; water does not lie in a wall.
    fn open(&self, cell: usize) -> Result<(), Refusal> {
        match self.map.get(cell) {
            Some(&byte) if byte != 0 => Err(Refusal::new(Refusal::STATE, cell)),
            _ => Ok(()),
        }
    }

    /// A wall change of the map, and of both schemes' grids once it is accepted.
    fn changed(&mut self, change: Change, cell: usize) -> Result<(), Refusal> {
        let sides = self.own.sides();
        let (own, other) = (own_flags(self.own), own_flags(self.other));
        let asker = State { flags: &own, ..self.own.state() };
        change(sides, self.map, asker, State { flags: &other, ..self.other.state() }, cell)?;
        for (grid, own) in [(&mut *self.own, &own), (&mut *self.other, &other)] {
            let Buffers { flags, parts, masses, fills, carry, .. } = &mut grid.first;
            // Both are good on the new map too, as is proved; no interface cell is made or unmade, so that the index stays true.
            lent::scheme_join(sides, self.map, State { flags: own, parts, masses, fills, carry }, flags)?;
        }
        Ok(())
    }
}

type Change = fn(Sides, &mut [u8], State, State, usize) -> Result<(), Refusal>;

/// A grid's flags without its walls.
fn own_flags(grid: &Grid) -> Vec<u8> {
    let mut own = vec![EMPTY; grid.state().flags.len()];
    // The flags of a scheme's grid are right: there is no refusal.
    let _ = lent::scheme_part(grid.sides(), grid.state().flags, &mut own);
    own
}

/// The scheme's own grid: not even here is the other's told.
impl Debug for Scheme<'_> {
    fn fmt(&self, text: &mut Formatter) -> Written {
        text.debug_struct("Scheme").field("grid", &self.own).finish_non_exhaustive()
    }
}
