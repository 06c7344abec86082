// A grid that owns its buffers, and the library's calls over them.

use std::borrow::Cow;
use std::fmt::{Debug, Formatter, Result as Written};
use std::mem::swap;

use crate::lent;
use crate::state::Buffers;
use crate::{
    Axis, CellPoint, Counts, Depth, InMode, Index, IndexMut, Line, Point, Profile, Refusal, Settings, Sides,
    Site, State, StateMut, Station, Stopped, Surface, Water, WALL,
};

/// A grid of cells with its water.
///
/// It owns two sets of buffers, each with its index, and the work space of a step, so that nothing is allocated while it runs.
#[derive(Clone)]
pub struct Grid {
    pub(crate) sides: Sides,
    /// The state, and its index.
    pub(crate) first: Buffers,
    /// Where the next one goes.
    second: Buffers,
    marks: Vec<u8>,
    /// Whether flags may have changed by hand since the index was made.
    pub(crate) touched: bool,
}

/// What a grid record holds.
#[derive(Clone, Debug, PartialEq)]
pub struct Record {
    pub grid: Grid,
    pub settings: Settings,
    pub site: Site,
}

impl Grid {
    /// A box of empty cells with walls around it, or refusal 1.
    pub fn new(sides: Sides) -> Result<Grid, Refusal> {
        let cells = sides.cells()?;
        let mut first = Buffers::new(cells);
        for (cell, flag) in first.flags.iter_mut().enumerate() {
            if sides.is_outer(cell) {
                *flag = WALL;
            }
        }
        Ok(Grid::holding(sides, first))
    }

    /// A grid that holds a copy of this state, if it is good; else refusal 1, 2, 4, 5 or 6.
    pub fn of(sides: Sides, state: State) -> Result<Grid, Refusal> {
        lent::check(sides, state)?;
        let mut first = Buffers::new(state.flags.len());
        first.flags.copy_from_slice(state.flags);
        first.parts.copy_from_slice(state.parts);
        first.masses.copy_from_slice(state.masses);
        first.fills.copy_from_slice(state.fills);
        first.carry.copy_from_slice(state.carry);
        first.make_index();
        Ok(Grid::holding(sides, first))
    }

    /// The grid, settings and site of a grid record; refusals as [`lent::read`] gives them, but for 2.
    pub fn read(record: &[u8]) -> Result<Record, Refusal> {
        // The library looks at the lengths of its slices once the sides are in range, and at nothing before.
        let cells = sides_in(record).and_then(|sides| sides.cells().ok()).unwrap_or(0);
        let mut first = Buffers::new(cells);
        let Buffers { parts, masses, fills, carry, words, count, .. } = &mut first;
        let head = lent::read(record, parts, masses, fills, carry, IndexMut { words, count })?;
        first.flags.copy_from_slice(head.flags);
        let grid = Grid::holding(head.sides, first);
        Ok(Record { grid, settings: head.settings, site: head.site })
    }

    pub(crate) fn holding(sides: Sides, first: Buffers) -> Grid {
        let cells = first.flags.len();
        Grid { sides, first, second: Buffers::new(cells), marks: vec![0; cells], touched: false }
    }

    /// The grid's record, which [`read`](Grid::read) reads back as the same grid. Refusals 3 to 6.
    pub fn write(&self, settings: Settings, site: Site) -> Result<Vec<u8>, Refusal> {
        let counts = self.counts();
        let mut record = vec![0; 108 + self.first.flags.len() + 4 * counts.interface + 76 * counts.liquid()];
        let length = lent::write(self.sides, settings, site, self.state(), &mut record)?;
        record.truncate(length);
        Ok(record)
    }

    /// The sides of the grid.
    pub fn sides(&self) -> Sides {
        self.sides
    }

    /// The state to look at.
    pub fn state(&self) -> State<'_> {
        self.first.lend()
    }

    /// The state to change at will; [`check`](Grid::check) says whether it is still good, and so does the next step.
    pub fn state_mut(&mut self) -> StateMut<'_> {
        self.touched = true;
        self.first.lend_mut()
    }

    /// The index of the surface, made anew where flags were changed by hand.
    pub fn index(&mut self) -> Index<'_> {
        self.indexed();
        self.first.hold().index
    }

    /// The index again true, as step and run leave it.
    fn indexed(&mut self) {
        if self.touched {
            self.first.make_index();
            self.touched = false;
        }
    }

    /// The words of the index, made anew beside the grid where flags were changed by hand.
    fn words(&self) -> Cow<'_, [u64]> {
        if !self.touched {
            return Cow::Borrowed(&self.first.words);
        }
        let mut words = vec![0; self.first.words.len()];
        IndexMut { words: &mut words, count: &mut [0] }.make(&self.first.flags);
        Cow::Owned(words)
    }

    /// How many interface cells there are, by the words of the index.
    pub fn surface_count(&self) -> usize {
        // Sides and words are the grid's own: there is no refusal.
        lent::surface_count(self.sides, &self.words()).unwrap_or(0)
    }

    /// The interface cells from this one on, in rising order, by the words of the index; or refusal 13 for a start above the number of
    /// cells.
    pub fn surface(&self, start: usize) -> Result<Surface<'_>, Refusal> {
        Surface::new(self.sides, self.words(), start)
    }

    /// Whether the state is good; else refusal 4, 5 or 6.
    pub fn check(&self) -> Result<(), Refusal> {
        lent::check(self.sides, self.state())
    }

    /// Pours an amount into an interface cell; what was moved, which is the amount. Refusals 4, 5, 6, 13, 15, 16.
    pub fn pour(&mut self, cell: usize, amount: i64) -> Result<i64, Refusal> {
        lent::pour(self.sides, self.first.lend_mut(), cell, amount)
    }

    /// Takes from an interface cell the smaller of an amount and its mass, nothing if the mass is not above 0; what was moved.
    /// Refusals 4, 5, 6, 13, 15, 16.
    pub fn take(&mut self, cell: usize, amount: i64) -> Result<i64, Refusal> {
        lent::take(self.sides, self.first.lend_mut(), cell, amount)
    }

    /// All that was poured into the grid, in the unit of the masses, and all that was taken.
    pub fn poured(&self) -> i64 {
        self.first.carry[1]
    }

    pub fn taken(&self) -> i64 {
        self.first.carry[2]
    }

    /// Makes one step: plain with [`Settings`] alone, else in the mode of [`Settings::in_mode`]. Refused, with 3 to 8, it leaves the state
    /// as it was.
    pub fn step(&mut self, settings: impl Into<InMode<Settings>>) -> Result<(), Refusal> {
        self.indexed();
        lent::step(self.sides, settings, self.first.hold(), self.second.hold_mut(), &mut self.marks)?;
        swap(&mut self.first, &mut self.second);
        Ok(())
    }

    /// Makes so many steps, at most 1,000, faster than one by one, all in one mode as [`step`](Grid::step) takes it. Where a step is
    /// refused, the state is the one reached before it.
    pub fn run(&mut self, steps: usize, settings: impl Into<InMode<Settings>>) -> Result<(), Stopped> {
        self.indexed();
        let (first, second) = (self.first.hold_mut(), self.second.hold_mut());
        lent::run(self.sides, settings, steps, first, second, &mut self.marks)
    }

    /// The grid mirrored in an axis; mirrored once more it is this grid again. Refusals 4, 5 and 6. Step it with
    /// [`Settings::mirrored`], and it does what this grid does, mirrored, as long as no cell is filled or emptied.
    pub fn mirrored(&self, axis: Axis) -> Result<Grid, Refusal> {
        let mut second = Buffers::new(self.first.flags.len());
        lent::mirror(self.sides, self.state(), second.hold_mut(), axis)?;
        Ok(Grid::holding(self.sides, second))
    }

    /// The cell that holds a survey point, or refusal 3 or 13.
    pub fn place(&self, site: Site, point: Point) -> Result<usize, Refusal> {
        lent::place(self.sides, site, point)
    }

    /// A cell's centre and fill, or refusal 13; 6 for a fill above 65,536.
    pub fn point(&self, cell: usize) -> Result<CellPoint, Refusal> {
        lent::point(self.sides, &self.first.fills, cell)
    }

    /// The depth of the water in column (x, y), or refusal 13; 4 or 6 for a flag above 3 or a fill above 65,536 in that column.
    pub fn depth(&self, x: usize, y: usize) -> Result<Depth, Refusal> {
        lent::depth(self.sides, &self.first.flags, &self.first.fills, x, y)
    }

    /// The long profile along these points. Refusals 22, 3 of the site, 23, 3 of a point; 4 or 6 as [`depth`](Grid::depth) gives
    /// them, by list order.
    pub fn profile(&self, site: Site, stations: &[Station]) -> Result<Profile, Refusal> {
        let chainages: Vec<i64> = stations.iter().map(|station| station.chainage).collect();
        let points: Vec<i64> =
            stations.iter().flat_map(|Station { point, .. }| [point.x, point.y, point.z]).collect();
        let (mut kinds, mut depths) = (vec![0; stations.len()], vec![0.0; stations.len()]);
        let State { flags, fills, .. } = self.state();
        let deepest =
            lent::profile(self.sides, site, flags, fills, &chainages, &points, &mut kinds, &mut depths)?;
        // As include/skwarzyna.h numbers the kinds.
        let line = |(kind, depth): (u8, f32)| match kind {
            1 => Line::Inside(Depth::Solid),
            2 => Line::Inside(Depth::Dry),
            3 => Line::Inside(Depth::Deep(depth)),
            _ => Line::Outside,
        };
        Ok(Profile { lines: kinds.into_iter().zip(depths).map(line).collect(), deepest })
    }

    /// How many cells there are of each flag.
    pub fn counts(&self) -> Counts {
        self.state().counts()
    }

    /// The water balance.
    pub fn water(&self) -> Water {
        self.state().water()
    }

    /// All the water, in the unit of the masses: what no step changes.
    pub fn total(&self) -> i64 {
        self.water().total()
    }
}

/// The three sides that a record begins with, behind their count.
fn sides_in(record: &[u8]) -> Option<Sides> {
    let side = |at: usize| {
        let bytes = record.get(at..at + 4)?;
        usize::try_from(u32::from_le_bytes(bytes.try_into().ok()?)).ok()
    };
    Some(Sides::new(side(4)?, side(8)?, side(12)?))
}

/// Grids with the same sides and state.
impl PartialEq for Grid {
    fn eq(&self, other: &Grid) -> bool {
        self.sides == other.sides && self.state() == other.state()
    }
}

impl Eq for Grid {}

/// Sides, counts and water: a grid has too many numbers to print.
impl Debug for Grid {
    fn fmt(&self, text: &mut Formatter) -> Written {
        let mut grid = text.debug_struct("Grid");
        grid.field("sides", &self.sides).field("counts", &self.counts()).field("water", &self.water());
        grid.finish_non_exhaustive()
    }
}
