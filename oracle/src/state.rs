// A state in unbounded whole numbers, the rules of a good one, and the check.

use crate::grid::{refuse, Grid, Refusal};
use crate::lattice::{density, dot, floor, momentum, Parts, Vector};
use crate::sets::Set;

pub const EMPTY: u8 = 0;
pub const INTERFACE: u8 = 1;
pub const FLUID: u8 = 2;
pub const WALL: u8 = 3;

pub const FULL: i128 = 65_536;
pub const PART_LIMIT: i128 = 1_179_648;
pub const LOWEST_DENSITY: i128 = 294_912;
pub const HIGHEST_DENSITY: i128 = 1_179_648;
pub const MASS_LIMIT: i128 = 2_359_296;
pub const CARRY_LIMIT: i128 = 1_000_000_000_000;
pub const TOTAL_LIMIT: i128 = 1_000_000_000_000_000;

#[derive(Clone, Copy, Debug, PartialEq, Eq)]
pub struct Cell {
    pub flag: u8,
    pub parts: Parts,
    pub mass: i128,
    pub fill: i128,
}

#[derive(Clone, Debug, PartialEq, Eq)]
pub struct State {
    pub cells: Vec<Cell>,
    pub carry: i128,
    pub poured: i128,
    pub taken: i128,
}

/// The rules of a good state that one cell can break and test 6 or 8 finds.
#[derive(Clone, Copy, Debug, PartialEq, Eq)]
pub enum Rule {
    /// A wall or empty cell has mass and parts 0.
    Blank,
    Part,
    Density,
    Speed,
    FluidMass,
    InterfaceMass,
    Fill,
}

pub fn density_allowed(rho: i128) -> bool {
    (LOWEST_DENSITY..=HIGHEST_DENSITY).contains(&rho)
}

pub fn speed_allowed(rho: i128, j: &Vector) -> bool {
    9 * dot(j, j) <= rho * rho
}

impl Cell {
    /// A wall or empty cell.
    pub fn blank(flag: u8) -> Cell {
        Cell { flag, parts: [0; 19], mass: 0, fill: 0 }
    }

    pub fn liquid(&self) -> bool {
        self.flag == INTERFACE || self.flag == FLUID
    }

    /// The fill that belongs to the cell; an interface cell's density must not be 0.
    pub fn worked_out_fill(&self) -> i128 {
        match self.flag {
            FLUID => FULL,
            INTERFACE => {
                let rho = density(&self.parts);
                floor(FULL * self.mass, rho).clamp(0, FULL)
            }
            _ => 0,
        }
    }

    /// All the rules this cell breaks. A wrong density hides rules that are stated by it.
    pub fn broken_rules(&self) -> Vec<Rule> {
        let mut broken = Vec::new();
        let mut ask = |holds: bool, rule: Rule| {
            if !holds {
                broken.push(rule);
            }
        };
        if self.liquid() {
            let rho = density(&self.parts);
            let within = |part: &i128| (-PART_LIMIT..=PART_LIMIT).contains(part);
            ask(self.parts.iter().all(within), Rule::Part);
            if self.flag == FLUID {
                ask(self.mass == rho, Rule::FluidMass);
            } else {
                ask((-MASS_LIMIT..=MASS_LIMIT).contains(&self.mass), Rule::InterfaceMass);
            }
            ask(density_allowed(rho), Rule::Density);
            if density_allowed(rho) {
                ask(speed_allowed(rho, &momentum(&self.parts)), Rule::Speed);
                ask(self.fill == self.worked_out_fill(), Rule::Fill);
            }
        } else {
            ask(self.mass == 0 && self.parts == [0; 19], Rule::Blank);
            ask(self.fill == 0, Rule::Fill);
        }
        broken
    }
}

impl State {
    /// A state into which nothing was poured and from which nothing was taken.
    pub fn new(cells: Vec<Cell>, carry: i128) -> State {
        State { cells, carry, poured: 0, taken: 0 }
    }

    /// The state that a set of the right lengths holds.
    pub fn of(set: Set) -> State {
        let cell = |c: usize| Cell {
            flag: set.flags[c],
            parts: std::array::from_fn(|k| i128::from(set.parts[19 * c + k])),
            mass: i128::from(set.masses[c]),
            fill: i128::from(set.fills[c]),
        };
        let [carry, poured, taken] = [0, 1, 2].map(|k| i128::from(set.carry[k]));
        State { cells: (0..set.flags.len()).map(cell).collect(), carry, poured, taken }
    }

    pub fn work_out_fills(&mut self) {
        for cell in &mut self.cells {
            cell.fill = cell.worked_out_fill();
        }
    }

    /// Where test 6 (of a given state) or test 8 (of the next one) finds a rule broken.
    pub fn broken_place(&self) -> Option<usize> {
        let cell = self.cells.iter().position(|cell| !cell.broken_rules().is_empty());
        let carry = (-CARRY_LIMIT..=CARRY_LIMIT).contains(&self.carry);
        let totals = [self.poured, self.taken].iter().all(|total| (0..=TOTAL_LIMIT).contains(total));
        cell.or((!(carry && totals)).then_some(self.cells.len()))
    }

    /// The water of all cells, and the carry.
    pub fn total(&self) -> i128 {
        self.cells.iter().filter(|cell| cell.liquid()).map(|cell| cell.mass).sum::<i128>() + self.carry
    }

    /// The total plus what was taken less what was poured.
    pub fn balance(&self) -> i128 {
        self.total() + self.taken - self.poured
    }
}

/// Test 4, one pass over both of its faults.
pub fn test_flags(grid: &Grid, flags: &[u8]) -> Result<(), Refusal> {
    let wrong = |&c: &usize| flags[c] > WALL || grid.outer(c) && flags[c] != WALL;
    match (0..grid.n).find(wrong) {
        Some(c) => refuse(4, c),
        None => Ok(()),
    }
}

/// Test 5, after test 4 so that every fluid cell lies inside the outer layer.
pub fn test_closed(grid: &Grid, cells: &[Cell]) -> Result<(), Refusal> {
    let open = |&c: &usize| {
        cells[c].flag == FLUID && grid.neighbours(c).any(|neighbour| cells[neighbour].flag == EMPTY)
    };
    match (0..grid.n).find(open) {
        Some(c) => refuse(5, c),
        None => Ok(()),
    }
}

/// Test 6.
pub fn test_rules(state: &State) -> Result<(), Refusal> {
    match state.broken_place() {
        Some(place) => refuse(6, place),
        None => Ok(()),
    }
}

/// Tests 4 to 6 of a set whose lengths are right; what it holds, if it is good.
pub fn good_state(grid: &Grid, set: Set) -> Result<State, Refusal> {
    test_flags(grid, set.flags)?;
    let state = State::of(set);
    test_closed(grid, &state.cells)?;
    test_rules(&state)?;
    Ok(state)
}

/// The check: tests 1, 2, 4, 5 and 6.
pub fn check(sides: [u32; 3], set: Set) -> Result<(), Refusal> {
    let grid = Grid::new(sides)?;
    if !set.fits(grid.n) {
        return refuse(2, 0);
    }
    good_state(&grid, set).map(|_| ())
}
