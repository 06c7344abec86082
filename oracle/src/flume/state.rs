// A state of the flume in unbounded whole numbers, the rules of a good one, and the check.

use crate::flume::grid::Grid;
use crate::flume::lattice::{dot, Flow, Parts};
use crate::flume::sets::fits;
use crate::grid::{refuse, Refusal};
use crate::lattice::floor;
use crate::sets::Set;
use crate::state::{
    density_allowed, Rule, CARRY_LIMIT, EMPTY, FLUID, FULL, INTERFACE, MASS_LIMIT, PART_LIMIT, WALL,
};

#[derive(Clone, Copy, Debug, PartialEq, Eq)]
pub struct Cell {
    pub flag: u8,
    pub parts: Parts,
    pub mass: i128,
    pub fill: i128,
}

#[derive(Clone, Debug, PartialEq, Eq)]
pub struct State {
    pub cells: Vec<Cell>,
    pub carry: i128,
}

/// Is |j| at most a third of ρ?
pub fn speed_allowed(flow: &Flow) -> bool {
    9 * dot(flow.j, flow.j) <= flow.rho * flow.rho
}

impl Cell {
    /// A wall or empty cell.
    pub fn blank(flag: u8) -> Cell {
        Cell { flag, parts: [0; 9], mass: 0, fill: 0 }
    }

    pub fn liquid(&self) -> bool {
        self.flag == INTERFACE || self.flag == FLUID
    }

    /// The cell with the fill that belongs to it; an interface cell's density is an allowed one.
    pub fn filled(self) -> Cell {
        let fill = match self.flag {
            FLUID => FULL,
            INTERFACE => floor(FULL * self.mass, Flow::of(&self.parts).rho).clamp(0, FULL),
            _ => 0,
        };
        Cell { fill, ..self }
    }

    /// All the rules this cell breaks. A wrong density hides the rules that are stated by it.
    pub fn broken_rules(&self) -> Vec<Rule> {
        let flow = Flow::of(&self.parts);
        let dense = density_allowed(flow.rho);
        let within = |limit: i128, number: i128| (-limit..=limit).contains(&number);
        let rules = match self.flag {
            FLUID | INTERFACE => vec![
                (Rule::Part, self.parts.iter().all(|&part| within(PART_LIMIT, part))),
                (Rule::FluidMass, self.flag != FLUID || self.mass == flow.rho),
                (Rule::InterfaceMass, self.flag != INTERFACE || within(MASS_LIMIT, self.mass)),
                (Rule::Density, dense),
                (Rule::Speed, !dense || speed_allowed(&flow)),
                (Rule::Fill, !dense || *self == self.filled()),
            ],
            _ => {
                vec![(Rule::Blank, self.mass == 0 && self.parts == [0; 9]), (Rule::Fill, self.fill == 0)]
            }
        };
        rules.into_iter().filter(|(_, kept)| !kept).map(|(rule, _)| rule).collect()
    }
}

impl State {
    /// The state that a set of the right lengths holds.
    pub fn of(set: Set) -> State {
        let cell = |c: usize| Cell {
            flag: set.flags[c],
            parts: std::array::from_fn(|k| i128::from(set.parts[9 * c + k])),
            mass: i128::from(set.masses[c]),
            fill: i128::from(set.fills[c]),
        };
        State { cells: (0..set.flags.len()).map(cell).collect(), carry: i128::from(set.carry[0]) }
    }

    pub fn work_out_fills(&mut self) {
        for cell in &mut self.cells {
            *cell = cell.filled();
        }
    }

    /// Where test 6 (of a given state) or test 8 (of the next one) finds a rule broken.
    pub fn broken_place(&self) -> Option<usize> {
        let cell = self.cells.iter().position(|cell| !cell.broken_rules().is_empty());
        let carry_broken = !(-CARRY_LIMIT..=CARRY_LIMIT).contains(&self.carry);
        cell.or(carry_broken.then_some(self.cells.len()))
    }

    pub fn flags(&self) -> Vec<u8> {
        self.cells.iter().map(|cell| cell.flag).collect()
    }

    /// The water of all cells, and the carry.
    pub fn total(&self) -> i128 {
        self.cells.iter().map(|cell| cell.mass).sum::<i128>() + self.carry
    }
}

/// Refuses with this number at the lowest cell of which something is true.
fn none_is(number: u32, n: usize, wrong: impl Fn(usize) -> bool) -> Result<(), Refusal> {
    match (0..n).find(|&c| wrong(c)) {
        Some(c) => refuse(number, c),
        None => Ok(()),
    }
}

/// Test 4, one pass over both of its faults.
pub fn test_flags(grid: &Grid, flags: &[u8]) -> Result<(), Refusal> {
    none_is(4, grid.n(), |c| flags[c] > WALL || grid.outer(c) && flags[c] != WALL)
}

/// Test 5.
pub fn test_closed(grid: &Grid, flags: &[u8]) -> Result<(), Refusal> {
    none_is(5, grid.n(), |c| flags[c] == FLUID && grid.neighbours(c).any(|b| flags[b] == EMPTY))
}

/// Test 6.
pub fn test_rules(state: &State) -> Result<(), Refusal> {
    match state.broken_place() {
        Some(place) => refuse(6, place),
        None => Ok(()),
    }
}

/// Tests 4 to 6 of a set whose lengths are right; what it holds, if it is good.
pub fn good_state(grid: &Grid, set: Set) -> Result<State, Refusal> {
    test_flags(grid, set.flags)?;
    test_closed(grid, set.flags)?;
    let state = State::of(set);
    test_rules(&state)?;
    Ok(state)
}

/// The check: tests 1, 2, 4, 5 and 6.
pub fn check(sides: [u32; 2], set: Set) -> Result<(), Refusal> {
    let grid = Grid::new(sides)?;
    if !fits(&set, grid.n()) {
        return refuse(2, 0);
    }
    good_state(&grid, set).map(|_| ())
}
