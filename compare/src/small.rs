// Four small records, whose every prefix and every changed byte is tried.

use oracle::grid::Grid;
use oracle::lattice::ONE;
use oracle::scenes::{case_t, parts_at, Scene};
use oracle::state::{Cell, State, EMPTY, FLUID, INTERFACE, WALL};
use oracle::Settings;

#[derive(Clone, Copy, PartialEq, Eq)]
pub enum Small {
    /// Case T of document 01.
    CaseT,
    /// The same with three numbers in section 4, after a pour and a take.
    Pumped,
    /// An interface cell that fills towards an empty one.
    Filling,
    /// Fluid, and beside it an interface cell that empties.
    Emptying,
}

pub const SMALL: [Small; 4] = [Small::CaseT, Small::Pumped, Small::Filling, Small::Emptying];

impl Small {
    pub fn name(self) -> &'static str {
        match self {
            Small::CaseT => "case T",
            Small::Pumped => "case T, pumped",
            Small::Filling => "the filling cell",
            Small::Emptying => "the emptying cell",
        }
    }

    pub fn scene(self) -> Scene {
        let still = |flag: u8, mass: i128| {
            let cell = Cell { flag, parts: parts_at(ONE, &[100, 0, -7]), mass, fill: 0 };
            Cell { fill: cell.worked_out_fill(), ..cell }
        };
        match self {
            Small::CaseT => case_t(),
            Small::Pumped => pumped(),
            Small::Filling => pair([still(INTERFACE, ONE + 2000), Cell::blank(EMPTY)]),
            Small::Emptying => pair([still(FLUID, ONE), still(INTERFACE, -3000)]),
        }
    }

    pub fn record(self) -> Vec<u8> {
        self.scene().record()
    }
}

/// Case T with 100,000 poured and 5,000 taken.
fn pumped() -> Scene {
    let mut scene = case_t();
    let cell = &mut scene.state.cells[13];
    cell.mass += 95_000;
    cell.fill = cell.worked_out_fill();
    (scene.state.poured, scene.state.taken, scene.numbers) = (100_000, 5_000, 3);
    scene
}

/// Two cells along x with walls around them.
fn pair(cells: [Cell; 2]) -> Scene {
    let sides = [4, 3, 3];
    let grid = Grid::new(sides).expect("sides in range");
    let mut state = State::new(vec![Cell::blank(WALL); grid.n], -5);
    for (x, cell) in cells.into_iter().enumerate() {
        state.cells[grid.cell([x + 1, 1, 1])] = cell;
    }
    let settings = Settings { p: 1600, gravity: [3, 0, -1000], edge: 25 };
    Scene { sides, settings, origin: [5_200_000_000, -4, 1_000_000], state, numbers: 1 }
}
