// One step of the flume: stages 1 to 7, each read off the amendment and each a function of the old state.

use crate::flume::grid::Grid;
use crate::flume::lattice::{dot, Flow, Parts, Vector, DIRECTIONS, MOVING, WEIGHTS};
use crate::flume::sets::{fits, put};
use crate::flume::settings::test_step;
use crate::flume::state::{good_state, speed_allowed, Cell, State};
use crate::grid::{refuse, Refusal};
use crate::lattice::{cut, floor, opposite};
use crate::sets::{Set, SetMut};
use crate::state::{density_allowed, EMPTY, FLUID, INTERFACE, WALL};
use crate::step::{exchange, fills_up, runs_dry, shares, Fate};
use crate::turbulence::{own, stress, tension, Own, Relaxation};

/// What stages 1 to 4 make of one liquid cell.
#[derive(Clone, Copy, Debug)]
pub struct Moved {
    /// ρ' and j' with gravity.
    pub flow: Flow,
    pub parts: Parts,
    pub mass: i128,
}

/// An excess of stage 6, and the neighbours that get a share of it, by direction, with their weights.
#[derive(Clone, Debug)]
pub struct Excess {
    pub cell: usize,
    pub amount: i128,
    pub targets: Vec<(usize, i128)>,
}

/// Stages 1 to 6 done and the fills worked out; test 8 still to come.
#[derive(Clone, Debug)]
pub struct Draft {
    pub state: State,
    pub fates: Vec<Fate>,
    pub excesses: Vec<Excess>,
}

/// Stage 6's normal at c, which stage 1 reads too: from the old fills, a wall counting with the fill of c itself.
pub fn normal(grid: &Grid, old: &State, c: usize) -> Vector {
    let counted = |i: usize| {
        let neighbour = &old.cells[grid.near(c, i)];
        if neighbour.flag == WALL {
            old.cells[c].fill
        } else {
            neighbour.fill
        }
    };
    [counted(2) - counted(1), counted(4) - counted(3)]
}

/// The numerator under stage 1's cut, over ρ².
pub fn rebuild_numerator(parts: &Parts, i: usize) -> i128 {
    let Flow { rho, j } = Flow::of(parts);
    let along = dot(DIRECTIONS[i], j);
    WEIGHTS[i] * 16_384 * (2 * rho * rho + 9 * along * along - 3 * dot(j, j))
}

/// Stage 1's rebuilt part: what arrives against direction i where the surface lies that way.
pub fn rebuilt(parts: &Parts, i: usize) -> i128 {
    let rho = Flow::of(parts).rho;
    cut(rebuild_numerator(parts, i), rho * rho) - parts[i]
}

/// Stage 1: the streamed parts of liquid cell c.
pub fn streamed(grid: &Grid, old: &State, c: usize) -> Parts {
    let own = &old.cells[c];
    let n = normal(grid, old, c);
    let mut parts = own.parts;
    for i in MOVING {
        let k = opposite(i);
        let neighbour = &old.cells[grid.near(c, i)];
        let outwards = own.flag == INTERFACE && dot(n, DIRECTIONS[i]) > 0;
        parts[k] = match neighbour.flag {
            WALL => own.parts[i],
            EMPTY => rebuilt(&own.parts, i),
            _ if outwards => rebuilt(&own.parts, i),
            _ => neighbour.parts[k],
        };
    }
    parts
}

/// Stage 2: interface cell c's mass after trading with its neighbours.
pub fn traded(grid: &Grid, old: &State, c: usize) -> i128 {
    let own = &old.cells[c];
    let gain = |i: usize| {
        let neighbour = &old.cells[grid.near(c, i)];
        let d = neighbour.parts[opposite(i)] - own.parts[i];
        match neighbour.flag {
            FLUID => d,
            INTERFACE => exchange(own.fill + neighbour.fill, d),
            _ => 0,
        }
    };
    own.mass + MOVING.map(gain).sum::<i128>()
}

/// Stage 3: the streamed parts' density, and their momentum with gravity added.
pub fn pushed(streamed: &Parts, gravity: [i32; 2]) -> Flow {
    let Flow { rho, j } = Flow::of(streamed);
    let with = |axis: usize| j[axis] + cut(rho * i128::from(gravity[axis]), 1_048_576);
    Flow { rho, j: [with(0), with(1)] }
}

/// Stage 3's test.
pub fn steady(flow: &Flow) -> bool {
    density_allowed(flow.rho) && speed_allowed(flow)
}

/// Stage 4's w·Q − 72ρ'·f.
pub fn pull(flow: &Flow, i: usize, f: i128) -> i128 {
    WEIGHTS[i] * flow.q(i) - 72 * flow.rho * f
}

/// Π of the streamed parts against stage 5's equilibrium at stage 3's density and momentum.
pub fn stressed(streamed: &Parts, flow: &Flow) -> [[i128; 2]; 2] {
    let still = flow.equilibrium();
    stress(MOVING.map(|i| (DIRECTIONS[i], streamed[i] - still[i])))
}

/// P10: the cell's own p, and the numbers on the way to it.
pub fn own_relaxation(streamed: &Parts, flow: &Flow, p: i32) -> Own {
    own(p, tension(&stressed(streamed, flow)))
}

/// Stage 4's p of a cell.
pub fn relaxed_by(streamed: &Parts, flow: &Flow, relaxation: Relaxation) -> i32 {
    match relaxation {
        Relaxation { p, turbulent: false } => p,
        Relaxation { p, turbulent: true } => own_relaxation(streamed, flow, p).p,
    }
}

/// Stage 4: the parts after collision.
pub fn collided(streamed: &Parts, flow: &Flow, p: i32) -> Parts {
    let mut parts = *streamed;
    for i in MOVING {
        parts[i] += cut(i128::from(p) * pull(flow, i, streamed[i]), 73_728 * flow.rho);
    }
    parts[0] = flow.rho - parts[MOVING].iter().sum::<i128>();
    parts
}

/// Stages 1 to 4 of every cell, none where there is no liquid; or refusal 7.
fn moved(
    grid: &Grid,
    old: &State,
    relaxation: Relaxation,
    gravity: [i32; 2],
) -> Result<Vec<Option<Moved>>, Refusal> {
    let cell = |c: usize| {
        if !old.cells[c].liquid() {
            return Ok(None);
        }
        let streamed = streamed(grid, old, c);
        let flow = pushed(&streamed, gravity);
        if !steady(&flow) {
            return refuse(7, c);
        }
        let mass = if old.cells[c].flag == FLUID { flow.rho } else { traded(grid, old, c) };
        let p = relaxed_by(&streamed, &flow, relaxation);
        Ok(Some(Moved { flow, parts: collided(&streamed, &flow, p), mass }))
    };
    (0..grid.n()).map(cell).collect()
}

/// Stage 5's tests: every filled cell is known before any cell is tested for emptied.
fn fates(grid: &Grid, old: &State, moved: &[Option<Moved>]) -> Vec<Fate> {
    let interface = |c: usize| moved[c].filter(|_| old.cells[c].flag == INTERFACE);
    let filled: Vec<bool> =
        (0..grid.n()).map(|c| interface(c).is_some_and(|new| fills_up(new.mass, new.flow.rho))).collect();
    let fate = |c: usize| match interface(c) {
        Some(_) if filled[c] => Fate::Filled,
        Some(new) if runs_dry(new.mass, new.flow.rho) && !grid.neighbours(c).any(|b| filled[b]) => {
            Fate::Emptied
        }
        _ => Fate::Stays,
    };
    (0..grid.n()).map(fate).collect()
}

/// Stage 5: the parts that an empty cell begins with, from its neighbours that were liquid in the old state.
fn newborn(grid: &Grid, moved: &[Option<Moved>], c: usize) -> Parts {
    let flows: Vec<Flow> = grid.neighbours(c).filter_map(|b| moved[b]).map(|new| new.flow).collect();
    let count = flows.len() as i128;
    let sum = |axis: usize| flows.iter().map(|flow| flow.j[axis]).sum::<i128>();
    let rho = floor(flows.iter().map(|flow| flow.rho).sum(), count);
    Flow { rho, j: [cut(sum(0), count), cut(sum(1), count)] }.equilibrium()
}

/// Stages 1 to 6 from a good state, and stage 7's fills. The only refusal is 7.
pub fn draft(
    grid: &Grid,
    old: &State,
    relaxation: impl Into<Relaxation>,
    gravity: [i32; 2],
) -> Result<Draft, Refusal> {
    let moved = moved(grid, old, relaxation.into(), gravity)?;

    // Stage 5.
    let fates = fates(grid, old, &moved);
    let beside = |c: usize, fate: Fate| grid.neighbours(c).any(|b| fates[b] == fate);
    let converted = |c: usize| match (old.cells[c], moved[c]) {
        (Cell { flag: EMPTY, .. }, _) if beside(c, Fate::Filled) => {
            Cell { parts: newborn(grid, &moved, c), ..Cell::blank(INTERFACE) }
        }
        (cell, Some(Moved { flow, parts, mass })) => match fates[c] {
            Fate::Emptied => Cell::blank(EMPTY),
            Fate::Filled => Cell { flag: FLUID, parts, mass: flow.rho, fill: 0 },
            Fate::Stays if cell.flag == FLUID && beside(c, Fate::Emptied) => {
                Cell { flag: INTERFACE, parts, mass: flow.rho, fill: 0 }
            }
            Fate::Stays => Cell { flag: cell.flag, parts, mass, fill: 0 },
        },
        (cell, None) => Cell::blank(cell.flag),
    };
    let mut next = State { cells: (0..grid.n()).map(converted).collect(), carry: old.carry };

    // Stage 6.
    let excess = |c: usize| {
        let Moved { flow, mass, .. } = moved[c]?;
        let (amount, sign) = match fates[c] {
            Fate::Stays => return None,
            Fate::Filled => (mass - flow.rho, 1),
            Fate::Emptied => (mass, -1),
        };
        let n = normal(grid, old, c);
        let targets = MOVING.filter(|&i| next.cells[grid.near(c, i)].flag == INTERFACE);
        let weighed = targets.map(|i| (i, (sign * dot(n, DIRECTIONS[i])).max(0)));
        Some(Excess { cell: c, amount, targets: weighed.collect() })
    };
    let excesses: Vec<Excess> = (0..grid.n()).filter_map(excess).collect();
    for Excess { cell, amount, targets } in &excesses {
        let weights: Vec<i128> = targets.iter().map(|(_, weight)| *weight).collect();
        for ((i, _), share) in targets.iter().zip(shares(*amount, &weights)) {
            next.cells[grid.near(*cell, *i)].mass += share;
        }
        if targets.is_empty() {
            next.carry += amount;
        }
    }

    next.work_out_fills();
    Ok(Draft { state: next, fates, excesses })
}

/// Stages 1 to 7 from a good state: the next state, or refusal 7 or 8.
pub fn next_state(
    grid: &Grid,
    old: &State,
    relaxation: impl Into<Relaxation>,
    gravity: [i32; 2],
) -> Result<State, Refusal> {
    let next = draft(grid, old, relaxation, gravity)?.state;
    match next.broken_place() {
        Some(place) => refuse(8, place),
        None => Ok(next),
    }
}

/// Tests 1 to 6 of step and run; the grid and the good state of the first set.
pub fn tested(
    sides: [u32; 2],
    p: i32,
    gravity: [i32; 2],
    first: Set,
    second: Set,
    marks: &[u8],
) -> Result<(Grid, State), Refusal> {
    let grid = Grid::new(sides)?;
    let n = grid.n();
    if !fits(&first, n) || !fits(&second, n) || marks.len() != n {
        return refuse(2, 0);
    }
    test_step(p, gravity)?;
    Ok((grid, good_state(&grid, first)?))
}

/// The step: the next state into the second set; after 7 or 8 a copy of the first.
pub fn step(
    sides: [u32; 2],
    relaxation: impl Into<Relaxation>,
    gravity: [i32; 2],
    first: Set,
    mut second: SetMut,
    marks: &mut [u8],
) -> Result<(), Refusal> {
    let relaxation = relaxation.into();
    let (grid, old) = tested(sides, relaxation.p, gravity, first, second.as_set(), marks)?;
    let next = next_state(&grid, &old, relaxation, gravity);
    put(&mut second, next.as_ref().unwrap_or(&old));
    marks.fill(0);
    next.map(|_| ())
}
