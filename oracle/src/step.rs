// One step: stages 1 to 7, each read off document 01 and each a function of the old state.

use crate::grid::{refuse, Grid, Refusal};
use crate::lattice::{
    cut, density, dot, equilibrium, floor, momentum, opposite, q, weight, Parts, Vector, DIRECTIONS,
};
use crate::sets::{Set, SetMut};
use crate::settings::test_flow;
use crate::state::{density_allowed, good_state, speed_allowed, Cell, State, EMPTY, FLUID, INTERFACE, WALL};
use crate::turbulence::{own, stress, tension, Own, Relaxation};

/// Stage 3's density and momentum of a cell: ρ' and j' with gravity.
#[derive(Clone, Copy, Debug, PartialEq, Eq)]
pub struct Flow {
    pub rho: i128,
    pub j: Vector,
}

/// What stage 5 decides for a cell before any flag changes.
#[derive(Clone, Copy, Debug, PartialEq, Eq)]
pub enum Fate {
    Stays,
    Filled,
    Emptied,
}

/// Stages 1 to 6 done and the fills worked out; test 8 still to come.
#[derive(Clone, Debug)]
pub struct Draft {
    pub state: State,
    pub fates: Vec<Fate>,
}

/// Stage 1, what is rebuilt: both equilibrium parts of the axis of direction i at gas density ONE.
pub fn rebuilt(parts: &Parts, i: usize) -> i128 {
    let (rho, j) = (density(parts), momentum(parts));
    let along = dot(&DIRECTIONS[i], &j);
    let numerator = 2 * rho * rho + 9 * along * along - 3 * dot(&j, &j);
    cut(weight(i) * 16_384 * numerator, rho * rho)
}

/// Stage 1: the streamed parts of liquid cell c.
pub fn streamed(grid: &Grid, old: &State, c: usize) -> Parts {
    let own = &old.cells[c].parts;
    let n = normal(grid, old, c);
    let mut parts = [0; 19];
    parts[0] = own[0];
    for i in 1..19 {
        let k = opposite(i);
        let neighbour = &old.cells[grid.near(c, i)];
        let leans = old.cells[c].flag == INTERFACE && dot(&n, &DIRECTIONS[i]) > 0;
        parts[k] = match neighbour.flag {
            WALL => own[i],
            EMPTY => rebuilt(own, i) - own[i],
            _ if leans => rebuilt(own, i) - own[i],
            _ => neighbour.parts[k],
        };
    }
    parts
}

/// Stage 2 between two interface cells: d by the mean of their fills.
pub fn exchange(fills: i128, d: i128) -> i128 {
    cut(fills * d, 131_072)
}

/// Stage 2: interface cell c's mass after trading with its neighbours.
pub fn traded(grid: &Grid, old: &State, c: usize) -> i128 {
    let own = &old.cells[c];
    let gain = |i: usize| {
        let neighbour = &old.cells[grid.near(c, i)];
        let d = neighbour.parts[opposite(i)] - own.parts[i];
        match neighbour.flag {
            FLUID => d,
            INTERFACE => exchange(own.fill + neighbour.fill, d),
            _ => 0,
        }
    };
    own.mass + (1..19).map(gain).sum::<i128>()
}

/// Stage 3: the streamed parts' density, and their momentum with gravity added.
pub fn pushed(streamed: &Parts, gravity: [i32; 3]) -> Flow {
    let rho = density(streamed);
    let mut j = momentum(streamed);
    for axis in 0..3 {
        j[axis] += cut(rho * i128::from(gravity[axis]), 1_048_576);
    }
    Flow { rho, j }
}

/// Π of the streamed parts against stage 5's equilibrium at stage 3's density and momentum.
pub fn stressed(streamed: &Parts, flow: &Flow) -> [[i128; 3]; 3] {
    let still = equilibrium(flow.rho, &flow.j);
    stress((1..19).map(|i| (DIRECTIONS[i], streamed[i] - still[i])))
}

/// P10: the cell's own p, and the numbers on the way to it.
pub fn own_relaxation(streamed: &Parts, flow: &Flow, p: i32) -> Own {
    own(p, tension(&stressed(streamed, flow)))
}

/// Stage 4's p of a cell.
pub fn relaxed_by(streamed: &Parts, flow: &Flow, relaxation: Relaxation) -> i32 {
    match relaxation {
        Relaxation { p, turbulent: false } => p,
        Relaxation { p, turbulent: true } => own_relaxation(streamed, flow, p).p,
    }
}

/// Stage 4: the parts after collision.
pub fn collided(streamed: &Parts, flow: &Flow, p: i32) -> Parts {
    let rho = flow.rho;
    let mut parts = *streamed;
    for (i, part) in parts.iter_mut().enumerate().skip(1) {
        let pull = weight(i) * q(rho, &flow.j, i) - 72 * rho * *part;
        *part += cut(i128::from(p) * pull, 73_728 * rho);
    }
    parts[0] = rho - parts[1..].iter().sum::<i128>();
    parts
}

/// Stage 5's first test.
pub fn fills_up(mass: i128, rho: i128) -> bool {
    1000 * mass > 1001 * rho
}

/// Stage 5's second test, but for its neighbours.
pub fn runs_dry(mass: i128, rho: i128) -> bool {
    1000 * mass < -rho
}

/// Stage 5: the parts of empty cell c that becomes interface, from neighbours liquid in the old state.
fn newborn(grid: &Grid, old: &State, flows: &[Option<Flow>], c: usize) -> Parts {
    let liquid: Vec<Flow> = grid
        .neighbours(c)
        .filter(|&neighbour| old.cells[neighbour].liquid())
        .filter_map(|neighbour| flows[neighbour])
        .collect();
    let count = liquid.len() as i128;
    let rho = floor(liquid.iter().map(|flow| flow.rho).sum(), count);
    let j = std::array::from_fn(|axis| cut(liquid.iter().map(|flow| flow.j[axis]).sum(), count));
    equilibrium(rho, &j)
}

/// Stages 1 and 6: the normal at c, from the old fills; a wall counts with the fill of c itself.
pub fn normal(grid: &Grid, old: &State, c: usize) -> Vector {
    let counted = |neighbour: usize| match old.cells[neighbour].flag {
        WALL => old.cells[c].fill,
        _ => old.cells[neighbour].fill,
    };
    std::array::from_fn(|axis| {
        let plus = 2 * axis + 1;
        counted(grid.near(c, plus + 1)) - counted(grid.near(c, plus))
    })
}

/// Stage 6: how an excess divides among targets of these weights, in the order of their directions.
pub fn shares(excess: i128, weights: &[i128]) -> Vec<i128> {
    let even = vec![1; weights.len()];
    let weights = if weights.iter().all(|&weight| weight == 0) { &even } else { weights };
    let total: i128 = weights.iter().sum();
    let mut shares: Vec<i128> = weights.iter().map(|weight| cut(excess * weight, total)).collect();
    let remainder = excess - shares.iter().sum::<i128>();
    if let Some(first) = weights.iter().position(|&weight| weight > 0) {
        shares[first] += remainder;
    }
    shares
}

/// Stages 1 to 6 from a good state, and stage 7's fills. The only refusal is 7.
pub fn draft(
    grid: &Grid,
    old: &State,
    relaxation: impl Into<Relaxation>,
    gravity: [i32; 3],
) -> Result<Draft, Refusal> {
    let relaxation = relaxation.into();
    let cells = 0..grid.n;
    let was = |c: usize| old.cells[c].flag;

    // Stages 1 and 3: all cells pass the test before anything else is looked at.
    let parts: Vec<Option<Parts>> =
        cells.clone().map(|c| old.cells[c].liquid().then(|| streamed(grid, old, c))).collect();
    let flows: Vec<Option<Flow>> =
        parts.iter().map(|parts| parts.as_ref().map(|parts| pushed(parts, gravity))).collect();
    let refused = |flow: &Option<Flow>| {
        flow.is_some_and(|flow| !density_allowed(flow.rho) || !speed_allowed(flow.rho, &flow.j))
    };
    if let Some(c) = flows.iter().position(refused) {
        return refuse(7, c);
    }

    // Stages 2 and 4: the next state as it would be without conversions.
    let mut next = old.clone();
    for c in cells.clone() {
        if let (Some(parts), Some(flow)) = (&parts[c], &flows[c]) {
            next.cells[c].parts = collided(parts, flow, relaxed_by(parts, flow, relaxation));
            next.cells[c].mass = if was(c) == FLUID { flow.rho } else { traded(grid, old, c) };
        }
    }

    // Stage 5: the filled cells are all known before any cell is tested for emptied.
    let mass: Vec<i128> = next.cells.iter().map(|cell| cell.mass).collect();
    let rho = |c: usize| flows[c].map_or(0, |flow| flow.rho);
    let mut fates = vec![Fate::Stays; grid.n];
    for c in cells.clone() {
        if was(c) == INTERFACE && fills_up(mass[c], rho(c)) {
            fates[c] = Fate::Filled;
        }
    }
    let beside =
        |fates: &[Fate], c: usize, fate: Fate| grid.neighbours(c).any(|neighbour| fates[neighbour] == fate);
    for c in cells.clone() {
        if was(c) == INTERFACE && runs_dry(mass[c], rho(c)) && !beside(&fates, c, Fate::Filled) {
            fates[c] = Fate::Emptied;
        }
    }
    for c in cells.clone() {
        let cell = &mut next.cells[c];
        match (was(c), fates[c]) {
            (EMPTY, _) if beside(&fates, c, Fate::Filled) => {
                *cell = Cell { parts: newborn(grid, old, &flows, c), ..Cell::blank(INTERFACE) };
            }
            (FLUID, _) if beside(&fates, c, Fate::Emptied) => cell.flag = INTERFACE,
            (_, Fate::Filled) => (cell.flag, cell.mass) = (FLUID, rho(c)),
            (_, Fate::Emptied) => *cell = Cell::blank(EMPTY),
            _ => {}
        }
    }

    // Stage 6.
    for c in cells {
        let (excess, sign) = match fates[c] {
            Fate::Stays => continue,
            Fate::Filled => (mass[c] - rho(c), 1),
            Fate::Emptied => (mass[c], -1),
        };
        let n = normal(grid, old, c);
        let targets: Vec<usize> =
            (1..19).filter(|&k| next.cells[grid.near(c, k)].flag == INTERFACE).collect();
        let weights: Vec<i128> = targets.iter().map(|&k| (sign * dot(&n, &DIRECTIONS[k])).max(0)).collect();
        for (k, share) in targets.iter().zip(shares(excess, &weights)) {
            next.cells[grid.near(c, *k)].mass += share;
        }
        if targets.is_empty() {
            next.carry += excess;
        }
    }

    next.work_out_fills();
    Ok(Draft { state: next, fates })
}

/// Stages 1 to 7 from a good state: the next state, or refusal 7 or 8.
pub fn next_state(
    grid: &Grid,
    old: &State,
    relaxation: impl Into<Relaxation>,
    gravity: [i32; 3],
) -> Result<State, Refusal> {
    let next = draft(grid, old, relaxation, gravity)?.state;
    match next.broken_place() {
        Some(place) => refuse(8, place),
        None => Ok(next),
    }
}

/// Tests 1 to 6 of step and run; the grid and the good state of the first set.
pub fn tested(
    sides: [u32; 3],
    p: i32,
    gravity: [i32; 3],
    first: Set,
    second: Set,
    marks: &[u8],
) -> Result<(Grid, State), Refusal> {
    let grid = Grid::new(sides)?;
    if !first.fits(grid.n) || !second.fits(grid.n) || marks.len() != grid.n {
        return refuse(2, 0);
    }
    test_flow(p, gravity)?;
    Ok((grid, good_state(&grid, first)?))
}

/// The step: the next state into the second set; after 7 or 8 a copy of the first.
pub fn step(
    sides: [u32; 3],
    relaxation: impl Into<Relaxation>,
    gravity: [i32; 3],
    first: Set,
    mut second: SetMut,
    marks: &mut [u8],
) -> Result<(), Refusal> {
    let relaxation = relaxation.into();
    let (grid, old) = tested(sides, relaxation.p, gravity, first, second.as_set(), marks)?;
    let next = next_state(&grid, &old, relaxation, gravity);
    second.put(next.as_ref().unwrap_or(&old));
    marks.fill(0);
    next.map(|_| ())
}
