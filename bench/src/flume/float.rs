// The flume's step in f32, one density unit being 1.0.

use crate::engine::{Answer, Ran, ACCEPTED};
use crate::float::FloatStore;
use crate::flume::Settings;
use crate::lattice::{
    add, at, opposite, put, Changes, Lattice, EMPTIED, EMPTY, FILLED, FLUID, INTERFACE, NOTHING, OPEN, WALL,
};

type Grid = crate::lattice::Grid<9>;

const ONE: f64 = 589_824.0;
const PART_LIMIT: f32 = 2.0;
const LOWEST_DENSITY: f32 = 0.5;
const HIGHEST_DENSITY: f32 = 2.0;
const MASS_LIMIT: f32 = 4.0;
const CARRY_LIMIT: f32 = (1e12 / ONE) as f32;
/// Equal but for rounding, where the whole numbers' rules ask for equality.
const NEAR: f32 = 0.000_1;

type Parts = [f32; 9];

/// Settings as factors.
#[derive(Clone, Copy)]
struct Factors {
    omega: f32,
    gravity: [f32; 2],
}

impl Factors {
    fn of(settings: Settings) -> Factors {
        Factors {
            omega: settings.p as f32 / 1024.0,
            gravity: settings.gravity.map(|g| g as f32 / 1_048_576.0),
        }
    }
}

/// Density and momentum of a cell.
#[derive(Clone, Copy)]
struct Flow {
    rho: f32,
    j: [f32; 2],
}

#[inline(always)]
const fn weight(i: usize) -> f32 {
    if i < 5 {
        4.0 / 36.0
    } else {
        1.0 / 36.0
    }
}

/// e·v of the first direction of each pair; the second's is its negative.
#[inline(always)]
fn along([x, z]: [f32; 2]) -> [f32; 4] {
    [x, z, x + z, x - z]
}

#[inline(always)]
fn along_direction(dots: &[f32; 4], i: usize) -> f32 {
    let dot = dots[(i - 1) / 2];
    if i % 2 == 1 {
        dot
    } else {
        -dot
    }
}

#[inline(always)]
fn square([x, z]: [f32; 2]) -> f32 {
    x * x + z * z
}

/// By pairs: a chain of nine additions would wait for each of them.
#[inline(always)]
fn flow_of(f: &Parts) -> Flow {
    let apart = |h: usize| f[2 * h + 1] - f[2 * h + 2];
    let both = |h: usize| f[2 * h + 1] + f[2 * h + 2];
    let x = apart(0) + (apart(2) + apart(3));
    let z = apart(1) + (apart(2) - apart(3));
    Flow { rho: f[0] + (both(0) + both(1)) + (both(2) + both(3)), j: [x, z] }
}

#[inline(always)]
fn steady(flow: &Flow) -> bool {
    (LOWEST_DENSITY..=HIGHEST_DENSITY).contains(&flow.rho) && 9.0 * square(flow.j) <= flow.rho * flow.rho
}

#[inline(always)]
fn inside(f: &Parts) -> bool {
    f.iter().fold(true, |all, part| all & (part.abs() <= PART_LIMIT))
}

#[inline(always)]
fn fill_of(mass: f32, rho: f32) -> f32 {
    (mass / rho).clamp(0.0, 1.0)
}

#[inline(always)]
unsafe fn own(parts: &[f32], c: usize) -> Parts {
    std::array::from_fn(|k| at(parts, 9 * c + k))
}

#[inline(always)]
unsafe fn paste(parts: &mut [f32], c: usize, f: &Parts) {
    for (k, &part) in f.iter().enumerate() {
        put(parts, 9 * c + k, part);
    }
}

/// Stage 1 of an open cell.
#[inline(always)]
unsafe fn straight(grid: &Grid, parts: &[f32], c: usize) -> Parts {
    std::array::from_fn(|k| at(parts, grid.source(c, k)))
}

/// Stage 6's normal along each direction's pair, which stage 1 reads too; a wall counts with the cell's own fill.
#[inline(always)]
unsafe fn slopes(grid: &Grid, old: &FloatStore, c: usize) -> [f32; 4] {
    let fill = |i: usize| {
        let b = grid.near(c, i);
        at(&old.fills, if at(&old.flags, b) == WALL { c } else { b })
    };
    along([fill(2) - fill(1), fill(4) - fill(3)])
}

/// Stage 1 of any liquid cell.
unsafe fn streamed(grid: &Grid, old: &FloatStore, c: usize) -> Parts {
    let own = own(&old.parts, c);
    let flow = flow_of(&own);
    let dots = along(flow.j);
    let over = 1.0 / (flow.rho * flow.rho);
    let speed = square(flow.j);
    let surface = at(&old.flags, c) == INTERFACE;
    let slopes = if surface { slopes(grid, old, c) } else { [0.0; 4] };
    let mut f = own;
    for i in 1..9 {
        let (k, b) = (opposite(i), grid.near(c, i));
        let flag = at(&old.flags, b);
        f[k] = if flag == WALL {
            own[i]
        } else if flag == EMPTY || along_direction(&slopes, i) > 0.0 {
            let dot = dots[(i - 1) / 2];
            weight(i) * (2.0 + (9.0 * dot * dot - 3.0 * speed) * over) - own[i]
        } else {
            at(&old.parts, 9 * b + k)
        };
    }
    f
}

/// Stage 2.
unsafe fn traded(grid: &Grid, old: &FloatStore, c: usize) -> f32 {
    let fill = at(&old.fills, c);
    let mut mass = at(&old.masses, c);
    for i in 1..9 {
        let b = grid.near(c, i);
        let d = at(&old.parts, 9 * b + opposite(i)) - at(&old.parts, 9 * c + i);
        mass += match at(&old.flags, b) {
            FLUID => d,
            INTERFACE => 0.5 * (fill + at(&old.fills, b)) * d,
            _ => 0.0,
        };
    }
    mass
}

/// Stage 3.
#[inline(always)]
fn pushed(f: &Parts, gravity: [f32; 2]) -> Flow {
    let Flow { rho, j } = flow_of(f);
    Flow { rho, j: std::array::from_fn(|axis| j[axis] + rho * gravity[axis]) }
}

/// The equilibrium of a pair of directions.
#[inline(always)]
fn equilibrium(rho: f32, base: f32, over: f32, dot: f32, weight: f32) -> (f32, f32) {
    let even = base + 4.5 * dot * dot * over;
    (weight * (rho + even + 3.0 * dot), weight * (rho + even - 3.0 * dot))
}

/// Stage 4.
#[inline(always)]
fn collided(f: &Parts, flow: &Flow, omega: f32) -> Parts {
    let over = 1.0 / flow.rho;
    let base = -1.5 * square(flow.j) * over;
    let mut parts = [0.0; 9];
    let mut rest = flow.rho;
    for (h, dot) in along(flow.j).into_iter().enumerate() {
        let i = 2 * h + 1;
        let (there, back) = equilibrium(flow.rho, base, over, dot, weight(i));
        parts[i] = f[i] + omega * (there - f[i]);
        parts[i + 1] = f[i + 1] + omega * (back - f[i + 1]);
        rest -= parts[i] + parts[i + 1];
    }
    parts[0] = rest;
    parts
}

/// Stages 1 to 4 and stage 5's tests, cell by cell, as plain.rs has them.
unsafe fn flowing(
    grid: &Grid,
    factors: Factors,
    old: &FloatStore,
    new: &mut FloatStore,
    marks: &mut [u8],
    changes: &mut Changes,
) -> Result<bool, usize> {
    let mut fair = true;
    for c in 0..grid.n {
        let flag = at(&old.flags, c);
        if flag != FLUID && flag != INTERFACE {
            paste(&mut new.parts, c, &[0.0; 9]);
            put(&mut new.masses, c, 0.0);
            put(&mut new.fills, c, 0.0);
            put(marks, c, NOTHING);
            continue;
        }
        let f = if at(marks, c) == OPEN { straight(grid, &old.parts, c) } else { streamed(grid, old, c) };
        let flow = pushed(&f, factors.gravity);
        if !steady(&flow) {
            return Err(c);
        }
        let f = collided(&f, &flow, factors.omega);
        paste(&mut new.parts, c, &f);
        fair &= inside(&f) & steady(&flow_of(&f));
        let (mut mass, mut fill, mut mark) = (flow.rho, 1.0, NOTHING);
        if flag == INTERFACE {
            mass = traded(grid, old, c);
            fill = fill_of(mass, flow.rho);
            fair &= mass.abs() <= MASS_LIMIT;
            if mass > 1.001 * flow.rho {
                mark = FILLED;
                changes.filled.push(c);
            } else if mass < -0.001 * flow.rho {
                mark = EMPTIED;
                changes.emptied.push(c);
            }
        }
        put(&mut new.masses, c, mass);
        put(&mut new.fills, c, fill);
        put(marks, c, mark);
    }
    Ok(fair)
}

/// Stage 5's parts of a new interface cell.
unsafe fn born(grid: &Grid, factors: Factors, old: &FloatStore, c: usize) -> Parts {
    let (mut count, mut rho, mut j) = (0.0, 0.0, [0.0; 2]);
    for i in 1..9 {
        let b = grid.near(c, i);
        let flag = at(&old.flags, b);
        if flag == FLUID || flag == INTERFACE {
            let flow = pushed(&streamed(grid, old, b), factors.gravity);
            count += 1.0;
            rho += flow.rho;
            j = std::array::from_fn(|axis| j[axis] + flow.j[axis]);
        }
    }
    let rho = rho / count;
    // At ω = 1 collision gives the equilibrium, whatever the parts were.
    collided(&[0.0; 9], &Flow { rho, j: j.map(|sum: f32| sum / count) }, 1.0)
}

/// Stage 6 of one converted cell; sign is 1 for a filled one, −1 for an emptied one.
unsafe fn give(grid: &Grid, old: &FloatStore, new: &mut FloatStore, c: usize, excess: f32, sign: f32) {
    let dots = slopes(grid, old, c);
    let (mut targets, mut total) = (0.0, 0.0);
    let mut weights = [0.0; 9];
    for i in 1..9 {
        if at(&new.flags, grid.near(c, i)) == INTERFACE {
            targets += 1.0;
            weights[i] = (sign * along_direction(&dots, i)).max(0.0);
            total += weights[i];
        }
    }
    if targets == 0.0 {
        new.carry += excess;
        return;
    }
    if total == 0.0 {
        total = targets;
        for (i, weight) in weights.iter_mut().enumerate().skip(1) {
            *weight = if at(&new.flags, grid.near(c, i)) == INTERFACE { 1.0 } else { 0.0 };
        }
    }
    let (mut remainder, mut first) = (excess, 0);
    for i in (1..9).rev().filter(|&i| weights[i] > 0.0) {
        let (b, share) = (grid.near(c, i), excess * weights[i] / total);
        add(&mut new.masses, b, share);
        remainder -= share;
        first = b;
    }
    add(&mut new.masses, first, remainder);
}

/// Stages 5 and 6, and the fills of the cells they touch.
unsafe fn converted(
    grid: &Grid,
    factors: Factors,
    old: &FloatStore,
    new: &mut FloatStore,
    marks: &mut [u8],
    mut changes: Changes,
) -> bool {
    let mut fair = true;
    grid.convert(&old.flags, &mut new.flags, marks, &mut changes);
    for &c in &changes.born {
        let f = born(grid, factors, old, c);
        fair &= inside(&f) & steady(&flow_of(&f));
        paste(&mut new.parts, c, &f);
    }
    for &c in &changes.filled {
        let rho = flow_of(&own(&new.parts, c)).rho;
        give(grid, old, new, c, at(&new.masses, c) - rho, 1.0);
        put(&mut new.masses, c, rho);
        put(&mut new.fills, c, 1.0);
    }
    for &c in &changes.emptied {
        give(grid, old, new, c, at(&new.masses, c), -1.0);
        paste(&mut new.parts, c, &[0.0; 9]);
        put(&mut new.masses, c, 0.0);
        put(&mut new.fills, c, 0.0);
    }
    for &c in changes.filled.iter().chain(&changes.emptied) {
        put(marks, c, NOTHING);
        for i in 1..9 {
            let b = grid.near(c, i);
            if at(&new.flags, b) == INTERFACE {
                let mass = at(&new.masses, b);
                put(&mut new.fills, b, fill_of(mass, flow_of(&own(&new.parts, b)).rho));
                fair &= mass.abs() <= MASS_LIMIT;
            }
        }
    }
    fair & (new.carry.abs() <= CARRY_LIMIT)
}

/// The place of test 6 or 8, equality being asked but for rounding.
unsafe fn broken_place(grid: &Grid, set: &FloatStore) -> Option<usize> {
    let broken = |c: usize| {
        let f = own(&set.parts, c);
        let (mass, fill) = (at(&set.masses, c), at(&set.fills, c));
        let flag = at(&set.flags, c);
        if flag != FLUID && flag != INTERFACE {
            return f.iter().fold((mass != 0.0) | (fill != 0.0), |any, &part| any | (part != 0.0));
        }
        let flow = flow_of(&f);
        let near = |a: f32, b: f32| (a - b).abs() <= NEAR;
        !inside(&f)
            || !steady(&flow)
            || if flag == FLUID {
                !near(mass, flow.rho) || fill != 1.0
            } else {
                !(mass.abs() <= MASS_LIMIT) || !near(fill, fill_of(mass, flow.rho))
            }
    };
    let carry_broken = !(set.carry.abs() <= CARRY_LIMIT);
    (0..grid.n).find(|&c| broken(c)).or(carry_broken.then_some(grid.n))
}

/// Tests 4 to 6. Lengths and settings are this program's own.
fn tested(grid: &Grid, first: &FloatStore) -> Answer {
    let refused = |number: u8| move |place: usize| Answer::refused(number, place);
    // A float store is made with the lengths of its grid.
    let found = unsafe {
        let flag = grid.wrong_flag(&first.flags).map(refused(4));
        let open = || grid.open_fluid(&first.flags).map(refused(5));
        flag.or_else(open).or_else(|| broken_place(grid, first).map(refused(6)))
    };
    found.unwrap_or(ACCEPTED)
}

/// Stages 1 to 7 with tests 7 and 8.
unsafe fn inner(
    grid: &Grid,
    factors: Factors,
    first: &FloatStore,
    second: &mut FloatStore,
    marks: &mut [u8],
) -> Answer {
    let mut changes = Changes::default();
    grid.mark_open(&first.flags, marks);
    let flowed = flowing(grid, factors, first, second, marks, &mut changes);
    let answer = match flowed {
        Err(place) => Answer::refused(7, place),
        Ok(mut fair) => {
            second.flags.copy_from_slice(&first.flags);
            second.carry = first.carry;
            if !changes.none() {
                fair &= converted(grid, factors, first, second, marks, changes);
            }
            let broken = if fair { None } else { broken_place(grid, second) };
            broken.map_or(ACCEPTED, |place| Answer::refused(8, place))
        }
    };
    if answer != ACCEPTED {
        second.copy_from(first);
        marks.fill(NOTHING);
    }
    answer
}

/// The step with its tests.
pub fn step(
    grid: &Grid,
    settings: Settings,
    first: &FloatStore,
    second: &mut FloatStore,
    marks: &mut [u8],
) -> Answer {
    match tested(grid, first) {
        ACCEPTED => unsafe { inner(grid, Factors::of(settings), first, second, marks) },
        answer => answer,
    }
}

/// The run, tested once; both stores hold the state reached.
pub fn run(
    grid: &Grid,
    settings: Settings,
    steps: usize,
    first: &mut FloatStore,
    second: &mut FloatStore,
    marks: &mut [u8],
) -> Ran {
    let answer = tested(grid, first);
    if answer != ACCEPTED {
        return Ran { count: 0, answer };
    }
    let (mut from, mut to) = (first, second);
    for count in 0..steps {
        let answer = unsafe { inner(grid, Factors::of(settings), from, to, marks) };
        if answer != ACCEPTED {
            return Ran { count, answer };
        }
        std::mem::swap(&mut from, &mut to);
    }
    to.copy_from(from);
    Ran { count: steps, answer: ACCEPTED }
}
