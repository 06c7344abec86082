// The same step in f32, one density unit being 1.0: what it gains in speed and what it loses in water.
//
// The parts of four cells are worked out together, or of one, which is what the whole numbers do. Both stores are this program's own, so that their dry cells
// hold zeros, and where both are dry nothing is done.

use oracle::Store;

use crate::engine::{Answer, Ran, Settings, ACCEPTED};
use crate::lanes::{Four, Lanes};
use crate::lattice::{
    add, at, opposite, put, Changes, Grid, Lattice, EMPTIED, EMPTY, FILLED, FLUID, INTERFACE, NOTHING, WALL,
};

const ONE: f64 = 589_824.0;
const PART_LIMIT: f32 = 2.0;
const LOWEST_DENSITY: f32 = 0.5;
const HIGHEST_DENSITY: f32 = 2.0;
const MASS_LIMIT: f32 = 4.0;
const CARRY_LIMIT: f32 = (1e12 / ONE) as f32;
/// Equal but for rounding, where the whole numbers' rules ask for equality.
const NEAR: f32 = 0.000_1;
/// Numbers before and behind the parts of a store: what would stream into four cells lies inside, though some of them be walls at an end of the grid.
pub const MARGIN: usize = 64;

/// One way to go in f32.
#[derive(Clone, Copy)]
pub struct FloatEngine {
    pub name: &'static str,
    pub step: fn(&Grid, Settings, &FloatStore, &mut FloatStore, &mut [u8]) -> Answer,
    pub run: fn(&Grid, Settings, usize, &mut FloatStore, &mut FloatStore, &mut [u8]) -> Ran,
}

/// The fastest.
pub const FOUR: FloatEngine = FloatEngine { name: "f32", step: step::<Four>, run: run::<Four> };
/// The same cell by cell, as the whole numbers go.
pub const SINGLE: FloatEngine = FloatEngine { name: "f32, cell by cell", step: step::<f32>, run: run::<f32> };

type Parts = [f32; 19];

/// A set as document 01 lends it, but for its numbers.
#[derive(Clone)]
pub struct FloatStore {
    pub flags: Vec<u8>,
    /// In the box with a margin at either end.
    pub parts: Vec<f32>,
    pub masses: Vec<f32>,
    pub fills: Vec<f32>,
    pub carry: f32,
    /// In the box by cell the directions in which a wall lies, as bits: walls stay where they are.
    walls: Vec<u32>,
}

impl FloatStore {
    /// A set of any lattice, with no margin and no walls.
    pub fn of(store: &Store) -> FloatStore {
        let unit = |number: i64| (number as f64 / ONE) as f32;
        FloatStore {
            flags: store.flags.clone(),
            parts: store.parts.iter().map(|&part| unit(part.into())).collect(),
            masses: store.masses.iter().map(|&mass| unit(mass.into())).collect(),
            fills: store.fills.iter().map(|&fill| fill as f32 / 65_536.0).collect(),
            carry: unit(store.carry[0]),
            walls: Vec::new(),
        }
    }

    /// A set of the box.
    pub fn laid(grid: &Grid, store: &Store) -> FloatStore {
        let mut laid = FloatStore::of(store);
        laid.parts.splice(0..0, [0.0; MARGIN]);
        laid.parts.extend([0.0; MARGIN]);
        laid.walls = vec![0; grid.n];
        // The store has the lengths of its grid.
        unsafe { grid.walls_beside(&laid.flags, &mut laid.walls) };
        laid
    }

    pub fn copy_from(&mut self, other: &FloatStore) {
        self.flags.copy_from_slice(&other.flags);
        self.parts.copy_from_slice(&other.parts);
        self.masses.copy_from_slice(&other.masses);
        self.fills.copy_from_slice(&other.fills);
        self.carry = other.carry;
    }

    /// The water of all cells and the carry, in cells of density 1; added in f64, so that the sum itself loses nothing.
    pub fn total(&self) -> f64 {
        self.masses.iter().map(|&mass| f64::from(mass)).sum::<f64>() + f64::from(self.carry)
    }
}

/// Settings as factors.
#[derive(Clone, Copy)]
struct Factors {
    omega: f32,
    gravity: [f32; 3],
    /// The push that is left after a collision, which relaxes towards the pushed flow.
    left: [f32; 3],
}

impl Factors {
    fn of(settings: Settings) -> Factors {
        let omega = settings.p as f32 / 1024.0;
        let gravity = settings.gravity.map(|g| g as f32 / 1_048_576.0);
        Factors { omega, gravity, left: gravity.map(|g| omega * g) }
    }
}

/// Density and momentum of a cell, or of several.
#[derive(Clone, Copy)]
struct Flow<L = f32> {
    rho: L,
    j: [L; 3],
}

#[inline(always)]
const fn weight(i: usize) -> f32 {
    if i < 7 {
        2.0 / 36.0
    } else {
        1.0 / 36.0
    }
}

/// e·v of the first direction of each pair; the second's is its negative.
#[inline(always)]
fn along<L: Lanes>([x, y, z]: [L; 3]) -> [L; 9] {
    [x, y, z, x.plus(y), x.minus(y), y.plus(z), y.minus(z), x.plus(z), x.minus(z)]
}

#[inline(always)]
fn along_direction(dots: &[f32; 9], i: usize) -> f32 {
    let dot = dots[(i - 1) / 2];
    if i % 2 == 1 {
        dot
    } else {
        -dot
    }
}

#[inline(always)]
fn square<L: Lanes>([x, y, z]: [L; 3]) -> L {
    x.times(x).plus(y.times(y)).plus(z.times(z))
}

/// By pairs: a chain of nineteen additions would wait for each of them.
#[inline(always)]
fn flow_of<L: Lanes>(f: &[L; 19]) -> Flow<L> {
    let apart = |h: usize| f[2 * h + 1].minus(f[2 * h + 2]);
    let both = |h: usize| f[2 * h + 1].plus(f[2 * h + 2]);
    let axes = both(0).plus(both(1)).plus(both(2).plus(f[0]));
    let diagonals = both(3).plus(both(4)).plus(both(5).plus(both(6))).plus(both(7).plus(both(8)));
    let x = apart(0).plus(apart(3).plus(apart(4))).plus(apart(7).plus(apart(8)));
    let y = apart(1).plus(apart(3).minus(apart(4))).plus(apart(5).plus(apart(6)));
    let z = apart(2).plus(apart(5).minus(apart(6))).plus(apart(7).minus(apart(8)));
    Flow { rho: axes.plus(diagonals), j: [x, y, z] }
}

/// Where density and speed keep their ranges.
#[inline(always)]
fn steady<L: Lanes>(flow: &Flow<L>) -> L {
    let dense = L::all(LOWEST_DENSITY).at_most(flow.rho).and(flow.rho.at_most(L::all(HIGHEST_DENSITY)));
    dense.and(L::all(9.0).times(square(flow.j)).at_most(flow.rho.times(flow.rho)))
}

/// Where the parts keep their range, if all of them are numbers: one that is none makes the density none, which `steady` sees.
#[inline(always)]
fn inside<L: Lanes>(f: &[L; 19]) -> L {
    let highest = f[1..].iter().fold(f[0], |highest, &part| highest.highest(part));
    let lowest = f[1..].iter().fold(f[0], |lowest, &part| lowest.lowest(part));
    highest.at_most(L::all(PART_LIMIT)).and(L::all(-PART_LIMIT).at_most(lowest))
}

/// All bits set.
#[inline(always)]
fn always<L: Lanes>() -> L {
    L::all(0.0).at_most(L::all(0.0))
}

/// Whether an answer holds of every cell.
#[inline(always)]
fn holds<L: Lanes>(answers: L) -> bool {
    answers.bits() == (1 << L::COUNT) - 1
}

#[inline(always)]
fn fill_of(mass: f32, rho: f32) -> f32 {
    (mass / rho).clamp(0.0, 1.0)
}

/// Where the parts of a cell begin.
#[inline(always)]
fn first_of(c: usize) -> usize {
    MARGIN + 19 * c
}

#[inline(always)]
unsafe fn own(parts: &[f32], c: usize) -> Parts {
    std::array::from_fn(|k| at(parts, first_of(c) + k))
}

#[inline(always)]
unsafe fn paste(parts: &mut [f32], c: usize, f: &Parts) {
    for (k, &part) in f.iter().enumerate() {
        put(parts, first_of(c) + k, part);
    }
}

/// What streams into part k of an open cell.
#[inline(always)]
unsafe fn straight(grid: &Grid, parts: &[f32], c: usize, k: usize) -> f32 {
    at(parts, MARGIN.wrapping_add(grid.source(c, k)))
}

/// n·e of the cell's normal, from the old fills; a wall counts with the cell's own.
#[inline(always)]
unsafe fn leaning(grid: &Grid, old: &FloatStore, c: usize) -> [f32; 9] {
    let fill = |i: usize| {
        let b = grid.near(c, i);
        at(&old.fills, if at(&old.flags, b) == WALL { c } else { b })
    };
    along([fill(2) - fill(1), fill(4) - fill(3), fill(6) - fill(5)])
}

/// Stage 1 of an interface cell.
unsafe fn rebuilt(grid: &Grid, old: &FloatStore, c: usize) -> Parts {
    let own = own(&old.parts, c);
    let flow = flow_of(&own);
    let dots = along(flow.j);
    let leans = leaning(grid, old, c);
    let over = 1.0 / (flow.rho * flow.rho);
    let speed = square(flow.j);
    let mut f = own;
    for i in 1..19 {
        let k = opposite(i);
        f[k] = match at(&old.flags, grid.near(c, i)) {
            WALL => own[i],
            flag if flag == EMPTY || along_direction(&leans, i) > 0.0 => {
                let dot = dots[(i - 1) / 2];
                weight(i) * (2.0 + (9.0 * dot * dot - 3.0 * speed) * over) - own[i]
            }
            _ => straight(grid, &old.parts, c, k),
        };
    }
    f
}

/// Stage 1 of a fluid cell: walls, in these directions, send its own parts back.
#[inline(always)]
unsafe fn reflect(old: &FloatStore, c: usize, mut walls: u32, mut put: impl FnMut(usize, f32)) {
    while walls != 0 {
        let i = walls.trailing_zeros() as usize;
        put(opposite(i), at(&old.parts, first_of(c) + i));
        walls &= walls - 1;
    }
}

/// Stage 1 of any liquid cell.
unsafe fn streamed(grid: &Grid, old: &FloatStore, c: usize) -> Parts {
    if at(&old.flags, c) == INTERFACE {
        return rebuilt(grid, old, c);
    }
    let mut f = std::array::from_fn(|k| straight(grid, &old.parts, c, k));
    reflect(old, c, at(&old.walls, c), |k, part| f[k] = part);
    f
}

/// Stage 2.
unsafe fn traded(grid: &Grid, old: &FloatStore, c: usize) -> f32 {
    let fill = at(&old.fills, c);
    let mut mass = at(&old.masses, c);
    for i in 1..19 {
        let b = grid.near(c, i);
        let d = straight(grid, &old.parts, c, opposite(i)) - at(&old.parts, first_of(c) + i);
        mass += match at(&old.flags, b) {
            FLUID => d,
            INTERFACE => 0.5 * (fill + at(&old.fills, b)) * d,
            _ => 0.0,
        };
    }
    mass
}

/// The flow after a push.
#[inline(always)]
fn pushed<L: Lanes>(flow: &Flow<L>, gravity: [f32; 3]) -> Flow<L> {
    let Flow { rho, j } = *flow;
    Flow { rho, j: std::array::from_fn(|axis| j[axis].plus(rho.times(L::all(gravity[axis])))) }
}

/// Stage 4: what a pair of directions shares is worked out once, with its weight and omega as one factor.
#[inline(always)]
fn collided<L: Lanes>(f: &[L; 19], flow: &Flow<L>, omega: f32) -> [L; 19] {
    let rho = flow.rho;
    let over = L::all(1.0).over(rho);
    let base = rho.minus(L::all(1.5).times(square(flow.j)).times(over));
    // For the axes and for the diagonals.
    let factors = [omega / 18.0, omega / 36.0];
    let bases = factors.map(|factor| base.times(L::all(factor)));
    let steeps = factors.map(|factor| over.times(L::all(4.5 * factor)));
    let odds = factors.map(|factor| L::all(3.0 * factor));
    let keep = L::all(1.0 - omega);
    let mut parts = [rho; 19];
    let mut sums = [rho; 9];
    for (h, dot) in along(flow.j).into_iter().enumerate() {
        let (i, kind) = (2 * h + 1, usize::from(h > 2));
        let even = bases[kind].plus(dot.times(dot).times(steeps[kind]));
        let odd = dot.times(odds[kind]);
        parts[i] = f[i].times(keep).plus(even.plus(odd));
        parts[i + 1] = f[i + 1].times(keep).plus(even.minus(odd));
        sums[h] = parts[i].plus(parts[i + 1]);
    }
    let [a, b, c, d, e, f, g, h, i] = sums;
    parts[0] = rho.minus(a.plus(b).plus(c.plus(d)).plus(e.plus(f).plus(g.plus(h))).plus(i));
    parts
}

/// Stages 3 and 4: parts and densities, and where they are fair; or the first cell that breaks stage 3's rule.
#[inline(always)]
fn moved<L: Lanes>(f: &[L; 19], factors: Factors) -> Result<([L; 19], L, L), usize> {
    let flow = flow_of(f);
    let hurried = pushed(&flow, factors.gravity);
    let steady_ones = steady(&hurried);
    if !holds(steady_ones) {
        return Err(steady_ones.bits().trailing_ones() as usize);
    }
    let f = collided(f, &hurried, factors.omega);
    // A collision keeps density and momentum but for what of the push is left: the parts need not be added up again.
    let fair = inside(&f).and(steady(&pushed(&flow, factors.left)));
    Ok((f, flow.rho, fair))
}

/// The flags of COUNT cells, or of fewer at the end of the grid, one a byte, the first lowest.
#[inline(always)]
unsafe fn flags_of<L: Lanes>(flags: &[u8], c: usize) -> u32 {
    if L::COUNT == 4 && c + 4 <= flags.len() {
        return u32::from_le(flags.as_ptr().add(c).cast::<u32>().read_unaligned());
    }
    let cells = L::COUNT.min(flags.len() - c);
    (0..cells).fold(0, |all, lane| all | u32::from(at(flags, c + lane)) << (8 * lane))
}

/// 1 in the byte of each liquid cell: its flag, 1 or 2, has one of the two lowest bits, a dry one, 0 or 3, none or both.
#[inline(always)]
fn liquid_bytes(flags: u64) -> u64 {
    (flags ^ flags >> 1) & 0x0101_0101_0101_0101
}

/// The next of eight cells of which one is liquid in either store.
#[inline(always)]
unsafe fn past_dry(old: &[u8], new: &[u8], mut c: usize) -> usize {
    let eight = |flags: &[u8], c: usize| unsafe { flags.as_ptr().add(c).cast::<u64>().read_unaligned() };
    while c + 8 <= old.len() && liquid_bytes(eight(old, c)) | liquid_bytes(eight(new, c)) == 0 {
        c += 8;
    }
    c
}

/// Stages 1 to 4 and stage 5's tests. Answers as plain.rs does.
unsafe fn flowing<L: Lanes>(
    grid: &Grid,
    factors: Factors,
    old: &FloatStore,
    new: &mut FloatStore,
    changes: &mut Changes,
) -> Result<bool, usize> {
    let all_fluid = 0x0202_0202 & u32::MAX >> (32 - 8 * L::COUNT);
    let mut fair = always::<L>();
    let mut fair_masses = true;
    let mut next = past_dry(&old.flags, &new.flags, 0);
    while next < grid.n {
        let c = next;
        next += L::COUNT;
        if next % 8 == 0 {
            next = past_dry(&old.flags, &new.flags, next);
        }
        let flags = flags_of::<L>(&old.flags, c);
        if liquid_bytes(flags.into()) == 0 {
            // They are zeros unless the second store had water there.
            if liquid_bytes(flags_of::<L>(&new.flags, c).into()) != 0 {
                for c in c..c + L::COUNT {
                    paste(&mut new.parts, c, &[0.0; 19]);
                    put(&mut new.masses, c, 0.0);
                    put(&mut new.fills, c, 0.0);
                }
            }
            continue;
        }
        let from: [*const f32; 19] =
            std::array::from_fn(|k| old.parts.as_ptr().wrapping_add(MARGIN.wrapping_add(grid.source(c, k))));
        let walled: [u32; 4] =
            std::array::from_fn(|lane| if lane < L::COUNT { at(&old.walls, c + lane) } else { 0 });
        let place = new.parts.as_mut_ptr().add(first_of(c));
        if flags == all_fluid && walled == [0; 4] {
            let f = from.map(|from| L::pick::<19>(from));
            let (f, rho, fair_ones) = moved(&f, factors).map_err(|lane| c + lane)?;
            fair = fair.and(fair_ones);
            L::write_by_turns(&f, place);
            rho.write(new.masses.as_mut_ptr().add(c));
            L::all(1.0).write(new.fills.as_mut_ptr().add(c));
            continue;
        }
        // Dry cells among them go along as water of density 1, and are written as zeros.
        let mut lanes = [[0.0f32; 4]; 19];
        let mut liquid = [0u32; 4];
        for (from, lanes) in from.into_iter().zip(&mut lanes) {
            L::pick::<19>(from).write(lanes.as_mut_ptr());
        }
        for lane in 0..L::COUNT {
            liquid[lane] = u32::MAX;
            match (flags >> (8 * lane)) as u8 {
                FLUID => reflect(old, c + lane, walled[lane], |k, part| lanes[k][lane] = part),
                INTERFACE => {
                    let f = rebuilt(grid, old, c + lane);
                    (0..19).for_each(|k| lanes[k][lane] = f[k]);
                }
                _ => {
                    (0..19).for_each(|k| lanes[k][lane] = if k == 0 { 1.0 } else { 0.0 });
                    liquid[lane] = 0;
                }
            }
        }
        let f = std::array::from_fn(|k| L::read(lanes[k].as_ptr()));
        let (f, rhos, fair_ones) = moved(&f, factors).map_err(|lane| c + lane)?;
        fair = fair.and(fair_ones);
        let liquid = L::read(liquid.as_ptr().cast());
        L::write_by_turns(&f.map(|part| part.and(liquid)), place);
        let mut rho = [0.0; 4];
        rhos.write(rho.as_mut_ptr());
        for lane in 0..L::COUNT {
            let (c, rho) = (c + lane, rho[lane]);
            let (mut mass, mut fill) = (0.0, 0.0);
            match (flags >> (8 * lane)) as u8 {
                FLUID => (mass, fill) = (rho, 1.0),
                INTERFACE => {
                    mass = traded(grid, old, c);
                    fill = fill_of(mass, rho);
                    fair_masses &= mass.abs() <= MASS_LIMIT;
                    if mass > 1.001 * rho {
                        changes.filled.push(c);
                    } else if mass < -0.001 * rho {
                        changes.emptied.push(c);
                    }
                }
                _ => {}
            }
            put(&mut new.masses, c, mass);
            put(&mut new.fills, c, fill);
        }
    }
    Ok(fair_masses & holds(fair))
}

/// Stage 5's parts of a new interface cell.
unsafe fn born(grid: &Grid, factors: Factors, old: &FloatStore, c: usize) -> Parts {
    let (mut count, mut rho, mut j) = (0.0, 0.0, [0.0; 3]);
    for i in 1..19 {
        let b = grid.near(c, i);
        let flag = at(&old.flags, b);
        if flag == FLUID || flag == INTERFACE {
            let flow = pushed(&flow_of(&streamed(grid, old, b)), factors.gravity);
            count += 1.0;
            rho += flow.rho;
            j = std::array::from_fn(|axis| j[axis] + flow.j[axis]);
        }
    }
    // At ω = 1 collision gives the equilibrium, whatever the parts were.
    collided(&[0.0; 19], &Flow { rho: rho / count, j: j.map(|sum: f32| sum / count) }, 1.0)
}

/// Stage 6 of one converted cell; sign is 1 for a filled one, −1 for an emptied one.
unsafe fn give(grid: &Grid, old: &FloatStore, new: &mut FloatStore, c: usize, excess: f32, sign: f32) {
    let dots = leaning(grid, old, c);
    let (mut targets, mut total) = (0.0, 0.0);
    let mut weights = [0.0; 19];
    for i in 1..19 {
        if at(&new.flags, grid.near(c, i)) == INTERFACE {
            targets += 1.0;
            weights[i] = (sign * along_direction(&dots, i)).max(0.0);
            total += weights[i];
        }
    }
    if targets == 0.0 {
        new.carry += excess;
        return;
    }
    if total == 0.0 {
        total = targets;
        for (i, weight) in weights.iter_mut().enumerate().skip(1) {
            *weight = if at(&new.flags, grid.near(c, i)) == INTERFACE { 1.0 } else { 0.0 };
        }
    }
    let (mut remainder, mut first) = (excess, 0);
    for i in (1..19).rev().filter(|&i| weights[i] > 0.0) {
        let (b, share) = (grid.near(c, i), excess * weights[i] / total);
        add(&mut new.masses, b, share);
        remainder -= share;
        first = b;
    }
    add(&mut new.masses, first, remainder);
}

/// Stages 5 and 6, and the fills of the cells they touch.
unsafe fn converted(
    grid: &Grid,
    factors: Factors,
    old: &FloatStore,
    new: &mut FloatStore,
    marks: &mut [u8],
    changes: &mut Changes,
) -> bool {
    let mut fair = true;
    changes.filled.iter().for_each(|&c| put(marks, c, FILLED));
    changes.emptied.iter().for_each(|&c| put(marks, c, EMPTIED));
    grid.convert(&old.flags, &mut new.flags, marks, changes);
    for &c in &changes.born {
        let f = born(grid, factors, old, c);
        fair &= holds(inside(&f).and(steady(&flow_of(&f))));
        paste(&mut new.parts, c, &f);
    }
    for &c in &changes.filled {
        let rho = flow_of(&own(&new.parts, c)).rho;
        give(grid, old, new, c, at(&new.masses, c) - rho, 1.0);
        put(&mut new.masses, c, rho);
        put(&mut new.fills, c, 1.0);
    }
    for &c in &changes.emptied {
        give(grid, old, new, c, at(&new.masses, c), -1.0);
        paste(&mut new.parts, c, &[0.0; 19]);
        put(&mut new.masses, c, 0.0);
        put(&mut new.fills, c, 0.0);
    }
    for &c in changes.filled.iter().chain(&changes.emptied) {
        put(marks, c, NOTHING);
        for i in 1..19 {
            let b = grid.near(c, i);
            if at(&new.flags, b) == INTERFACE {
                let mass = at(&new.masses, b);
                put(&mut new.fills, b, fill_of(mass, flow_of(&own(&new.parts, b)).rho));
                fair &= mass.abs() <= MASS_LIMIT;
            }
        }
    }
    fair & (new.carry.abs() <= CARRY_LIMIT)
}

/// The place of test 6 or 8, equality being asked but for rounding.
unsafe fn broken_place<L: Lanes>(grid: &Grid, set: &FloatStore) -> Option<usize> {
    let near = |a: f32, b: f32| (a - b).abs() <= NEAR;
    let broken = |c: usize| {
        let f = own(&set.parts, c);
        let (mass, fill) = (at(&set.masses, c), at(&set.fills, c));
        let flag = at(&set.flags, c);
        if flag != FLUID && flag != INTERFACE {
            return f.iter().fold((mass != 0.0) | (fill != 0.0), |any, &part| any | (part != 0.0));
        }
        let flow = flow_of(&f);
        !holds(inside(&f).and(steady(&flow)))
            || if flag == FLUID {
                !near(mass, flow.rho) || fill != 1.0
            } else {
                !(mass.abs() <= MASS_LIMIT) || !near(fill, fill_of(mass, flow.rho))
            }
    };
    for c in (0..grid.n).step_by(L::COUNT) {
        let flags = flags_of::<L>(&set.flags, c);
        if liquid_bytes(flags.into()) == 0 && c + L::COUNT <= grid.n {
            let any = |numbers: &[f32]| numbers.iter().fold(0, |any, number| any | number.to_bits());
            let parts = set.parts.get_unchecked(first_of(c)..first_of(c + L::COUNT));
            let (masses, fills) = (&set.masses[c..c + L::COUNT], &set.fills[c..c + L::COUNT]);
            if any(parts) | any(masses) | any(fills) == 0 {
                continue;
            }
        }
        if L::COUNT > 1 && flags == 0x0202_0202 {
            let f = std::array::from_fn(|k| L::pick::<19>(set.parts.as_ptr().add(first_of(c) + k)));
            let flow = flow_of(&f);
            let mass = L::read(set.masses.as_ptr().add(c));
            let fill = L::read(set.fills.as_ptr().add(c));
            let alike =
                mass.minus(flow.rho).at_most(L::all(NEAR)).and(flow.rho.minus(mass).at_most(L::all(NEAR)));
            let full = fill.at_most(L::all(1.0)).and(L::all(1.0).at_most(fill));
            if holds(inside(&f).and(steady(&flow)).and(alike).and(full)) {
                continue;
            }
        }
        if let Some(place) = (c..(c + L::COUNT).min(grid.n)).find(|&c| broken(c)) {
            return Some(place);
        }
    }
    (!(set.carry.abs() <= CARRY_LIMIT)).then_some(grid.n)
}

/// Tests 4 to 6. Lengths and settings are this program's own.
fn tested<L: Lanes>(grid: &Grid, first: &FloatStore) -> Answer {
    let refused = |number: u8| move |place: usize| Answer::refused(number, place);
    // A float store is made with the lengths of its grid.
    let found = unsafe {
        let flag = grid.wrong_flag(&first.flags).map(refused(4));
        let open = || grid.open_fluid(&first.flags).map(refused(5));
        flag.or_else(open).or_else(|| broken_place::<L>(grid, first).map(refused(6)))
    };
    found.unwrap_or(ACCEPTED)
}

/// Stages 1 to 7 with tests 7 and 8.
unsafe fn inner<L: Lanes>(
    grid: &Grid,
    factors: Factors,
    first: &FloatStore,
    second: &mut FloatStore,
    marks: &mut [u8],
    changes: &mut Changes,
) -> Answer {
    changes.clear();
    let answer = match flowing::<L>(grid, factors, first, second, changes) {
        Err(place) => Answer::refused(7, place),
        Ok(mut fair) => {
            second.flags.copy_from_slice(&first.flags);
            second.carry = first.carry;
            if !changes.none() {
                fair &= converted(grid, factors, first, second, marks, changes);
            }
            let broken = if fair { None } else { broken_place::<L>(grid, second) };
            broken.map_or(ACCEPTED, |place| Answer::refused(8, place))
        }
    };
    if answer != ACCEPTED {
        second.copy_from(first);
        marks.fill(NOTHING);
    }
    answer
}

/// The step with its tests.
pub fn step<L: Lanes>(
    grid: &Grid,
    settings: Settings,
    first: &FloatStore,
    second: &mut FloatStore,
    marks: &mut [u8],
) -> Answer {
    let answer = tested::<L>(grid, first);
    if answer != ACCEPTED {
        return answer;
    }
    let (factors, mut changes) = (Factors::of(settings), Changes::default());
    unsafe { inner::<L>(grid, factors, first, second, marks, &mut changes) }
}

/// The run, tested once; both stores hold the state reached.
pub fn run<L: Lanes>(
    grid: &Grid,
    settings: Settings,
    steps: usize,
    first: &mut FloatStore,
    second: &mut FloatStore,
    marks: &mut [u8],
) -> Ran {
    let answer = tested::<L>(grid, first);
    if answer != ACCEPTED {
        return Ran { count: 0, answer };
    }
    let (factors, mut changes) = (Factors::of(settings), Changes::default());
    let (mut from, mut to) = (first, second);
    for count in 0..steps {
        let answer = unsafe { inner::<L>(grid, factors, from, to, marks, &mut changes) };
        if answer != ACCEPTED {
            return Ran { count, answer };
        }
        std::mem::swap(&mut from, &mut to);
    }
    to.copy_from(from);
    Ran { count: steps, answer: ACCEPTED }
}
