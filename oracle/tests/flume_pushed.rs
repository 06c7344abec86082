// The flume's step a second time, by pushing: every cell sends its parts, its water and its mean to its neighbours, in 64 bits alone. Whole
// states and refusals are those of the step that pulls.

use oracle::flume::scenes::good;
use oracle::flume::state::State;
use oracle::flume::step::next_state;
use oracle::state::{EMPTY, FLUID, INTERFACE, WALL};
use oracle::turbulence::Relaxation;

const WAYS: [(i64, i64); 9] = [(0, 0), (1, 0), (-1, 0), (0, 1), (0, -1), (1, 1), (-1, -1), (1, -1), (-1, 1)];
const WEIGHTS: [i64; 9] = [16, 4, 4, 4, 4, 1, 1, 1, 1];
const BACK: [usize; 9] = [0, 2, 1, 4, 3, 6, 5, 8, 7];

#[derive(Clone, Debug, PartialEq)]
struct Cell {
    flag: u8,
    parts: [i64; 9],
    mass: i64,
    fill: i64,
}

#[derive(Clone, Debug, PartialEq)]
struct Water {
    nx: i64,
    cells: Vec<Cell>,
    carry: i64,
}

/// Density and momentum.
#[derive(Clone, Copy, Default)]
struct Sums {
    rho: i64,
    x: i64,
    z: i64,
}

impl Sums {
    fn of(parts: &[i64; 9]) -> Sums {
        let mut sums = Sums::default();
        for ((ex, ez), part) in WAYS.into_iter().zip(parts) {
            sums = Sums { rho: sums.rho + part, x: sums.x + ex * part, z: sums.z + ez * part };
        }
        sums
    }

    fn along(&self, i: usize) -> i64 {
        WAYS[i].0 * self.x + WAYS[i].1 * self.z
    }

    fn square(&self) -> i64 {
        self.x * self.x + self.z * self.z
    }

    fn allowed(&self) -> bool {
        (294_912..=1_179_648).contains(&self.rho) && 9 * self.square() <= self.rho * self.rho
    }

    /// w·Q.
    fn weighed(&self, i: usize) -> i64 {
        let along = self.along(i);
        WEIGHTS[i] * (2 * self.rho * self.rho + 6 * self.rho * along + 9 * along * along - 3 * self.square())
    }

    /// Both equilibrium parts along direction i at gas density ONE.
    fn gas(&self, i: usize) -> i64 {
        let (along, square) = (self.along(i), self.rho * self.rho);
        WEIGHTS[i] * 16_384 * (2 * square + 9 * along * along - 3 * self.square()) / square
    }

    /// Moving parts by a rule, part 0 the rest.
    fn with(&self, part: impl Fn(usize) -> i64) -> [i64; 9] {
        let mut parts: [i64; 9] = std::array::from_fn(|i| if i == 0 { 0 } else { part(i) });
        parts[0] = self.rho - parts.iter().sum::<i64>();
        parts
    }
}

/// The floor of a square root, by Newton's steps from above.
fn root(n: i64) -> i64 {
    let mut guess = n;
    while guess > 0 && n / guess < guess {
        guess = (guess + n / guess) / 2;
    }
    guess
}

/// A cell's own p, by the four pairs of opposite parts; the nearest whole number by what the floor leaves.
fn own(p: i64, flow: &Sums, parts: &[i64; 9]) -> i64 {
    let still = |i: usize| flow.weighed(i) / (72 * flow.rho);
    let pair = |i: usize| parts[i] + parts[i + 1] - still(i) - still(i + 1);
    let (x, z, rising, falling) = (pair(1), pair(3), pair(5), pair(7));
    let (along, up, across) = (x + rising + falling, z + rising + falling, rising - falling);
    let first = root(along * along + up * up + 2 * across * across);
    let still = 12_800 * (2048 - p);
    let divisor = 12_800 * (10_240 + p) + root(still * still + 162 * p * p * first);
    let (quotient, left) = (157_286_400 * p / divisor, 157_286_400 * p % divisor);
    (quotient + i64::from(2 * left >= divisor)).clamp(1, 2037)
}

fn fill_of(cell: &Cell) -> i64 {
    match cell.flag {
        FLUID => 65_536,
        INTERFACE => (65_536 * cell.mass).div_euclid(Sums::of(&cell.parts).rho).clamp(0, 65_536),
        _ => 0,
    }
}

impl Water {
    fn of(nx: u32, state: &State) -> Water {
        let cell = |cell: &oracle::flume::state::Cell| Cell {
            flag: cell.flag,
            parts: cell.parts.map(|part| part as i64),
            mass: cell.mass as i64,
            fill: cell.fill as i64,
        };
        Water { nx: i64::from(nx), cells: state.cells.iter().map(cell).collect(), carry: state.carry as i64 }
    }

    fn beside(&self, c: usize, i: usize) -> usize {
        (c as i64 + WAYS[i].0 + self.nx * WAYS[i].1) as usize
    }

    fn liquid(&self, c: usize) -> bool {
        matches!(self.cells[c].flag, FLUID | INTERFACE)
    }

    /// n·e for every direction.
    fn slopes(&self, c: usize) -> [i64; 9] {
        let seen = |i: usize| {
            let b = self.beside(c, i);
            self.cells[if self.cells[b].flag == WALL { c } else { b }].fill
        };
        let (x, z) = (seen(2) - seen(1), seen(4) - seen(3));
        WAYS.map(|(ex, ez)| ex * x + ez * z)
    }

    /// The next state and how many cells were converted; or number and place.
    fn next(&self, p: i64, turbulent: bool, gravity: (i64, i64)) -> Result<(Water, usize), (u32, usize)> {
        let n = self.cells.len();
        let liquid: Vec<usize> = (0..n).filter(|&c| self.liquid(c)).collect();

        // Each liquid cell sends its parts out; walls and the air send something back.
        let mut arrived = vec![[0; 9]; n];
        for &c in &liquid {
            let own = &self.cells[c].parts;
            arrived[c][0] = own[0];
            for i in 1..9 {
                let b = self.beside(c, i);
                match self.cells[b].flag {
                    WALL => arrived[c][BACK[i]] = own[i],
                    EMPTY => arrived[c][BACK[i]] = Sums::of(own).gas(i) - own[i],
                    _ => arrived[b][i] = own[i],
                }
            }
        }
        // Where the surface leans towards water, what came from there does not count.
        for &c in liquid.iter().filter(|&&c| self.cells[c].flag == INTERFACE) {
            let (own, slopes) = (&self.cells[c].parts, self.slopes(c));
            for i in (1..9).filter(|&i| slopes[i] > 0 && self.liquid(self.beside(c, i))) {
                arrived[c][BACK[i]] = Sums::of(own).gas(i) - own[i];
            }
        }

        // Each pair of neighbours trades once: what one gains the other loses.
        let mut mass: Vec<i64> = self.cells.iter().map(|cell| cell.mass).collect();
        for &c in &liquid {
            for i in [1, 3, 5, 7] {
                let b = self.beside(c, i);
                if !self.liquid(b) {
                    continue;
                }
                let (here, there) = (&self.cells[c], &self.cells[b]);
                let d = there.parts[BACK[i]] - here.parts[i];
                let both = here.flag == INTERFACE && there.flag == INTERFACE;
                let traded = if both { (here.fill + there.fill) * d / 131_072 } else { d };
                mass[c] += traded;
                mass[b] -= traded;
            }
        }

        let mut flows = vec![Sums::default(); n];
        for &c in &liquid {
            let Sums { rho, x, z } = Sums::of(&arrived[c]);
            let flow = Sums { rho, x: x + rho * gravity.0 / 1_048_576, z: z + rho * gravity.1 / 1_048_576 };
            if !flow.allowed() {
                return Err((7, c));
            }
            flows[c] = flow;
        }

        let mut new = self.clone();
        for &c in &liquid {
            let (flow, old) = (flows[c], arrived[c]);
            let p = if turbulent { own(p, &flow, &old) } else { p };
            let relaxed =
                |i: usize| old[i] + p * (flow.weighed(i) - 72 * flow.rho * old[i]) / (73_728 * flow.rho);
            new.cells[c].parts = flow.with(relaxed);
            new.cells[c].mass = if self.cells[c].flag == FLUID { flow.rho } else { mass[c] };
        }

        // Filled cells call on their neighbours, then emptied ones.
        let surface = |c: &&usize| self.cells[**c].flag == INTERFACE;
        let full = |c: &&usize| 1000 * mass[**c] > 1001 * flows[**c].rho;
        let filled: Vec<usize> = liquid.iter().filter(surface).filter(full).copied().collect();
        let mut called = vec![false; n];
        for &c in &filled {
            (1..9).for_each(|i| called[self.beside(c, i)] = true);
        }
        let dry = |c: &&usize| 1000 * mass[**c] < -flows[**c].rho && !called[**c];
        let emptied: Vec<usize> = liquid.iter().filter(surface).filter(dry).copied().collect();

        // Every liquid cell tells the empty cells around it how it flows.
        let mut told = vec![(0, Sums::default()); n];
        for &c in &liquid {
            for b in (1..9).map(|i| self.beside(c, i)).filter(|&b| called[b] && self.cells[b].flag == EMPTY) {
                let (count, sums) = told[b];
                let Sums { rho, x, z } = flows[c];
                told[b] = (count + 1, Sums { rho: sums.rho + rho, x: sums.x + x, z: sums.z + z });
            }
        }
        for (c, (count, sums)) in told.into_iter().enumerate().filter(|(_, (count, _))| *count > 0) {
            let mean = Sums { rho: sums.rho.div_euclid(count), x: sums.x / count, z: sums.z / count };
            let parts = mean.with(|i| mean.weighed(i) / (72 * mean.rho));
            new.cells[c] = Cell { flag: INTERFACE, parts, mass: 0, fill: 0 };
        }
        for &c in &filled {
            (new.cells[c].flag, new.cells[c].mass) = (FLUID, flows[c].rho);
        }
        for &c in &emptied {
            new.cells[c] = Cell { flag: EMPTY, parts: [0; 9], mass: 0, fill: 0 };
            for b in (1..9).map(|i| self.beside(c, i)).filter(|&b| self.cells[b].flag == FLUID) {
                new.cells[b].flag = INTERFACE;
            }
        }

        let excesses = filled.iter().map(|&c| (c, mass[c] - flows[c].rho, 1));
        for (c, excess, sign) in excesses.chain(emptied.iter().map(|&c| (c, mass[c], -1))) {
            let slopes = self.slopes(c).map(|slope| (sign * slope).max(0));
            let targets: Vec<usize> =
                (1..9).filter(|&i| new.cells[self.beside(c, i)].flag == INTERFACE).collect();
            let level = targets.iter().all(|&i| slopes[i] == 0);
            let weight = |i: usize| if level { 1 } else { slopes[i] };
            let total: i64 = targets.iter().map(|&i| weight(i)).sum();
            let mut left = excess;
            for &i in &targets {
                let share = excess * weight(i) / total;
                new.cells[self.beside(c, i)].mass += share;
                left -= share;
            }
            match targets.iter().find(|&&i| weight(i) > 0) {
                Some(&i) => new.cells[self.beside(c, i)].mass += left,
                None => new.carry += excess,
            }
        }

        for c in 0..n {
            new.cells[c].fill = fill_of(&new.cells[c]);
        }
        let broken = |cell: &Cell| {
            let within = |limit: i64, number: i64| number.abs() <= limit;
            matches!(cell.flag, FLUID | INTERFACE)
                && !(cell.parts.iter().all(|&part| within(1_179_648, part))
                    && Sums::of(&cell.parts).allowed()
                    && (cell.flag == FLUID || within(2_359_296, cell.mass)))
        };
        match new.cells.iter().position(broken) {
            Some(place) => Err((8, place)),
            None if new.carry.abs() > 1_000_000_000_000 => Err((8, n)),
            None => Ok((new, filled.len() + emptied.len())),
        }
    }
}

fn pushed_as_pulled(turbulent: bool) {
    let (mut accepted, mut converted, mut refused) = (0, 0, [0; 2]);
    for seed in 0..4000 {
        let scene = good(seed);
        let (grid, settings) = (scene.grid(), scene.settings);
        let [gx, gz] = settings.gravity;
        let mut state = scene.state;
        for step in 0..6 {
            let relaxation = Relaxation { p: settings.p, turbulent };
            let pulled = next_state(&grid, &state, relaxation, settings.gravity);
            let water = Water::of(scene.sides[0], &state);
            let pushed = water.next(settings.p.into(), turbulent, (gx.into(), gz.into()));
            match (pulled, pushed) {
                (Ok(next), Ok((water, cells))) => {
                    assert_eq!(water, Water::of(scene.sides[0], &next), "seed {seed}, step {step}");
                    accepted += 1;
                    converted += cells;
                    state = next;
                }
                (Err(one), Err((number, place))) => {
                    assert_eq!((one.number, one.place), (number, place as u64), "seed {seed}, step {step}");
                    refused[number as usize - 7] += 1;
                    break;
                }
                (one, other) => panic!("seed {seed}, step {step}: {:?} and {:?}", one.err(), other.err()),
            }
        }
    }
    println!("{accepted} steps, {converted} cells converted, refused with 7 and 8: {refused:?}");
    assert!(accepted > 5000 && converted > 500 && refused.iter().all(|&times| times > 50));
}

#[test]
fn pushing_gives_what_pulling_gives() {
    pushed_as_pulled(false);
}

#[test]
fn pushing_gives_what_pulling_gives_in_the_turbulent_mode() {
    pushed_as_pulled(true);
}
