// The plain step of the box and of the flume: document 01 in i64 as one writes it for speed in Rust, every index unchecked and nothing proved.

use oracle::{Set, SetMut};

use crate::engine::{lend_again, Answer, Engine, Ran, Settings, ACCEPTED};
use crate::lattice::{
    add, at, opposite, put, Changes, Grid, Lattice, EMPTIED, EMPTY, FILLED, FLUID, INTERFACE, NOTHING, OPEN,
    WALL,
};

pub const PLAIN: Engine = Engine {
    name: "plain i64",
    step: |sides, settings, first, second, marks| {
        step::<19, 3, false>(sides, settings, first.set, second.set, marks)
    },
    run: |sides, settings, steps, first, second, marks| {
        run::<19, 3, false>(sides, settings, steps, first.set, second.set, marks)
    },
    turbulent: false,
};

/// The same, but that a dry cell's zeros are looked for before they are written, as the proved step does.
pub const LOOKING: Engine = Engine {
    name: "plain i64, zeros looked for",
    step: |sides, settings, first, second, marks| {
        step::<19, 3, true>(sides, settings, first.set, second.set, marks)
    },
    run: |sides, settings, steps, first, second, marks| {
        run::<19, 3, true>(sides, settings, steps, first.set, second.set, marks)
    },
    turbulent: false,
};

const FULL: i64 = 65_536;
const PART_LIMIT: i64 = 1_179_648;
const LOWEST_DENSITY: i64 = 294_912;
const HIGHEST_DENSITY: i64 = 1_179_648;
const MASS_LIMIT: i64 = 2_359_296;
const CARRY_LIMIT: i64 = 1_000_000_000_000;
const MOST_STEPS: usize = 1000;

/// Density and momentum of a cell.
#[derive(Clone, Copy)]
struct Flow<const AXES: usize> {
    rho: i64,
    j: [i64; AXES],
}

#[inline(always)]
fn square<const AXES: usize>(v: [i64; AXES]) -> i64 {
    v.iter().map(|x| x * x).sum()
}

#[inline(always)]
fn steady<const AXES: usize>(flow: &Flow<AXES>) -> bool {
    (LOWEST_DENSITY..=HIGHEST_DENSITY).contains(&flow.rho) && 9 * square(flow.j) <= flow.rho * flow.rho
}

#[inline(always)]
fn inside<const Q: usize>(f: &[i64; Q]) -> bool {
    f.iter().fold(true, |all, &part| all & (-PART_LIMIT..=PART_LIMIT).contains(&part))
}

#[inline(always)]
fn fill_of(mass: i64, rho: i64) -> i64 {
    if mass <= 0 {
        0
    } else if mass >= rho {
        FULL
    } else {
        FULL * mass / rho
    }
}

#[inline(always)]
unsafe fn own<const Q: usize>(parts: &[i32], c: usize) -> [i64; Q] {
    std::array::from_fn(|k| i64::from(at(parts, Q * c + k)))
}

#[inline(always)]
unsafe fn paste<const Q: usize>(parts: &mut [i32], c: usize, f: &[i64; Q]) {
    for (k, &part) in f.iter().enumerate() {
        put(parts, Q * c + k, part as i32);
    }
}

/// Zeros for a dry cell. Where they are LOOKed for first, most cells are left as they are: they were dry before.
#[inline(always)]
unsafe fn dry_out<const Q: usize, const LOOK: bool>(parts: &mut [i32], c: usize) {
    if !LOOK || (0..Q).fold(0, |any, k| any | at(parts, Q * c + k)) != 0 {
        paste(parts, c, &[0; Q]);
    }
}

fn copy(from: &Set, to: &mut SetMut) {
    to.flags.copy_from_slice(from.flags);
    to.parts.copy_from_slice(from.parts);
    to.masses.copy_from_slice(from.masses);
    to.fills.copy_from_slice(from.fills);
    to.carry.copy_from_slice(from.carry);
}

/// Test 3 as step and run make it.
fn allowed<const AXES: usize>(settings: Settings<AXES>) -> bool {
    let small = settings.gravity.iter().all(|g| (-1048..=1048).contains(g));
    (1..=2037).contains(&settings.p) && small && square(settings.gravity) <= 1_099_511
}

/// A grid, and the settings of its steps.
struct Plain<const Q: usize, const AXES: usize> {
    grid: Grid<Q>,
    settings: Settings<AXES>,
}

impl<const Q: usize, const AXES: usize> Plain<Q, AXES>
where
    Grid<Q>: Lattice<Q, AXES>,
{
    #[inline(always)]
    fn flow_of(&self, f: &[i64; Q]) -> Flow<AXES> {
        Flow { rho: f.iter().sum(), j: self.grid.momentum(f) }
    }

    /// Stage 1 of an open cell.
    #[inline(always)]
    unsafe fn straight(&self, parts: &[i32], c: usize) -> [i64; Q] {
        std::array::from_fn(|k| i64::from(at(parts, self.grid.source(c, k))))
    }

    /// n·e of the cell's normal, from the old fills; a wall counts with the cell's own.
    #[inline(always)]
    unsafe fn leaning(&self, old: &Set, c: usize) -> [i64; Q] {
        let fill = |i: usize| {
            let b = self.grid.near(c, i);
            i64::from(at(old.fills, if at(old.flags, b) == WALL { c } else { b }))
        };
        self.grid.along(std::array::from_fn(|axis| fill(2 * axis + 2) - fill(2 * axis + 1)))
    }

    /// Stage 1 of any liquid cell.
    unsafe fn streamed(&self, old: &Set, c: usize) -> [i64; Q] {
        let own = own(old.parts, c);
        let flow = self.flow_of(&own);
        let dots = self.grid.along(flow.j);
        let leans = if at(old.flags, c) == INTERFACE { self.leaning(old, c) } else { [0; Q] };
        let (density, speed) = (flow.rho * flow.rho, square(flow.j));
        let mut f = own;
        for i in 1..Q {
            let (k, b) = (opposite(i), self.grid.near(c, i));
            f[k] = match at(old.flags, b) {
                WALL => own[i],
                flag if flag == EMPTY || leans[i] > 0 => {
                    let even = 2 * density + 9 * dots[i] * dots[i] - 3 * speed;
                    self.grid.weight(i) * 16_384 * even / density - own[i]
                }
                _ => i64::from(at(old.parts, Q * b + k)),
            };
        }
        f
    }

    /// Stage 2.
    unsafe fn traded(&self, old: &Set, c: usize) -> i64 {
        let fill = i64::from(at(old.fills, c));
        let mut mass = i64::from(at(old.masses, c));
        for i in 1..Q {
            let b = self.grid.near(c, i);
            let d = i64::from(at(old.parts, Q * b + opposite(i))) - i64::from(at(old.parts, Q * c + i));
            mass += match at(old.flags, b) {
                FLUID => d,
                INTERFACE => (fill + i64::from(at(old.fills, b))) * d / 131_072,
                _ => 0,
            };
        }
        mass
    }

    /// Stage 3.
    #[inline(always)]
    fn pushed(&self, f: &[i64; Q]) -> Flow<AXES> {
        let Flow { rho, j } = self.flow_of(f);
        Flow { rho, j: std::array::from_fn(|axis| j[axis] + rho * self.settings.gravity[axis] / 1_048_576) }
    }

    /// Stage 4. Opposite directions share their products.
    #[inline(always)]
    fn collided(&self, f: &[i64; Q], flow: &Flow<AXES>) -> [i64; Q] {
        let (rho, p) = (flow.rho, self.settings.p);
        let (base, dots) = (2 * rho * rho - 3 * square(flow.j), self.grid.along(flow.j));
        let mut parts = [0; Q];
        let mut rest = rho;
        for i in (1..Q).step_by(2) {
            let (even, odd) = (base + 9 * dots[i] * dots[i], 6 * rho * dots[i]);
            let relaxed = |f: i64, q: i64| f + p * (self.grid.weight(i) * q - 72 * rho * f) / (73_728 * rho);
            parts[i] = relaxed(f[i], even + odd);
            parts[i + 1] = relaxed(f[i + 1], even - odd);
            rest -= parts[i] + parts[i + 1];
        }
        parts[0] = rest;
        parts
    }

    /// Stages 1 to 4 and stage 5's tests, cell by cell. Answers whether every new liquid cell surely keeps the rules of
    /// test 8, or the cell that refusal 7 names.
    unsafe fn flowing<const LOOK: bool>(
        &self,
        old: &Set,
        new: &mut SetMut,
        marks: &mut [u8],
        changes: &mut Changes,
    ) -> Result<bool, usize> {
        let mut fair = true;
        for c in 0..self.grid.n {
            let flag = at(old.flags, c);
            if flag != FLUID && flag != INTERFACE {
                dry_out::<Q, LOOK>(new.parts, c);
                put(new.masses, c, 0);
                put(new.fills, c, 0);
                put(marks, c, NOTHING);
                continue;
            }
            let open = at(marks, c) == OPEN;
            let f = if open { self.straight(old.parts, c) } else { self.streamed(old, c) };
            let flow = self.pushed(&f);
            if !steady(&flow) {
                return Err(c);
            }
            let f = self.collided(&f, &flow);
            paste(new.parts, c, &f);
            fair &= inside(&f) & steady(&self.flow_of(&f));
            let (mut mass, mut fill, mut mark) = (flow.rho, FULL, NOTHING);
            if flag == INTERFACE {
                mass = self.traded(old, c);
                fill = fill_of(mass, flow.rho);
                fair &= mass.abs() <= MASS_LIMIT;
                if 1000 * mass > 1001 * flow.rho {
                    mark = FILLED;
                    changes.filled.push(c);
                } else if 1000 * mass < -flow.rho {
                    mark = EMPTIED;
                    changes.emptied.push(c);
                }
            }
            put(new.masses, c, mass as i32);
            put(new.fills, c, fill as u32);
            put(marks, c, mark);
        }
        Ok(fair)
    }

    /// Stage 5's parts of a new interface cell. Its neighbours' flow is worked out once more: few cells need it.
    unsafe fn born(&self, old: &Set, c: usize) -> [i64; Q] {
        let (mut count, mut rho, mut j) = (0, 0, [0; AXES]);
        for i in 1..Q {
            let b = self.grid.near(c, i);
            let flag = at(old.flags, b);
            if flag == FLUID || flag == INTERFACE {
                let flow = self.pushed(&self.streamed(old, b));
                count += 1;
                rho += flow.rho;
                j = std::array::from_fn(|axis| j[axis] + flow.j[axis]);
            }
        }
        let rho = rho / count;
        let j = j.map(|sum| sum / count);
        let (base, dots) = (2 * rho * rho - 3 * square(j), self.grid.along(j));
        let mut parts = [0; Q];
        let mut rest = rho;
        for i in 1..Q {
            let q = base + 6 * rho * dots[i] + 9 * dots[i] * dots[i];
            parts[i] = self.grid.weight(i) * q / (72 * rho);
            rest -= parts[i];
        }
        parts[0] = rest;
        parts
    }

    /// Stage 6 of one converted cell; sign is 1 for a filled one, −1 for an emptied one.
    unsafe fn give(&self, old: &Set, new: &mut SetMut, c: usize, excess: i64, sign: i64) {
        let dots = self.leaning(old, c);
        let (mut targets, mut total) = (0, 0);
        let mut weights = [0; Q];
        for i in 1..Q {
            if at(new.flags, self.grid.near(c, i)) == INTERFACE {
                targets += 1;
                weights[i] = (sign * dots[i]).max(0);
                total += weights[i];
            }
        }
        if targets == 0 {
            new.carry[0] += excess;
            return;
        }
        if total == 0 {
            total = targets;
            for (i, weight) in weights.iter_mut().enumerate().skip(1) {
                *weight = i64::from(at(new.flags, self.grid.near(c, i)) == INTERFACE);
            }
        }
        let (mut remainder, mut first) = (excess, 0);
        for i in (1..Q).rev().filter(|&i| weights[i] > 0) {
            let (b, share) = (self.grid.near(c, i), excess * weights[i] / total);
            add(new.masses, b, share as i32);
            remainder -= share;
            first = b;
        }
        add(new.masses, first, remainder as i32);
    }

    /// Stages 5 and 6, and the fills of the cells they touch. Answers as `flowing` does.
    unsafe fn converted(&self, old: &Set, new: &mut SetMut, marks: &mut [u8], mut changes: Changes) -> bool {
        let mut fair = true;
        self.grid.convert(old.flags, new.flags, marks, &mut changes);
        for &c in &changes.born {
            let f = self.born(old, c);
            fair &= inside(&f) & steady(&self.flow_of(&f));
            paste(new.parts, c, &f);
        }
        for &c in &changes.filled {
            let rho = self.flow_of(&own(new.parts, c)).rho;
            self.give(old, new, c, i64::from(at(new.masses, c)) - rho, 1);
            put(new.masses, c, rho as i32);
            put(new.fills, c, FULL as u32);
        }
        for &c in &changes.emptied {
            self.give(old, new, c, i64::from(at(new.masses, c)), -1);
            paste(new.parts, c, &[0; Q]);
            put(new.masses, c, 0);
            put(new.fills, c, 0);
        }
        // Every cell whose flag or mass has changed besides lies beside a converted one.
        for &c in changes.filled.iter().chain(&changes.emptied) {
            put(marks, c, NOTHING);
            for i in 1..Q {
                let b = self.grid.near(c, i);
                if at(new.flags, b) == INTERFACE {
                    let mass = i64::from(at(new.masses, b));
                    put(new.fills, b, fill_of(mass, self.flow_of(&own(new.parts, b)).rho) as u32);
                    fair &= mass.abs() <= MASS_LIMIT;
                }
            }
        }
        fair & (new.carry[0].abs() <= CARRY_LIMIT)
    }

    /// The place of test 6, or of test 8 in the next state.
    unsafe fn broken_place(&self, set: &Set) -> Option<usize> {
        let broken = |c: usize| {
            let f = own(set.parts, c);
            let (mass, fill) = (i64::from(at(set.masses, c)), i64::from(at(set.fills, c)));
            let flag = at(set.flags, c);
            if flag != FLUID && flag != INTERFACE {
                return f.iter().fold(mass | fill, |all, &part| all | part) != 0;
            }
            // The ranges first: what is squared after them is small.
            if !inside(&f) {
                return true;
            }
            let flow = self.flow_of(&f);
            !steady(&flow)
                || if flag == FLUID {
                    mass != flow.rho || fill != FULL
                } else {
                    mass.abs() > MASS_LIMIT || fill != fill_of(mass, flow.rho)
                }
        };
        let carry_broken = !(-CARRY_LIMIT..=CARRY_LIMIT).contains(&set.carry[0]);
        (0..self.grid.n).find(|&c| broken(c)).or(carry_broken.then_some(self.grid.n))
    }

    /// Tests 1 to 6.
    fn tested(
        sides: [usize; AXES],
        settings: Settings<AXES>,
        first: &Set,
        second: &Set,
        marks: &[u8],
    ) -> Result<Self, Answer> {
        let grid = Grid::new(sides).ok_or(Answer::refused(1, 0))?;
        if !grid.fits(first) || !grid.fits(second) || marks.len() != grid.n {
            return Err(Answer::refused(2, 0));
        }
        if !allowed(settings) {
            return Err(Answer::refused(3, 0));
        }
        let plain = Plain { grid, settings };
        let refused = |number: u8| move |place: usize| Answer::refused(number, place);
        // The lengths have been tested.
        let found = unsafe {
            let flag = plain.grid.wrong_flag(first.flags).map(refused(4));
            let open = || plain.grid.open_fluid(first.flags).map(refused(5));
            flag.or_else(open).or_else(|| plain.broken_place(first).map(refused(6)))
        };
        found.map_or(Ok(plain), Err)
    }

    unsafe fn next_state<const LOOK: bool>(&self, old: &Set, new: &mut SetMut, marks: &mut [u8]) -> Answer {
        let mut changes = Changes::default();
        self.grid.mark_open(old.flags, marks);
        let mut fair = match self.flowing::<LOOK>(old, new, marks, &mut changes) {
            Ok(fair) => fair,
            Err(place) => return Answer::refused(7, place),
        };
        new.flags.copy_from_slice(old.flags);
        new.carry.copy_from_slice(old.carry);
        if !changes.none() {
            fair &= self.converted(old, new, marks, changes);
        }
        // Only where something may be broken is the next state looked through.
        match if fair { None } else { self.broken_place(&new.as_set()) } {
            Some(place) => Answer::refused(8, place),
            None => ACCEPTED,
        }
    }

    /// The inner step: stages 1 to 7 with tests 7 and 8, without tests 1 to 6.
    ///
    /// # Safety
    /// The first set is a good state of this grid, and the second set and the marks have its lengths.
    unsafe fn inner<const LOOK: bool>(&self, first: Set, mut second: SetMut, marks: &mut [u8]) -> Answer {
        let answer = self.next_state::<LOOK>(&first, &mut second, marks);
        if answer != ACCEPTED {
            copy(&first, &mut second);
            marks.fill(NOTHING);
        }
        answer
    }
}

/// The step with all its tests.
pub fn step<const Q: usize, const AXES: usize, const LOOK: bool>(
    sides: [usize; AXES],
    settings: Settings<AXES>,
    first: Set,
    second: SetMut,
    marks: &mut [u8],
) -> Answer
where
    Grid<Q>: Lattice<Q, AXES>,
{
    match Plain::<Q, AXES>::tested(sides, settings, &first, &second.as_set(), marks) {
        // The state is good and the lengths are right: both have been tested.
        Ok(plain) => unsafe { plain.inner::<LOOK>(first, second, marks) },
        Err(answer) => answer,
    }
}

/// The run: from the first set to the second and back, tested once.
pub fn run<'a, const Q: usize, const AXES: usize, const LOOK: bool>(
    sides: [usize; AXES],
    settings: Settings<AXES>,
    steps: usize,
    mut first: SetMut<'a>,
    mut second: SetMut<'a>,
    marks: &mut [u8],
) -> Ran
where
    Grid<Q>: Lattice<Q, AXES>,
{
    if steps > MOST_STEPS {
        return Ran { count: 0, answer: Answer::refused(9, 0) };
    }
    let tested = Plain::<Q, AXES>::tested(sides, settings, &first.as_set(), &second.as_set(), marks);
    let plain = match tested {
        Ok(plain) => plain,
        Err(answer) => return Ran { count: 0, answer },
    };
    for count in 0..steps {
        // An accepted step leaves a good state, and a refused one has made the sets equal.
        let answer = unsafe { plain.inner::<LOOK>(first.as_set(), lend_again(&mut second), marks) };
        if answer != ACCEPTED {
            return Ran { count, answer };
        }
        std::mem::swap(&mut first, &mut second);
    }
    // Whichever of the two it is by now, the first holds the state reached.
    copy(&first.as_set(), &mut second);
    marks.fill(NOTHING);
    Ran { count: steps, answer: ACCEPTED }
}
