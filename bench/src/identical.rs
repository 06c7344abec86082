// Holds a step to the oracle, or one step to another, on every buffer: answers, both sets and marks, refused or not.

use std::ops::Range;

use oracle::random::Random;
use oracle::scenes::good;
use oracle::{Held, HeldMut, IndexStore, Refusal, Relaxation, Store};

use crate::engine::{Answer, Engine, Ran, Settings, ACCEPTED};
use crate::lattice::{Grid, Lattice};
use crate::scenes::Scene;

/// A step and its inputs; sides and lengths may be wrong.
#[derive(Clone)]
pub struct Case {
    pub sides: [usize; 3],
    pub settings: Settings,
    pub first: Store,
    pub second: Store,
    pub marks: Vec<u8>,
}

/// How many of the compared steps were accepted, and how many were refused, by number.
#[derive(Clone, Debug, Default, PartialEq, Eq)]
pub struct Tally {
    pub steps: [usize; 10],
    pub runs: usize,
}

impl Tally {
    pub fn refused(&self) -> usize {
        self.steps[1..].iter().sum()
    }
}

/// What of document 01 an engine keeps.
#[derive(Clone, Copy, PartialEq, Eq)]
pub enum Inputs {
    /// Good states alone, so that the refusals met are 7 and 8.
    Good,
    /// Damaged states, wrong sides, settings and lengths as well.
    Any,
}

pub(crate) fn numbered(refusal: Option<Refusal>) -> Answer {
    refusal.map_or(ACCEPTED, |refusal| Answer::refused(refusal.number as u8, refusal.place as usize))
}

/// p and the mode as the oracle takes them.
pub(crate) fn relaxation<const AXES: usize>(settings: Settings<AXES>) -> Relaxation {
    Relaxation { p: settings.p as i32, turbulent: settings.turbulent }
}

/// The oracle's step, for settings that fit the record's types, as all those here do.
fn oracle_step(
    sides: [usize; 3],
    settings: Settings,
    first: oracle::Set,
    second: oracle::SetMut,
    marks: &mut [u8],
) -> Answer {
    let gravity = settings.gravity.map(|g| g as i32);
    let sides = sides.map(|side| side as u32);
    let answer = oracle::step(sides, relaxation(settings), gravity, first, second, marks);
    numbered(answer.err())
}

fn oracle_run(
    sides: [usize; 3],
    settings: Settings,
    steps: usize,
    first: oracle::SetMut,
    second: oracle::SetMut,
    marks: &mut [u8],
) -> Ran {
    let gravity = settings.gravity.map(|g| g as i32);
    let sides = sides.map(|side| side as u32);
    let ran = oracle::run(sides, relaxation(settings), gravity, steps as u32, first, second, marks);
    Ran { count: ran.count as usize, answer: numbered(ran.refusal) }
}

pub const ORACLE: Engine = Engine {
    name: "oracle",
    step: |sides, settings, first, second, marks| oracle_step(sides, settings, first.set, second.set, marks),
    run: |sides, settings, steps, first, second, marks| {
        oracle_run(sides, settings, steps, first.set, second.set, marks)
    },
    turbulent: true,
};

impl Case {
    /// The scene's state in the first set; the second set and the marks hold what a step must overwrite.
    pub fn of(sides: [usize; 3], settings: Settings, first: &Store) -> Case {
        let mut second = first.clone();
        second.flags.fill(7);
        second.parts.fill(-5);
        second.masses.fill(11);
        second.fills.fill(13);
        second.carry.fill(17);
        Case { sides, settings, first: first.clone(), second, marks: vec![9; first.flags.len()] }
    }

    pub fn of_scene(scene: &Scene) -> Case {
        Case::of(scene.sides, scene.settings, &scene.store)
    }

    /// The first set's own, and one to be written: what an engine makes of them, compare/ looks at.
    fn indexes(&self) -> [IndexStore; 2] {
        let index = IndexStore::of(&self.first.flags);
        [index.clone(), index]
    }

    pub fn step(&mut self, engine: Engine) -> Answer {
        let [index, mut other] = self.indexes();
        let first = Held { set: self.first.lend(), index: index.lend() };
        let second = HeldMut { set: self.second.lend_mut(), index: other.lend_mut() };
        (engine.step)(self.sides, self.settings, first, second, &mut self.marks)
    }

    pub fn run(&mut self, engine: Engine, steps: usize) -> Ran {
        let [mut index, mut other] = self.indexes();
        let first = HeldMut { set: self.first.lend_mut(), index: index.lend_mut() };
        let second = HeldMut { set: self.second.lend_mut(), index: other.lend_mut() };
        (engine.run)(self.sides, self.settings, steps, first, second, &mut self.marks)
    }

    /// The first buffer in which two cases differ.
    pub fn difference(&self, other: &Case) -> Option<String> {
        fn apart<T: PartialEq + std::fmt::Debug>(name: &str, a: &[T], b: &[T]) -> Option<String> {
            if a.len() != b.len() {
                return Some(format!("{name}: lengths {} and {}", a.len(), b.len()));
            }
            let i = a.iter().zip(b).position(|(a, b)| a != b)?;
            Some(format!("{name}[{i}]: {:?} and {:?}", a[i], b[i]))
        }
        let sets = [("first", &self.first, &other.first), ("second", &self.second, &other.second)];
        let differs = sets.into_iter().find_map(|(name, a, b)| {
            apart(&format!("{name} flags"), &a.flags, &b.flags)
                .or_else(|| apart(&format!("{name} parts"), &a.parts, &b.parts))
                .or_else(|| apart(&format!("{name} masses"), &a.masses, &b.masses))
                .or_else(|| apart(&format!("{name} fills"), &a.fills, &b.fills))
                .or_else(|| apart(&format!("{name} carry"), &a.carry, &b.carry))
        });
        differs.or_else(|| apart("marks", &self.marks, &other.marks))
    }
}

/// One step of each from the same case; the answer and the buffers they agree on.
pub fn same_step(a: Engine, b: Engine, case: &Case) -> Result<(Answer, Case), String> {
    let (mut one, mut two) = (case.clone(), case.clone());
    let (answer, other) = (one.step(a), two.step(b));
    if answer != other {
        return Err(format!("step: {} answers {answer:?}, {} answers {other:?}", a.name, b.name));
    }
    match one.difference(&two) {
        Some(difference) => Err(format!("step: {} and {} differ, {difference}", a.name, b.name)),
        None => Ok((answer, one)),
    }
}

/// One run of each from the same case.
pub fn same_run(a: Engine, b: Engine, case: &Case, steps: usize) -> Result<(Ran, Case), String> {
    let (mut one, mut two) = (case.clone(), case.clone());
    let (ran, other) = (one.run(a, steps), two.run(b, steps));
    if ran != other {
        return Err(format!("run of {steps}: {} answers {ran:?}, {} answers {other:?}", a.name, b.name));
    }
    match one.difference(&two) {
        Some(difference) => Err(format!("run of {steps}: {} and {} differ, {difference}", a.name, b.name)),
        None => Ok((ran, one)),
    }
}

/// Holds an engine to the oracle on the states of these seeds, every other one in the turbulent mode if it has that: up to
/// `steps` steps in a row from each and the run of as many; and, where any input is allowed, a damaged copy. The message
/// names the seed.
pub fn hunt(engine: Engine, seeds: Range<u64>, steps: usize, inputs: Inputs) -> Result<Tally, String> {
    let mut tally = Tally::default();
    for seed in seeds {
        let with_seed = |error: String| format!("seed {seed}: {error}");
        let scene = good(seed);
        let oracle::Settings { p, gravity, .. } = scene.settings;
        let turbulent = engine.turbulent && seed % 2 == 1;
        let settings = Settings { p: p.into(), gravity: gravity.map(i64::from), turbulent };
        let start = Case::of(scene.sides.map(|side| side as usize), settings, &Store::of(&scene.state));

        let mut case = start.clone();
        for _ in 0..steps {
            let (answer, after) = same_step(engine, ORACLE, &case).map_err(with_seed)?;
            tally.steps[answer.number as usize] += 1;
            if answer != ACCEPTED {
                break;
            }
            case = Case::of(case.sides, case.settings, &after.second);
        }
        same_run(engine, ORACLE, &start, seed as usize % (steps + 1)).map_err(with_seed)?;
        tally.runs += 1;

        if inputs == Inputs::Any {
            let mut case = start;
            damage(&mut Random::new(!seed), &mut case);
            let (answer, _) = same_step(engine, ORACLE, &case).map_err(with_seed)?;
            tally.steps[answer.number as usize] += 1;
            let too_many = if seed % 7 == 0 { 1001 } else { 2 };
            same_run(engine, ORACLE, &case, too_many).map_err(with_seed)?;
            tally.runs += 1;
        }
    }
    Ok(tally)
}

/// Changes a few numbers of a case, anywhere and by little or much.
fn damage(random: &mut Random, case: &mut Case) {
    let n = case.first.flags.len();
    let grid = Grid::new(case.sides);
    while {
        let c = random.below(n);
        let past = [1, -1, 2, i32::MAX / 40, i32::MIN / 40];
        match random.below(16) {
            0 => case.sides[random.below(3)] = random.pick(&[0, 2, 129, 5, 1 << 20]),
            1 => case.settings.p = random.pick(&[0, 2038, -1, 1]),
            2 => case.settings.gravity = random.pick(&[[35, 0, -1048], [1049, 0, 0], [0, -2_000_000_000, 0]]),
            3 => case.first.flags[c] = random.below(6) as u8,
            4 | 5 => {
                // A cell inside the outer layer: fluid beside empty, or water without parts.
                let inside = grid.as_ref().map_or(c, |grid| {
                    let [x, y, z] = grid.sides.map(|side| 1 + random.below(side - 2));
                    x + grid.sides[0] * (y + grid.sides[1] * z)
                });
                case.first.flags[inside.min(n - 1)] = random.below(4) as u8;
            }
            6 | 7 => {
                let part = &mut case.first.parts[19 * c + random.below(19)];
                *part = part.wrapping_add(random.pick(&past));
            }
            8 => case.first.parts[19 * c + random.below(19)] = random.bits() as i32,
            9 | 10 => case.first.masses[c] = case.first.masses[c].wrapping_add(random.pick(&past)),
            11 => case.first.masses[c] = random.bits() as i32,
            12 => case.first.fills[c] ^= 1 << random.below(32),
            13 => case.first.carry[0] = random.pick(&[1_000_000_000_001, -1_000_000_000_001, i64::MIN]),
            14 => {
                case.second.parts.pop();
            }
            _ => case.marks.push(0),
        }
        random.percent(40)
    } {}
}
