// Holds a step of the flume to the oracle, or one step to another, on every buffer, refused or not. What differs is told with its seed.

use oracle::flume::scenes::good;
use oracle::flume::sets::store;
use oracle::{flume, Store};

use super::engine::Engine;
use super::scenes::Scene;
use super::Settings;
use crate::engine::{Answer, Ran, ACCEPTED};
use crate::identical::{numbered, relaxation};

/// A step and its inputs; sides and lengths may be wrong.
#[derive(Clone, PartialEq)]
pub struct Case {
    pub sides: [usize; 2],
    pub settings: Settings,
    pub first: Store,
    pub second: Store,
    pub marks: Vec<u8>,
}

/// The oracle, for settings that fit the record's types, as all those here do.
pub const ORACLE: Engine = Engine {
    name: "oracle",
    step: |sides, settings, first, second, marks| {
        let (sides, gravity) = (sides.map(|side| side as u32), settings.gravity.map(|g| g as i32));
        numbered(flume::step(sides, relaxation(settings), gravity, first, second, marks).err())
    },
    run: |sides, settings, steps, first, second, marks| {
        let (sides, gravity) = (sides.map(|side| side as u32), settings.gravity.map(|g| g as i32));
        let ran = flume::run(sides, relaxation(settings), gravity, steps as u32, first, second, marks);
        Ran { count: ran.count as usize, answer: numbered(ran.refusal) }
    },
    turbulent: true,
};

impl Case {
    /// The second set and the marks hold what a step must overwrite.
    pub fn of(sides: [usize; 2], settings: Settings, first: &Store) -> Case {
        let mut second = first.clone();
        second.flags.fill(7);
        second.parts.fill(-5);
        second.masses.fill(11);
        second.fills.fill(13);
        second.carry.fill(17);
        Case { sides, settings, first: first.clone(), second, marks: vec![9; first.flags.len()] }
    }

    pub fn of_scene(scene: &Scene) -> Case {
        Case::of(scene.sides, scene.settings, &scene.store)
    }

    pub fn step(&mut self, engine: Engine) -> Answer {
        let Case { sides, settings, first, second, marks } = self;
        (engine.step)(*sides, *settings, first.lend(), second.lend_mut(), marks)
    }

    pub fn run(&mut self, engine: Engine, steps: usize) -> Ran {
        let Case { sides, settings, first, second, marks } = self;
        (engine.run)(*sides, *settings, steps, first.lend_mut(), second.lend_mut(), marks)
    }
}

/// A step of two engines from one case: what both answered and left.
pub fn same_step(one: Engine, other: Engine, case: &Case) -> Result<(Answer, Case), String> {
    let (mut ours, mut theirs) = (case.clone(), case.clone());
    let (given, wanted) = (ours.step(one), theirs.step(other));
    if given != wanted {
        return Err(format!("a step of {} answers {given:?}, of {} {wanted:?}", one.name, other.name));
    }
    if ours != theirs {
        return Err(format!("a step of {} leaves other buffers than one of {}", one.name, other.name));
    }
    Ok((given, ours))
}

/// A run of two engines from one case: what both answered and left.
pub fn same_run(one: Engine, other: Engine, case: &Case, steps: usize) -> Result<(Ran, Case), String> {
    let (mut ours, mut theirs) = (case.clone(), case.clone());
    let (given, wanted) = (ours.run(one, steps), theirs.run(other, steps));
    if given != wanted || ours != theirs {
        return Err(format!("{} and {} part within {steps} steps", one.name, other.name));
    }
    Ok((given, ours))
}

/// Steps accepted and refused on random states, each stepped on while it can be, every other one in the turbulent mode if the engine has that.
pub fn hunt(engine: Engine, seeds: u64, steps: usize) -> Result<[usize; 2], String> {
    let mut met = [0; 2];
    for seed in 0..seeds {
        let scene = good(seed);
        let flume::Settings { p, gravity, .. } = scene.settings;
        let turbulent = engine.turbulent && seed % 2 == 1;
        let settings = Settings { p: p.into(), gravity: gravity.map(i64::from), turbulent };
        let sides = scene.sides.map(|side| side as usize);
        let mut case = Case::of(sides, settings, &store(&scene.state));
        for step in 0..steps {
            let named = |error: String| format!("flume seed {seed}, step {step}: {error}");
            let (answer, after) = same_step(engine, ORACLE, &case).map_err(named)?;
            met[usize::from(answer != ACCEPTED)] += 1;
            if answer != ACCEPTED {
                break;
            }
            case = Case::of(sides, settings, &after.second);
        }
    }
    Ok(met)
}
