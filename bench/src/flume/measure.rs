// Times the flume's steps on one state in turns, the engines on the same buffers, then f32 on its own.

use std::time::Instant;

use oracle::Store;

use super::engine::{Engine, PLAIN};
use super::float;
use super::identical::Case;
use super::scenes::Scene;
use crate::engine::{Answer, ACCEPTED};
use crate::float::FloatStore;
use crate::measure::{Effort, Time, Way, RUN_STEPS, WARM_UP};
use crate::scenes::liquid_cells;

/// One contender's times on one scene.
pub struct Measured {
    pub scene: &'static str,
    pub sides: [usize; 2],
    pub liquid: usize,
    pub name: &'static str,
    /// The whole step with its tests.
    pub step: Time,
    /// A step of a run, which tests its state once.
    pub run: Time,
}

/// A refused step is over early: its time would say nothing.
fn expect_accepted(name: &str, answer: Answer) {
    assert!(answer == ACCEPTED, "{name}: a step that was to be timed is refused: {answer:?}");
}

fn copy(from: &Store, to: &mut Store) {
    to.flags.copy_from_slice(&from.flags);
    to.parts.copy_from_slice(&from.parts);
    to.masses.copy_from_slice(&from.masses);
    to.fills.copy_from_slice(&from.fills);
    to.carry.copy_from_slice(&from.carry);
}

/// Seconds per step of so many steps from a state.
pub fn time(engine: Engine, way: Way, steps: usize, start: &Case, case: &mut Case) -> f64 {
    copy(&start.first, &mut case.first);
    let begin = Instant::now();
    if way == Way::Run {
        expect_accepted(engine.name, case.run(engine, steps).answer);
    } else {
        for _ in 0..steps {
            expect_accepted(engine.name, case.step(engine));
            std::mem::swap(&mut case.first, &mut case.second);
        }
    }
    begin.elapsed().as_secs_f64() / steps as f64
}

fn time_float(scene: &Scene, way: Way, steps: usize, start: &FloatStore, sets: &mut [FloatStore; 2]) -> f64 {
    let grid = scene.grid();
    let mut marks = vec![0; start.flags.len()];
    let [first, second] = sets;
    first.copy_from(start);
    let begin = Instant::now();
    if way == Way::Run {
        let ran = float::run(&grid, scene.settings, steps, first, second, &mut marks);
        expect_accepted("f32", ran.answer);
    } else {
        for _ in 0..steps {
            expect_accepted("f32", float::step(&grid, scene.settings, first, second, &mut marks));
            std::mem::swap(first, second);
        }
    }
    begin.elapsed().as_secs_f64() / steps as f64
}

/// A scene after its first steps.
pub fn warm(scene: &Scene) -> Case {
    let mut case = Case::of_scene(scene);
    expect_accepted(PLAIN.name, case.run(PLAIN, WARM_UP).answer);
    case
}

/// Steps of the plain engine in these seconds; even, so that both sets are written equally often.
pub fn steps_in(seconds: f64, start: &Case) -> usize {
    let one = time(PLAIN, Way::Step, 2, start, &mut start.clone());
    2 * ((seconds / one / 2.0) as usize).clamp(1, 200)
}

/// All contenders on one scene, from the state after its first steps.
pub fn measure(scene: &Scene, engines: &[Engine], effort: Effort) -> Vec<Measured> {
    let start = warm(scene);
    let mut case = start.clone();
    let float_start = FloatStore::of(&start.first);
    let mut floats = [float_start.clone(), float_start.clone()];
    let steps = steps_in(effort.seconds, &start);
    let mut rounds = vec![[Vec::new(), Vec::new()]; engines.len() + 1];
    for _ in 0..effort.rounds {
        let ways = [(Way::Step, steps), (Way::Run, steps.max(RUN_STEPS))];
        for (at, (way, steps)) in ways.into_iter().enumerate() {
            for (engine, rounds) in engines.iter().zip(&mut rounds) {
                rounds[at].push(time(*engine, way, steps, &start, &mut case));
            }
            rounds[engines.len()][at].push(time_float(scene, way, steps, &float_start, &mut floats));
        }
    }
    let names = engines.iter().map(|engine| engine.name).chain(["f32"]);
    let liquid = liquid_cells(&start.first.flags);
    names
        .zip(rounds)
        .map(|(name, [step, run])| Measured {
            scene: scene.name,
            sides: scene.sides,
            liquid,
            name,
            step: Time::of(step),
            run: Time::of(run),
        })
        .collect()
}
