// Times the steps on one state in turns, so that whatever else the machine does falls on all of them alike.

use std::time::Instant;

use oracle::HeldStore;

use crate::engine::{Answer, Engine, Settings, ACCEPTED};
use crate::float::{FloatEngine, FloatStore};
use crate::lattice::{Grid, Lattice};
use crate::plain::PLAIN;
use crate::scenes::{liquid_cells, Scene};

/// Steps before a state is timed: by then the dam falls, and the first waves have run through the tank.
pub const WARM_UP: usize = 200;

/// How long to measure.
#[derive(Clone, Copy)]
pub struct Effort {
    /// Each contender is timed so often, in turns.
    pub rounds: usize,
    /// Seconds that the plain step is given in one round; the others make as many steps.
    pub seconds: f64,
}

/// Seconds per step: the least of all rounds, and their median to show how much the machine disturbed.
#[derive(Clone, Copy)]
pub struct Time {
    pub best: f64,
    pub median: f64,
}

/// One contender's times on one scene.
pub struct Measured {
    pub scene: &'static str,
    pub side: usize,
    pub cells: usize,
    pub liquid: usize,
    pub name: &'static str,
    /// The whole step with its tests.
    pub step: Time,
    /// A step of a run, which tests its state once.
    pub run: Time,
}

#[derive(Clone, Copy, PartialEq, Eq)]
pub enum Way {
    Step,
    Run,
}

/// The buffers that all contenders in whole numbers share, and the state that each begins from.
pub struct Bench {
    sides: [usize; 3],
    settings: Settings,
    start: HeldStore,
    first: HeldStore,
    second: HeldStore,
    marks: Vec<u8>,
}

/// The same in f32.
pub struct FloatBench {
    grid: Grid,
    settings: Settings,
    start: FloatStore,
    first: FloatStore,
    second: FloatStore,
    marks: Vec<u8>,
}

fn copy(from: &HeldStore, to: &mut HeldStore) {
    to.index.words.copy_from_slice(&from.index.words);
    to.index.count.copy_from_slice(&from.index.count);
    let (from, to) = (&from.set, &mut to.set);
    to.flags.copy_from_slice(&from.flags);
    to.parts.copy_from_slice(&from.parts);
    to.masses.copy_from_slice(&from.masses);
    to.fills.copy_from_slice(&from.fills);
    to.carry.copy_from_slice(&from.carry);
}

/// A refused step is over early: its time would say nothing.
fn expect_accepted(name: &str, answer: Answer) {
    assert!(answer == ACCEPTED, "{name}: a step that was to be timed is refused: {answer:?}");
}

impl Bench {
    /// The scene's own state, or that after so many steps.
    pub fn new(scene: &Scene, warm_up: usize) -> Bench {
        let start = HeldStore::of(scene.store.clone());
        let marks = vec![0; scene.store.flags.len()];
        let (sides, settings) = (scene.sides, scene.settings);
        let mut bench = Bench { sides, settings, first: start.clone(), second: start.clone(), start, marks };
        bench.go(PLAIN, Way::Run, warm_up);
        bench.start = HeldStore::of(bench.first.set.clone());
        bench
    }

    /// The state that is timed, as an engine leaves it with its index.
    pub fn reached(scene: &Scene, engine: Engine) -> HeldStore {
        let start = HeldStore::of(scene.store.clone());
        let marks = vec![0; scene.store.flags.len()];
        let (sides, settings) = (scene.sides, scene.settings);
        let mut bench = Bench { sides, settings, first: start.clone(), second: start.clone(), start, marks };
        bench.go(engine, Way::Run, WARM_UP);
        bench.first
    }

    /// Steps from now on in this mode.
    pub fn set_mode(&mut self, turbulent: bool) {
        self.settings.turbulent = turbulent;
    }

    /// Liquid cells of the state that is timed.
    pub fn liquid(&self) -> usize {
        liquid_cells(&self.start.set.flags)
    }

    /// Seconds per step of so many steps from the start.
    pub fn time(&mut self, engine: Engine, way: Way, steps: usize) -> f64 {
        copy(&self.start, &mut self.first);
        let begin = Instant::now();
        self.go(engine, way, steps);
        begin.elapsed().as_secs_f64() / steps as f64
    }

    fn go(&mut self, engine: Engine, way: Way, steps: usize) {
        let Bench { sides, settings, first, second, marks, .. } = self;
        if way == Way::Run {
            let ran = (engine.run)(*sides, *settings, steps, first.lend_mut(), second.lend_mut(), marks);
            return expect_accepted(engine.name, ran.answer);
        }
        for _ in 0..steps {
            let answer = (engine.step)(*sides, *settings, first.lend(), second.lend_mut(), marks);
            expect_accepted(engine.name, answer);
            std::mem::swap(first, second);
        }
    }
}

impl FloatBench {
    pub fn new(bench: &Bench) -> FloatBench {
        let grid = Grid::new(bench.sides).expect("a scene's sides are in range");
        let start = FloatStore::laid(&grid, &bench.start.set);
        FloatBench {
            grid,
            settings: bench.settings,
            first: start.clone(),
            second: start.clone(),
            start,
            marks: bench.marks.clone(),
        }
    }

    pub fn time(&mut self, engine: FloatEngine, way: Way, steps: usize) -> f64 {
        let FloatBench { grid, settings, start, first, second, marks } = self;
        first.copy_from(start);
        let begin = Instant::now();
        if way == Way::Run {
            let ran = (engine.run)(grid, *settings, steps, first, second, marks);
            expect_accepted(engine.name, ran.answer);
        } else {
            for _ in 0..steps {
                expect_accepted(engine.name, (engine.step)(grid, *settings, first, second, marks));
                std::mem::swap(first, second);
            }
        }
        begin.elapsed().as_secs_f64() / steps as f64
    }
}

impl Time {
    pub fn of(mut rounds: Vec<f64>) -> Time {
        rounds.sort_by(f64::total_cmp);
        Time { best: rounds[0], median: rounds[rounds.len() / 2] }
    }
}

/// How many steps the plain engine makes in these seconds; even, so that both sets are written equally often.
pub fn steps_in(seconds: f64, bench: &mut Bench) -> usize {
    let step = bench.time(PLAIN, Way::Step, 2);
    2 * ((seconds / step / 2.0) as usize).clamp(1, 200)
}

/// Steps of a run that is timed, at least: a run tests its state once and evens its sets once, which a host that asks for few steps pays more often.
pub(crate) const RUN_STEPS: usize = 100;

/// All contenders on one scene, in turns: the engines on the same buffers, then f32 on its own.
pub fn measure(scene: &Scene, engines: &[Engine], floats: &[FloatEngine], effort: Effort) -> Vec<Measured> {
    let mut bench = Bench::new(scene, WARM_UP);
    let mut float = FloatBench::new(&bench);
    let steps = steps_in(effort.seconds, &mut bench);
    let mut rounds = vec![[Vec::new(), Vec::new()]; engines.len() + floats.len()];
    for _ in 0..effort.rounds {
        let ways = [(Way::Step, steps), (Way::Run, steps.max(RUN_STEPS))];
        for (at, (way, steps)) in ways.into_iter().enumerate() {
            for (engine, rounds) in engines.iter().zip(&mut rounds) {
                rounds[at].push(bench.time(*engine, way, steps));
            }
            for (engine, rounds) in floats.iter().zip(&mut rounds[engines.len()..]) {
                rounds[at].push(float.time(*engine, way, steps));
            }
        }
    }
    let names = engines.iter().map(|engine| engine.name).chain(floats.iter().map(|engine| engine.name));
    let liquid = bench.liquid();
    names
        .zip(rounds)
        .map(|(name, [step, run])| Measured {
            scene: scene.name,
            side: scene.sides[0],
            cells: bench.start.set.flags.len(),
            liquid,
            name,
            step: Time::of(step),
            run: Time::of(run),
        })
        .collect()
}
