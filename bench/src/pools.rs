// What the question "one pool or three?" costs: beside a step with its tests on the same state, over the liquid cells of a box, and for the shapes
// that a flood might dread: a snake one cell wide, lone cells, every cell.

use std::time::Instant;

use oracle::ponds;
use oracle::random::Random;
use oracle::Store;

use crate::engine::Engine;
use crate::measure::{steps_in, Bench, Effort, Time, Way};
use crate::native::Pools;
use crate::scenes::{liquid_cells, tank_at_rest};

/// The question on one state.
pub struct Asked {
    pub scene: &'static str,
    pub side: usize,
    pub liquid: usize,
    pub pools: usize,
    pub call: Time,
    /// A step of the proved library from the same state, where one was timed beside it.
    pub step: Option<Time>,
}

/// What is lent beside a set with three totals.
struct Lent {
    sides: [usize; 3],
    set: Store,
    counts: Vec<u32>,
    waters: Vec<i64>,
    marks: Vec<u16>,
    work: Vec<u32>,
}

impl Lent {
    fn new(sides: [usize; 3], mut set: Store) -> Lent {
        set.carry.resize(3, 0);
        let n = set.flags.len();
        let (counts, waters) = (vec![0; n / 4], vec![0; n / 4]);
        Lent { sides, set, counts, waters, marks: vec![0; n], work: vec![0; n] }
    }

    /// How many pools, and the seconds of a call, over so many calls.
    fn time(&mut self, pools: Pools, calls: usize) -> (usize, f64) {
        let Lent { sides, set, counts, waters, marks, work } = self;
        let begin = Instant::now();
        let mut found = 0;
        for _ in 0..calls {
            found = pools(*sides, set.lend(), counts, waters, marks, work).expect("a good state");
        }
        (found, begin.elapsed().as_secs_f64() / calls as f64)
    }
}

/// The call alone.
fn asked(pools: Pools, scene: &'static str, side: usize, set: Store, effort: Effort) -> Asked {
    let liquid = liquid_cells(&set.flags);
    let mut lent = Lent::new([side; 3], set);
    let (found, once) = lent.time(pools, 2);
    let calls = (effort.seconds / once).clamp(1.0, 200.0) as usize;
    let rounds = (0..effort.rounds).map(|_| lent.time(pools, calls).1);
    Asked { scene, side, liquid, pools: found, call: Time::of(rounds.collect()), step: None }
}

/// A tank at rest, the call and the step in turns.
fn beside_step(pools: Pools, engine: Engine, side: usize, depth: usize, effort: Effort) -> Asked {
    let scene = tank_at_rest(side, depth);
    let mut bench = Bench::new(&scene, 0);
    let mut lent = Lent::new([side; 3], scene.store.clone());
    let steps = steps_in(effort.seconds, &mut bench);
    let (mut calls, mut times, mut found) = (Vec::new(), Vec::new(), 0);
    for _ in 0..effort.rounds {
        times.push(bench.time(engine, Way::Step, steps));
        let (number, seconds) = lent.time(pools, steps);
        calls.push(seconds);
        found = number;
    }
    let liquid = liquid_cells(&scene.store.flags);
    Asked {
        scene: scene.name,
        side,
        liquid,
        pools: found,
        call: Time::of(calls),
        step: Some(Time::of(times)),
    }
}

/// Sixteenths of the height that the tanks are filled to.
const SHARES: [usize; 6] = [1, 2, 4, 8, 12, 15];

/// Tanks of one side by their depth, each beside its step.
pub fn tanks(pools: Pools, engine: Engine, side: usize, effort: Effort) -> Vec<Asked> {
    let depth = |share: usize| (side - 2) * share / 16;
    SHARES.iter().map(|&share| beside_step(pools, engine, side, depth(share), effort)).collect()
}

/// The shapes of a side.
pub fn shapes(pools: Pools, side: usize, effort: Effort) -> Vec<Asked> {
    let random = &mut Random::new(side as u64);
    let sides = [side as u32; 3];
    let scenes = [
        ("a snake one cell wide", ponds::snake(sides, random)),
        ("lone cells, packed densest", ponds::densest(sides, random)),
        ("every cell", ponds::full(sides, random)),
    ];
    scenes
        .into_iter()
        .map(|(name, scene)| asked(pools, name, side, Store::of(&scene.state), effort))
        .collect()
}
