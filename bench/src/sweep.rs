// A sweep of the surface by the index against a walk of the flags, on the same state.

use std::hint::black_box;
use std::time::Instant;

use oracle::index::words_of;
use oracle::state::INTERFACE;

use crate::engine::Engine;
use crate::measure::{Bench, Effort};
use crate::native::Sweep;
use crate::scenes::{self, Scene};

/// What both find in one state, and what it costs: the least time of all rounds, in seconds.
pub struct Swept {
    pub scene: &'static str,
    pub side: usize,
    pub words: usize,
    pub cells: usize,
    /// Words that the sweep read, at most `words` and `cells` together.
    pub read: usize,
    pub sweep: f64,
    pub walk: f64,
}

/// The scenes in which water moves.
fn moving(side: usize) -> impl Iterator<Item = Scene> {
    scenes::all(side).into_iter().filter(|scene| scene.name != "tank at rest")
}

fn timed(rounds: usize, mut act: impl FnMut()) -> f64 {
    let round = |_| {
        let begin = Instant::now();
        act();
        begin.elapsed().as_secs_f64()
    };
    (0..rounds).map(round).fold(f64::INFINITY, f64::min)
}

/// After so many steps of each scene; what the sweep finds is held to the walk.
pub fn measure(engine: Engine, sweep: Sweep, sides: &[usize], effort: Effort) -> Result<Vec<Swept>, String> {
    let mut rows = Vec::new();
    for scene in sides.iter().flat_map(|&side| moving(side)) {
        let held = Bench::reached(&scene, engine);
        let (flags, words) = (&held.set.flags, &held.index.words);
        let walked: Vec<usize> = (0..flags.len()).filter(|&cell| flags[cell] == INTERFACE).collect();
        let mut found = Vec::new();
        let read = sweep(scene.sides, words, &mut |cell| found.push(cell));
        if found != walked || read > words.len() + found.len() {
            return Err(format!("{}, side {}: a sweep is not the walk", scene.name, scene.sides[0]));
        }
        let rounds = 20 * effort.rounds;
        rows.push(Swept {
            scene: scene.name,
            side: scene.sides[0],
            words: words_of(flags.len()),
            cells: found.len(),
            read,
            sweep: timed(rounds, || {
                sweep(scene.sides, words, &mut |cell| {
                    black_box(cell);
                });
            }),
            walk: timed(rounds, || {
                for (cell, &flag) in black_box(flags).iter().enumerate() {
                    if flag == INTERFACE {
                        black_box(cell);
                    }
                }
            }),
        });
    }
    Ok(rows)
}
