// The plain step is the oracle's, bit for bit: every answer and every buffer, refused or not. A failure names its seed.

use bench::engine::Engine;
use bench::identical::{hunt, same_run, same_step, Case, Inputs, Tally, ORACLE};
use bench::native;
use bench::plain::{LOOKING, PLAIN};
use bench::scenes;

fn hunted(engine: Engine, seeds: std::ops::Range<u64>, steps: usize, inputs: Inputs) -> Tally {
    let tally = hunt(engine, seeds, steps, inputs).unwrap_or_else(|error| panic!("{}: {error}", engine.name));
    println!("{}: {tally:?}", engine.name);
    tally
}

#[test]
fn plain_is_the_oracle_on_random_states() {
    for engine in [PLAIN, LOOKING] {
        let tally = hunted(engine, 0..2500, 6, Inputs::Any);
        for (number, met) in tally.steps.iter().enumerate().take(9) {
            assert!(*met >= 20, "refusal {number} met {met} times only");
        }
    }
}

#[test]
fn plain_is_the_oracle_over_long_runs() {
    for engine in [PLAIN, LOOKING] {
        hunted(engine, 10_000..10_150, 60, Inputs::Good);
    }
}

/// Only where bench/run's library is linked: plain `cargo test` has none.
#[test]
fn the_linked_library_is_the_oracle() {
    match native::proved() {
        Some(engine) => drop(hunted(engine, 0..2500, 6, Inputs::Any)),
        None => println!("no library is linked"),
    }
}

#[test]
fn every_scene_is_good() {
    for side in [8, 32, 48, 64] {
        for scene in scenes::all(side) {
            let checked = oracle::check([side as u32; 3], scene.store.lend());
            assert_eq!(checked, Ok(()), "{}, side {side}", scene.name);
        }
    }
}

/// Far enough for the dam to fall, for cells to fill and to empty; then the whole run in one.
#[test]
fn plain_is_the_oracle_on_the_scenes() {
    for scene in scenes::all(16) {
        let start = Case::of_scene(&scene);
        let mut case = start.clone();
        for step in 0..150 {
            let (_, after) = same_step(PLAIN, ORACLE, &case)
                .unwrap_or_else(|error| panic!("{}, step {step}: {error}", scene.name));
            case = Case::of(scene.sides, scene.settings, &after.second);
        }
        let (ran, after) =
            same_run(PLAIN, ORACLE, &start, 150).unwrap_or_else(|error| panic!("{}: {error}", scene.name));
        assert_eq!(ran.count, 150, "{}", scene.name);
        assert_eq!(after.first, case.first, "{}: a run and as many steps", scene.name);
    }
}
