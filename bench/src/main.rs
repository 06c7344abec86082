// The benchmark: the proved step beside the plain one and f32, held to be identical first, then timed in one run.

use std::process::ExitCode;

use bench::beside;
use bench::engine::{Engine, Settings, ACCEPTED};
use bench::float::{FloatStore, FOUR, SINGLE};
use bench::flume;
use bench::growth;
use bench::heights;
use bench::identical::{hunt, same_run, same_step, Case, Inputs, ORACLE};
use bench::measure::{measure, Effort, WARM_UP};
use bench::modes;
use bench::native;
use bench::plain::{LOOKING, PLAIN};
use bench::pools;
use bench::report::{self, Totals};
use bench::scenes::{self, water, Scene};
use bench::sweep;

const USAGE: &str = "bench [--quick] [--pools] [--heights] [--flume] [--modes] [--sides A,B,..]
bench --record FILE STEPS
  --quick   little of everything, to see that it works: its times say nothing
  --pools   the pools alone, at the largest side
  --heights the height grids alone
  --flume   the flume alone
  --modes   the two modes alone: what a turbulent step costs, and how far dam breaks come in each
  --sides   of the cubes, 8 to 64; 32,48,64 if not said
  --record  the water of a record after so many plain steps, by the library and in f32; nothing else";

struct Wish {
    sides: Vec<usize>,
    effort: Effort,
    /// Random states on which each engine is held to the oracle.
    seeds: u64,
    /// Steps after which the water is counted.
    steps: usize,
    growth_sides: Vec<usize>,
    /// Sides at which the surface is swept.
    sweep_sides: Vec<usize>,
    pools_alone: bool,
    heights_alone: bool,
    flume_alone: bool,
    modes_alone: bool,
}

fn wish(mut words: impl Iterator<Item = String>) -> Result<Wish, String> {
    let mut wish = Wish {
        sides: vec![32, 48, 64],
        effort: Effort { rounds: 7, seconds: 0.3 },
        seeds: 500,
        steps: 1000,
        growth_sides: vec![24, 32, 40, 48, 56, 64],
        sweep_sides: vec![32, 64],
        pools_alone: false,
        heights_alone: false,
        flume_alone: false,
        modes_alone: false,
    };
    while let Some(word) = words.next() {
        match word.as_str() {
            "--quick" => {
                wish.effort = Effort { rounds: 2, seconds: 0.02 };
                (wish.seeds, wish.steps) = (50, 50);
                (wish.sides, wish.growth_sides) = (vec![32], vec![16, 24, 32]);
                wish.sweep_sides = vec![32];
            }
            "--pools" => wish.pools_alone = true,
            "--heights" => wish.heights_alone = true,
            "--flume" => wish.flume_alone = true,
            "--modes" => wish.modes_alone = true,
            "--sides" => {
                let given = words.next().unwrap_or_default();
                let side = |text: &str| text.parse().ok().filter(|side| (8..=64).contains(side));
                let sides: Option<Vec<usize>> = given.split(',').map(side).collect();
                wish.sides = sides.ok_or(format!("--sides: '{given}' is no list of sides\n{USAGE}"))?;
            }
            _ => return Err(format!("'{word}'?\n{USAGE}")),
        }
    }
    Ok(wish)
}

/// Holds the engines to the oracle on random states.
fn compare_random(engines: &[Engine], seeds: u64) -> Result<(), String> {
    for &engine in engines {
        let tally = hunt(engine, 0..seeds, 6, Inputs::Any)?;
        println!(
            "identical   {} and the oracle: {} random steps accepted, {} refused, {} runs{}",
            engine.name,
            tally.steps[0],
            tally.refused(),
            tally.runs,
            report::in_both_modes(engine.turbulent)
        );
    }
    Ok(())
}

/// Holds the engines to the oracle on a scene's first step, and on the step from the state that is timed.
fn compare_scene(engines: &[Engine], scene: &Scene) -> Result<(), String> {
    let start = Case::of_scene(scene);
    let mut warm = start.clone();
    let ran = warm.run(PLAIN, WARM_UP);
    if ran.answer != ACCEPTED {
        return Err(format!("refused before it can be timed: {ran:?}"));
    }
    for &engine in engines {
        for case in [&start, &Case::of(scene.sides, scene.settings, &warm.first)] {
            same_step(engine, ORACLE, case)?;
            if engine.turbulent {
                let settings = Settings { turbulent: true, ..scene.settings };
                same_step(engine, ORACLE, &Case { settings, ..case.clone() })?;
            }
        }
    }
    Ok(())
}

/// Runs a scene in whole numbers, the engines held to each other, and in f32: what water is left.
fn count_water(engines: &[Engine], scene: &Scene, steps: usize) -> Result<Totals, String> {
    let start = Case::of_scene(scene);
    let first = engines[0];
    let (mut ran, mut after) = same_run(first, engines[1], &start, steps)?;
    for &other in &engines[2..] {
        (ran, after) = same_run(first, other, &start, steps)?;
    }
    let mut float = FloatStore::laid(&scene.grid(), &scene.store);
    let float_start = float.total();
    let mut second = float.clone();
    let mut marks = vec![0; float.flags.len()];
    let float_ran = (FOUR.run)(&scene.grid(), scene.settings, steps, &mut float, &mut second, &mut marks);
    Ok(Totals {
        scene: scene.name,
        side: scene.sides[0],
        start: water(&scene.store),
        steps: ran.count,
        lost: water(&scene.store) - water(&after.first),
        float_steps: float_ran.count,
        float_start,
        float_lost: float_start - float.total(),
    })
}

/// The pools, where the library is linked.
fn measure_pools(wish: &Wish) {
    let side = wish.sides.iter().copied().max().unwrap_or(64);
    if let (Some(pools), Some(engine)) = (native::pools(), native::proved()) {
        let tanks = pools::tanks(pools, engine, side, wish.effort);
        report::pools(&tanks, &pools::shapes(pools, side, wish.effort));
    }
}

/// The height grids, where the library is linked.
fn measure_heights(wish: &Wish) {
    if let Some(calls) = native::heights() {
        report::heights(&heights::measure(calls, wish.effort));
    }
}

/// What a turbulent step costs, where the library is linked.
fn measure_modes(wish: &Wish) {
    modes::costs(&wish.sides, wish.effort);
}

fn names(engines: &[Engine]) -> String {
    engines.iter().map(|engine| engine.name).collect::<Vec<_>>().join("; ")
}

fn bench(wish: &Wish) -> Result<(), String> {
    let proved = native::proved();
    report::machine(proved);
    if wish.pools_alone || wish.heights_alone || wish.flume_alone || wish.modes_alone {
        if wish.pools_alone {
            measure_pools(wish);
        }
        if wish.heights_alone {
            measure_heights(wish);
        }
        if wish.flume_alone {
            flume::report::flume(wish.effort, wish.seeds, wish.steps)?;
        }
        if wish.modes_alone {
            measure_modes(wish);
            modes::dam_breaks(wish.steps)?;
        }
        return Ok(());
    }
    let engines: Vec<Engine> = proved.into_iter().chain([PLAIN, LOOKING]).collect();
    let floats = [SINGLE, FOUR];

    compare_random(&engines, wish.seeds)?;
    let all: Vec<Scene> = wish.sides.iter().flat_map(|&side| scenes::all(side)).collect();
    let mut totals = Vec::new();
    for scene in &all {
        let named = |error: String| format!("{}, side {}: {error}", scene.name, scene.sides[0]);
        compare_scene(&engines, scene).map_err(named)?;
        totals.push(count_water(&engines, scene, wish.steps).map_err(named)?);
    }
    println!("identical   each of them and the oracle: every scene's first step, and its step from the state that is timed");
    println!("identical   {}: every buffer after the runs below", names(&engines));
    println!();
    report::totals(&totals);

    let measured: Vec<_> =
        all.iter().flat_map(|scene| measure(scene, &engines, &floats, wish.effort)).collect();
    report::speeds(&measured);
    report::ratios(&measured, engines[0].name);

    if let (Some(engine), Some(sweep)) = (proved, native::sweep()) {
        report::sweeps(&sweep::measure(engine, sweep, &wish.sweep_sides, wish.effort)?);
    }

    let two: Vec<Engine> = proved.into_iter().chain([PLAIN]).collect();
    let largest = wish.growth_sides[wish.growth_sides.len() - 1];
    let over_cells = growth::over_cells(&two, &wish.growth_sides, wish.effort);
    let over_share = growth::over_share(&two, largest, wish.effort);
    report::growth(&two, &over_cells, &over_share);
    measure_pools(wish);
    measure_heights(wish);
    flume::report::flume(wish.effort, wish.seeds, wish.steps)?;
    measure_modes(wish);

    match totals.iter().find(|row| row.lost != 0) {
        Some(row) => Err(format!("{}, side {}: {} units lost", row.scene, row.side, row.lost)),
        None => Ok(()),
    }
}

/// The water of a record by the library and in f32.
fn record(words: &[String]) -> Result<(), String> {
    let [_, file, steps] = words else { return Err(format!("--record?\n{USAGE}")) };
    let steps = steps.parse().map_err(|_| format!("--record: '{steps}' is no number of steps\n{USAGE}"))?;
    let bytes = std::fs::read(file).map_err(|error| format!("{file}: {error}"))?;
    beside::tell(&bytes, steps).map_err(|error| format!("{file}: {error}"))
}

fn main() -> ExitCode {
    let words: Vec<String> = std::env::args().skip(1).collect();
    let asked = match words.first().map(String::as_str) {
        Some("--record") => record(&words),
        _ => wish(words.into_iter()).and_then(|wish| bench(&wish)),
    };
    match asked {
        Ok(()) => ExitCode::SUCCESS,
        Err(error) => {
            eprintln!("bench: {error}");
            ExitCode::FAILURE
        }
    }
}
