// The flume's part of the benchmark: held to be identical, its water counted, its steps timed, and what is printed of it.

use super::engine::{proved, Engine, LOOKING, PLAIN};
use super::float;
use super::identical::{hunt, same_run, same_step, Case, ORACLE};
use super::measure::{measure, Measured};
use super::scenes::{self, Scene};
use super::Settings;
use crate::engine::ACCEPTED;
use crate::float::FloatStore;
use crate::measure::{Effort, Time, WARM_UP};
use crate::report::{in_both_modes, load, percent, rate, table};
use crate::scenes::water;

/// Sections that are timed.
pub const SECTIONS: [[usize; 2]; 2] = [[256, 64], [512, 512]];
/// Steps of each random state.
const RANDOM_STEPS: usize = 6;

fn named(scene: &Scene) -> String {
    format!("{}, {} x {}", scene.name, scene.sides[0], scene.sides[1])
}

/// Each engine and the oracle: the scene's first step, and the step from the state that is timed.
fn compare_scene(engines: &[Engine], scene: &Scene) -> Result<(), String> {
    let start = Case::of_scene(scene);
    let mut warm = start.clone();
    let ran = warm.run(PLAIN, WARM_UP);
    if ran.answer != ACCEPTED {
        return Err(format!("refused before it can be timed: {ran:?}"));
    }
    for &engine in engines {
        for case in [&start, &Case::of(scene.sides, scene.settings, &warm.first)] {
            same_step(engine, ORACLE, case)?;
            if engine.turbulent {
                let settings = Settings { turbulent: true, ..scene.settings };
                same_step(engine, ORACLE, &Case { settings, ..case.clone() })?;
            }
        }
    }
    Ok(())
}

/// A row of the water's table: what is left after so many steps in whole numbers, the engines held to each other, and in f32.
fn count_water(engines: &[Engine], scene: &Scene, steps: usize) -> Result<Vec<String>, String> {
    let (first, start) = (engines[0], Case::of_scene(scene));
    let (mut ran, mut after) = same_run(first, engines[1], &start, steps)?;
    for &other in &engines[2..] {
        (ran, after) = same_run(first, other, &start, steps)?;
    }
    let (start, lost) = (water(&scene.store), water(&scene.store) - water(&after.first));
    if lost != 0 {
        return Err(format!("{lost} units lost"));
    }
    let mut float = FloatStore::of(&scene.store);
    let (float_start, mut second) = (float.total(), float.clone());
    let mut marks = vec![0; float.flags.len()];
    let float_ran = float::run(&scene.grid(), scene.settings, steps, &mut float, &mut second, &mut marks);
    let float_lost = float_start - float.total();
    Ok(vec![
        scene.name.into(),
        format!("{} x {}", scene.sides[0], scene.sides[1]),
        ran.count.to_string(),
        start.to_string(),
        lost.to_string(),
        float_ran.count.to_string(),
        format!("{:.0}", float_lost * 589_824.0),
        format!("{:.3}", 1e6 * float_lost / float_start),
    ])
}

/// Speeds of every scene, and ratios to the plain engine's times.
fn speeds(measured: &[Measured]) {
    let heading = [
        "scene",
        "section",
        "liquid",
        "who",
        "step, all",
        "step, liquid",
        "run, all",
        "run, liquid",
        "step ratio",
        "run ratio",
    ];
    let of_plain = |row: &Measured| {
        let same =
            |other: &&Measured| (other.scene, other.sides, other.name) == (row.scene, row.sides, PLAIN.name);
        measured.iter().find(same).expect("the plain step is timed on every scene")
    };
    let row = |row: &Measured| {
        let ratio = |of: fn(&Measured) -> Time| format!("{:.2}", of(row).best / of(of_plain(row)).best);
        let cells = row.sides[0] * row.sides[1];
        vec![
            row.scene.into(),
            format!("{} x {}", row.sides[0], row.sides[1]),
            percent(row.liquid as f64 / cells as f64),
            row.name.into(),
            rate(cells, row.step.best),
            rate(row.liquid, row.step.best),
            rate(cells, row.run.best),
            rate(row.liquid, row.run.best),
            ratio(|row| row.step),
            ratio(|row| row.run),
        ]
    };
    println!("Speed of the flume, as in the table of the box: ratios are times over the plain step's, below 1 is faster.\n");
    table(&heading, &measured.iter().map(row).collect::<Vec<_>>());
    let times = measured.iter().flat_map(|row| [row.step, row.run]);
    let worst = times.map(|time| time.median / time.best).fold(1.0, f64::max);
    println!(
        "The least time of each row's rounds; the median lies at most {} above it. Load now {}.\n",
        percent(worst - 1.0),
        load()
    );
}

/// All of it: what is not identical, or loses a unit, is an error.
pub fn flume(effort: Effort, seeds: u64, steps: usize) -> Result<(), String> {
    let engines: Vec<Engine> = proved().into_iter().chain([PLAIN, LOOKING]).collect();
    for &engine in &engines {
        let [accepted, refused] = hunt(engine, seeds, RANDOM_STEPS)?;
        println!(
            "identical   the flume, {} and the oracle: {accepted} random steps accepted, {refused} refused{}",
            engine.name,
            in_both_modes(engine.turbulent)
        );
    }
    let all: Vec<Scene> = SECTIONS.into_iter().flat_map(scenes::all).collect();
    let mut rows = Vec::new();
    for scene in &all {
        let told = |error: String| format!("{}: {error}", named(scene));
        compare_scene(&engines, scene).map_err(told)?;
        rows.push(count_water(&engines, scene, steps).map_err(told)?);
    }
    println!("identical   each of them and the oracle: every scene's first step, and its step from the state that is timed\n");
    println!("Water of the flume: the total with the carry in whole units, and what of it is lost; what f32 loses in the same units and in");
    println!("millionths of the total. Below 0 water was made.\n");
    let heading =
        ["scene", "section", "steps", "total", "lost", "f32 steps", "f32 lost, in units", "per million"];
    table(&heading, &rows);
    let measured: Vec<Measured> = all.iter().flat_map(|scene| measure(scene, &engines, effort)).collect();
    speeds(&measured);
    Ok(())
}
