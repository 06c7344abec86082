// The two modes of the proved library: what a turbulent step of a run costs beside a plain one, and how far dam breaks come in each.

use oracle::Store;

use crate::engine::{Engine, Ran, Settings};
use crate::flume;
use crate::measure::{steps_in, Bench, Effort, Time, Way, RUN_STEPS, WARM_UP};
use crate::native::proved;
use crate::report::{load, percent, table};
use crate::scenes::{all, dam_break, liquid_cells, water};
use crate::{identical, scenes};

/// Plain, then turbulent.
const MODES: [bool; 2] = [false, true];

/// Seconds per step of a run in each mode, in turns.
fn in_turns(effort: Effort, mut time: impl FnMut(bool) -> f64) -> [Time; 2] {
    let mut rounds = [Vec::new(), Vec::new()];
    for _ in 0..effort.rounds {
        for (mode, rounds) in MODES.into_iter().zip(&mut rounds) {
            rounds.push(time(mode));
        }
    }
    rounds.map(Time::of)
}

fn cost(scene: &scenes::Scene, engine: Engine, effort: Effort) -> Vec<String> {
    let mut bench = Bench::new(scene, WARM_UP);
    let steps = steps_in(effort.seconds, &mut bench).max(RUN_STEPS);
    let times = in_turns(effort, |turbulent| {
        bench.set_mode(turbulent);
        bench.time(engine, Way::Run, steps)
    });
    let (cells, side) = (scene.store.flags.len(), scene.sides[0]);
    row(scene.name, format!("{side} x {side} x {side}"), bench.liquid(), cells, times)
}

fn flume_cost(scene: &flume::scenes::Scene, engine: flume::engine::Engine, effort: Effort) -> Vec<String> {
    let start = flume::measure::warm(scene);
    let steps = flume::measure::steps_in(effort.seconds, &start).max(RUN_STEPS);
    let mut case = start.clone();
    let times = in_turns(effort, |turbulent| {
        case.settings.turbulent = turbulent;
        flume::measure::time(engine, Way::Run, steps, &start, &mut case)
    });
    let ([nx, nz], liquid) = (scene.sides, liquid_cells(&start.first.flags));
    row(scene.name, format!("{nx} x {nz}"), liquid, nx * nz, times)
}

fn row(name: &str, size: String, liquid: usize, cells: usize, [plain, turbulent]: [Time; 2]) -> Vec<String> {
    vec![
        name.into(),
        size,
        percent(liquid as f64 / cells as f64),
        format!("{:.3}", plain.best * 1e3),
        format!("{:.3}", turbulent.best * 1e3),
        format!("{:.2}", turbulent.best / plain.best),
        percent((plain.median / plain.best).max(turbulent.median / turbulent.best) - 1.0),
    ]
}

/// Tanks at rest and dam breaks of these sides, and the flume's, where the library is linked.
pub fn costs(sides: &[usize], effort: Effort) {
    let (Some(engine), Some(flume_engine)) = (proved(), flume::engine::proved()) else { return };
    let boxes = sides.iter().flat_map(|&side| all(side).into_iter().take(2));
    let mut rows: Vec<_> = boxes.map(|scene| cost(&scene, engine, effort)).collect();
    let sections = flume::report::SECTIONS.into_iter().flat_map(flume::scenes::all);
    rows.extend(sections.map(|scene| flume_cost(&scene, flume_engine, effort)));
    println!("Modes: a step of a run in each, in milliseconds, from the same state on the same buffers in turns; load {}.\n", load());
    table(&["scene", "grid", "liquid", "plain", "turbulent", "turbulent ratio", "median above least"], &rows);
}

/// The dam breaks: relaxations, gravities, the side of the box, and the flume's section.
const RELAXATIONS: [i64; 6] = [1024, 1600, 1800, 1900, 2000, 2037];
const GRAVITIES: [i64; 4] = [50, 105, 210, 420];
const SIDE: usize = 32;
const SECTION: [usize; 2] = [256, 64];

/// How far a run came, and the refusal that stopped it; an error if water was lost.
fn reached(ran: Ran, before: &Store, after: &Store) -> Result<String, String> {
    let lost = water(before) - water(after);
    match (lost, ran.answer.number) {
        (0, 0) => Ok(ran.count.to_string()),
        (0, number) => Ok(format!("{}, {number}", ran.count)),
        _ => Err(format!("a dam break: {lost} units lost")),
    }
}

/// How far dam breaks of several speeds come in each mode, of so many steps.
pub fn dam_breaks(steps: usize) -> Result<(), String> {
    let (Some(engine), Some(flume_engine)) = (proved(), flume::engine::proved()) else { return Ok(()) };
    let mut rows = Vec::new();
    for (down, p) in GRAVITIES.into_iter().flat_map(|down| RELAXATIONS.map(|p| (down, p))) {
        let mut row = vec![down.to_string(), p.to_string()];
        for turbulent in MODES {
            let scene = dam_break(SIDE, Settings { p, gravity: [0, 0, -down], turbulent });
            let mut case = identical::Case::of_scene(&scene);
            row.push(reached(case.run(engine, steps), &scene.store, &case.first)?);
        }
        for turbulent in MODES {
            let settings = flume::Settings { p, gravity: [0, -down], turbulent };
            let scene = flume::scenes::dam_break(SECTION, settings);
            let mut case = flume::identical::Case::of_scene(&scene);
            row.push(reached(case.run(flume_engine, steps), &scene.store, &case.first)?);
        }
        rows.push(row);
    }
    let [nx, nz] = SECTION;
    println!(
        "Dam breaks, {steps} steps: how many were accepted, and the refusal that ended the rest. Box of side {SIDE}, flume of {nx} x {nz},"
    );
    println!("gravity downwards in 1,048,576ths; no unit of water was lost in any.\n");
    table(&["gravity", "p", "box, plain", "box, turbulent", "flume, plain", "flume, turbulent"], &rows);
    Ok(())
}
