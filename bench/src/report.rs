// What is printed: machine and compilers, then tables whose ratios are times over the plain step's time.

use std::fs;
use std::process::Command;

use crate::engine::Engine;
use crate::growth::{line, linear, power, Point};
use crate::heights::Timed;
use crate::measure::{Measured, Time};
use crate::plain::PLAIN;
use crate::pools::Asked;
use crate::sweep::Swept;

/// One scene's water before and after its run.
pub struct Totals {
    pub scene: &'static str,
    pub side: usize,
    /// In whole units, with the carry.
    pub start: i128,
    pub steps: usize,
    pub lost: i128,
    pub float_steps: usize,
    /// In cells of density 1.
    pub float_start: f64,
    pub float_lost: f64,
}

/// What is said behind a comparison that went through both modes.
pub fn in_both_modes(both: bool) -> &'static str {
    if both {
        ", in both modes"
    } else {
        ""
    }
}

/// Prints rows under a heading as a table that Markdown reads too.
pub(crate) fn table(heading: &[&str], rows: &[Vec<String>]) {
    let length = |text: &str| text.chars().count();
    let widths: Vec<usize> = heading
        .iter()
        .enumerate()
        .map(|(at, name)| rows.iter().map(|row| length(&row[at])).fold(length(name), usize::max))
        .collect();
    let print = |cells: &[&str]| {
        let padded: Vec<String> =
            cells.iter().zip(&widths).map(|(cell, &width)| format!("{cell:>width$}")).collect();
        println!("| {} |", padded.join(" | "));
    };
    print(heading);
    let rules: Vec<String> = widths.iter().map(|&width| "-".repeat(width - 1) + ":").collect();
    print(&rules.iter().map(String::as_str).collect::<Vec<_>>());
    for row in rows {
        print(&row.iter().map(String::as_str).collect::<Vec<_>>());
    }
    println!();
}

fn said(command: &str, words: &[&str]) -> String {
    let said = Command::new(command).args(words).output();
    said.map(|said| String::from_utf8_lossy(&said.stdout).trim().to_string()).unwrap_or_default()
}

/// The processor as Linux names it: by its model, or by maker and part where it has no name for it.
fn processor() -> String {
    let text = fs::read_to_string("/proc/cpuinfo").unwrap_or_default();
    let value = |name: &str| {
        let line = text.lines().find(|line| line.starts_with(name))?;
        Some(line.split(':').nth(1)?.trim().to_string())
    };
    let by_part = || Some(format!("implementer {} part {}", value("CPU implementer")?, value("CPU part")?));
    value("model name").or_else(by_part).unwrap_or("a processor without a name".into())
}

/// How many processes wanted the processors in the last minute: above the number that this program itself keeps busy,
/// which is one, times say little.
pub fn load() -> String {
    let text = fs::read_to_string("/proc/loadavg").unwrap_or_default();
    text.split(' ').next().unwrap_or_default().to_string()
}

pub fn machine(proved: Option<Engine>) {
    let count = std::thread::available_parallelism().map_or(0, usize::from);
    let flags = env!("BENCH_RUSTFLAGS");
    let flags = if flags.is_empty() { "no RUSTFLAGS" } else { flags };
    println!("machine     {}, {count} of {}, load {}", said("uname", &["-srm"]), processor(), load());
    println!("plain, f32  {}: opt-level 3, lto, codegen-units 1, {flags}", env!("BENCH_RUSTC"));
    match proved {
        Some(engine) => println!("{:<11} {}", engine.name, env!("BENCH_MADE")),
        None => println!("proved      not linked: bench/run links it"),
    }
    println!();
}

/// Million cell updates per second.
pub(crate) fn rate(cells: usize, seconds: f64) -> String {
    format!("{:.2}", cells as f64 / seconds / 1e6)
}

pub(crate) fn percent(part: f64) -> String {
    format!("{:.1}%", 100.0 * part)
}

/// Speeds of every scene, and ratios to the plain engine's times.
pub fn speeds(measured: &[Measured]) {
    let heading = [
        "scene",
        "side",
        "liquid",
        "who",
        "step, all",
        "step, liquid",
        "run, all",
        "run, liquid",
        "step ratio",
        "run ratio",
    ];
    let of_plain = |row: &Measured| {
        let same =
            |other: &&Measured| (other.scene, other.side, other.name) == (row.scene, row.side, PLAIN.name);
        measured.iter().find(same).expect("the plain step is timed on every scene")
    };
    let row = |row: &Measured| {
        let ratio = |of: fn(&Measured) -> Time| format!("{:.2}", of(row).best / of(of_plain(row)).best);
        vec![
            row.scene.into(),
            row.side.to_string(),
            percent(row.liquid as f64 / row.cells as f64),
            row.name.into(),
            rate(row.cells, row.step.best),
            rate(row.liquid, row.step.best),
            rate(row.cells, row.run.best),
            rate(row.liquid, row.run.best),
            ratio(|row| row.step),
            ratio(|row| row.run),
        ]
    };
    println!("Speed: million cell updates per second of all cells and of liquid cells; the whole step with its tests,");
    println!("and a step of a run. Ratios are times over the plain step's: below 1 is faster.\n");
    table(&heading, &measured.iter().map(row).collect::<Vec<_>>());
    let times = measured.iter().flat_map(|row| [row.step, row.run]);
    let worst = times.map(|time| time.median / time.best).fold(1.0, f64::max);
    println!(
        "The least time of each row's rounds; the median lies at most {} above it. Load now {}.\n",
        percent(worst - 1.0),
        load()
    );
}

/// One engine's times over those of each other contender on the same scene.
pub fn ratios(measured: &[Measured], name: &str) {
    let ours: Vec<&Measured> = measured.iter().filter(|row| row.name == name).collect();
    let of_scene = |row: &Measured| {
        let (scene, side) = (row.scene, row.side);
        measured.iter().filter(move |other| (other.scene, other.side) == (scene, side) && other.name != name)
    };
    let Some(first) = ours.first() else { return };
    let over = |what: &str, row: &Measured| format!("{what} over {}", row.name);
    let steps = of_scene(first).map(|row| over("step", row));
    let runs = of_scene(first).map(|row| over("run", row));
    let heading: Vec<String> = ["scene".into(), "side".into()].into_iter().chain(steps).chain(runs).collect();
    let row = |row: &&Measured| {
        let ratio =
            |of: fn(&Measured) -> Time, other: &Measured| format!("{:.2}", of(row).best / of(other).best);
        let steps = of_scene(row).map(|other| ratio(|row| row.step, other));
        let runs = of_scene(row).map(|other| ratio(|row| row.run, other));
        [row.scene.to_string(), row.side.to_string()].into_iter().chain(steps).chain(runs).collect()
    };
    println!("Ratios: {name}, time over each contender's, of a step with its tests and of a step of a run: below 1 is faster.\n");
    table(&heading.iter().map(String::as_str).collect::<Vec<_>>(), &ours.iter().map(row).collect::<Vec<_>>());
}

pub fn totals(rows: &[Totals]) {
    let heading = [
        "scene",
        "side",
        "steps",
        "total",
        "lost",
        "f32 steps",
        "f32 total",
        "f32 lost",
        "in units",
        "per million",
    ];
    let row = |row: &Totals| {
        vec![
            row.scene.into(),
            row.side.to_string(),
            row.steps.to_string(),
            row.start.to_string(),
            row.lost.to_string(),
            row.float_steps.to_string(),
            format!("{:.3}", row.float_start),
            format!("{:.6}", row.float_lost),
            format!("{:.0}", row.float_lost * 589_824.0),
            format!("{:.3}", 1e6 * row.float_lost / row.float_start),
        ]
    };
    println!("Water: the total with the carry in whole units, and what of it is lost; the same of f32 in cells of density 1,");
    println!("in units of 1/589,824 of that and in millionths of the total. Below 0 water was made.\n");
    table(&heading, &rows.iter().map(row).collect::<Vec<_>>());
}

/// What the furthest point may lie off the line, and the power off 1, for the cost to be called linear: caches of
/// three sizes lie between the smallest tank and the largest.
const NEAR: f64 = 0.2;

fn verdict(linear: bool) -> &'static str {
    if linear {
        "linear"
    } else {
        "NOT linear"
    }
}

/// Sweeps of the surface beside walks of the flags.
pub fn sweeps(rows: &[Swept]) {
    let heading = [
        "scene",
        "side",
        "interface cells",
        "words",
        "words read",
        "sweep, us",
        "walk, us",
        "walk over sweep",
    ];
    let row = |row: &Swept| {
        vec![
            row.scene.into(),
            row.side.to_string(),
            row.cells.to_string(),
            row.words.to_string(),
            row.read.to_string(),
            format!("{:.1}", 1e6 * row.sweep),
            format!("{:.1}", 1e6 * row.walk),
            format!("{:.1}", row.walk / row.sweep),
        ]
    };
    table(&heading, &rows.iter().map(row).collect::<Vec<_>>());
}

/// Both tables of growth; a heading of its own for each engine's time.
pub fn growth(engines: &[Engine], over_cells: &[Point], over_share: &[Point]) {
    let names: Vec<[String; 2]> =
        engines.iter().map(|engine| [format!("{}, ms", engine.name), "ns per liquid cell".into()]).collect();
    let mut heading = vec!["side", "cells", "liquid cells", "share"];
    heading.extend(names.iter().flatten().map(String::as_str));
    let row = |point: &Point| {
        let mut row = vec![
            point.side.to_string(),
            point.cells.to_string(),
            point.liquid.to_string(),
            percent(point.liquid as f64 / point.cells as f64),
        ];
        for seconds in &point.seconds {
            row.push(format!("{:.3}", 1e3 * seconds));
            row.push(if point.liquid == 0 {
                "".into()
            } else {
                format!("{:.1}", 1e9 * seconds / point.liquid as f64)
            });
        }
        row
    };
    println!("Growth over the number of cells: tanks at rest, two fifths of their cells liquid, a step of a run.\n");
    table(&heading, &over_cells.iter().map(row).collect::<Vec<_>>());
    for (at, engine) in engines.iter().enumerate() {
        let power = power(over_cells, at);
        let linear = verdict((power - 1.0).abs() <= NEAR);
        println!("{}: time grows as the number of cells to the power of {power:.2}: {linear}", engine.name);
    }
    println!("\nGrowth over the liquid share: tanks at rest of one side, each with one layer of interface cells.\n");
    table(&heading, &over_share.iter().map(row).collect::<Vec<_>>());
    for (at, engine) in engines.iter().enumerate() {
        let (start, slope, apart) = linear(over_share, at);
        println!(
            "{}: {:.3} ms for the box and {:.1} ns a liquid cell; the furthest point lies {} off that line: {}",
            engine.name,
            1e3 * start,
            1e9 * slope,
            percent(apart),
            verdict(apart <= NEAR)
        );
    }
    println!();
}

/// Pools: the call beside a step, and what a liquid cell costs.
pub fn pools(tanks: &[Asked], shapes: &[Asked]) {
    println!(
        "pools: a call with its tests, and beside it a step with its tests from the same state; load {}",
        load()
    );
    let row = |asked: &Asked| {
        vec![
            asked.scene.to_string(),
            asked.side.to_string(),
            asked.liquid.to_string(),
            asked.pools.to_string(),
            format!("{:.2}", asked.call.best * 1e3),
            format!("{:.2}", asked.call.median * 1e3),
            asked.step.map_or("".into(), |step| format!("{:.2}", step.best * 1e3)),
            asked.step.map_or("".into(), |step| format!("{:.2}", asked.call.best / step.best)),
        ]
    };
    let rows: Vec<_> = tanks.iter().chain(shapes).map(row).collect();
    table(&["scene", "side", "liquid cells", "pools", "ms", "median", "step, ms", "over it"], &rows);
    let points: Vec<(f64, f64)> = tanks.iter().map(|asked| (asked.liquid as f64, asked.call.best)).collect();
    let (box_alone, cell) = line(&points);
    let apart = |(x, y): &(f64, f64)| ((box_alone + cell * x) / y - 1.0).abs();
    println!(
        "tanks: {:.2} ms for the box and {:.1} ns for each liquid cell; no point further than {:.0} % from that line",
        box_alone * 1e3,
        cell * 1e9,
        points.iter().map(apart).fold(0.0, f64::max) * 100.0
    );
    println!();
}

/// Height grids: each call, and what a byte of its text costs.
pub fn heights(rows: &[Timed]) {
    println!("height grids: 128 x 128 columns, 16 cells high; load {}", load());
    let row = |timed: &Timed| {
        let a_byte = timed.bytes.map(|bytes| timed.call.best * 1e9 / bytes as f64);
        vec![
            timed.name.to_string(),
            timed.bytes.map_or("".into(), |bytes| bytes.to_string()),
            format!("{:.2}", timed.call.best * 1e3),
            format!("{:.2}", timed.call.median * 1e3),
            a_byte.map_or("".into(), |cost| format!("{cost:.1}")),
        ]
    };
    let rows: Vec<_> = rows.iter().map(row).collect();
    table(&["call", "bytes", "ms", "median", "ns a byte"], &rows);
}
