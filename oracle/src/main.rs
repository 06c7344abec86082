// The command line: each program reads standard input or takes seeds, and prints.

use std::io::{Read, Write};
use std::path::Path;
use std::process::ExitCode;
use std::time::Instant;

use oracle::damage::bad;
use oracle::drawing::{drawn, section};
use oracle::flume;
use oracle::grid::Grid;
use oracle::hunt::{hunt, EVENTS, TURBULENT_EVENTS};
use oracle::record::read_within;
use oracle::scenes::good;
use oracle::text::{
    gridread, gridrun, gridstep, refused_record, requests, steps_asked, water, GRIDSTEP_BYTES,
};
use oracle::turbulence::Modes;

const USAGE: &str = "usage: oracle gridstep | gridrun K | gridread (place X Y Z | point C | depth X Y)... \
| water | show | draw | make good|bad SEED | batch good|bad FROM TO DIR (TO itself left out) \
| hunt SEEDS STEPS [plain|turbulent|either] \
| flume (check | run K | water | show | draw | make good|bad SEED | hunt SEEDS STEPS [plain|turbulent|either])";

/// The record of a kind and a seed.
type Maker = fn(u64) -> Vec<u8>;

fn maker(kind: &str) -> Option<Maker> {
    match kind {
        "good" => Some(|seed| good(seed).record()),
        "bad" => Some(|seed| bad(seed).bytes),
        _ => None,
    }
}

fn input(most: u64) -> std::io::Result<Vec<u8>> {
    let mut bytes = Vec::new();
    std::io::stdin().take(most).read_to_end(&mut bytes)?;
    Ok(bytes)
}

fn print(bytes: &[u8]) -> std::io::Result<ExitCode> {
    std::io::stdout().write_all(bytes)?;
    Ok(ExitCode::SUCCESS)
}

fn hunted(seeds: u64, steps: u32, modes: Modes) -> ExitCode {
    let start = Instant::now();
    match hunt(seeds, steps, modes) {
        Ok((tally, met)) => {
            for event in EVENTS.iter().chain(TURBULENT_EVENTS.iter().filter(|_| modes != Modes::Plain)) {
                println!("{:>10}  {event}", tally.count(event));
            }
            met.lines().for_each(|(_, line)| println!("{line}"));
            println!("{:>10.1}  seconds", start.elapsed().as_secs_f64());
            println!("hunt: {seeds} seeds, {} steps, nothing found", tally.count("steps accepted"));
            ExitCode::SUCCESS
        }
        Err(finding) => {
            println!("hunt: {finding}");
            ExitCode::FAILURE
        }
    }
}

/// A record's section, or its refusal.
fn shown(bytes: &[u8]) -> String {
    let read = read_within(bytes, usize::MAX);
    let drawn = read.and_then(|(reading, _)| Ok(section(&Grid::new(reading.sides)?, reading.flags)));
    drawn.unwrap_or_else(refused_record)
}

/// Does what the arguments ask; none where they ask for nothing.
fn obey(arguments: &[&str]) -> Option<std::io::Result<ExitCode>> {
    Some(match arguments {
        // One byte more than gridstep takes, so that it sees the excess.
        ["gridstep"] => input(GRIDSTEP_BYTES as u64 + 1).and_then(|bytes| print(gridstep(&bytes).as_bytes())),
        ["gridrun", steps] => {
            let steps = steps_asked(steps)?;
            input(u64::MAX).and_then(|bytes| print(&gridrun(&bytes, steps)))
        }
        ["gridread", rest @ ..] => {
            let requests = requests(rest)?;
            input(u64::MAX).and_then(|bytes| print(gridread(&bytes, &requests).as_bytes()))
        }
        ["water"] => input(u64::MAX).and_then(|bytes| print(water(&bytes).as_bytes())),
        ["show"] => input(u64::MAX).and_then(|bytes| print(shown(&bytes).as_bytes())),
        ["draw"] => input(u64::MAX).and_then(|text| match drawn(&String::from_utf8_lossy(&text)) {
            Ok(scene) => print(&scene.record()),
            Err(wrong) => Err(std::io::Error::other(wrong)),
        }),
        ["make", kind, seed] => print(&maker(kind)?(seed.parse().ok()?)),
        ["batch", kind, from, to, folder] => {
            let (make, from, to): (_, u64, u64) = (maker(kind)?, from.parse().ok()?, to.parse().ok()?);
            let file = |seed: u64| Path::new(folder).join(format!("{seed}.rec"));
            (from..to).try_for_each(|seed| std::fs::write(file(seed), make(seed))).map(|()| ExitCode::SUCCESS)
        }
        ["flume", rest @ ..] => {
            flume::commands::answer(rest, || input(u64::MAX))?.and_then(|bytes| print(&bytes))
        }
        ["hunt", seeds, steps] => Ok(hunted(seeds.parse().ok()?, steps.parse().ok()?, Modes::Plain)),
        ["hunt", seeds, steps, word] => {
            Ok(hunted(seeds.parse().ok()?, steps.parse().ok()?, Modes::asked(word)?))
        }
        _ => return None,
    })
}

fn main() -> ExitCode {
    let arguments: Vec<String> = std::env::args().skip(1).collect();
    let arguments: Vec<&str> = arguments.iter().map(String::as_str).collect();
    match obey(&arguments) {
        Some(Ok(code)) => code,
        Some(Err(error)) => {
            eprintln!("oracle: {error}");
            ExitCode::FAILURE
        }
        None => {
            eprintln!("{USAGE}");
            ExitCode::from(2)
        }
    }
}
