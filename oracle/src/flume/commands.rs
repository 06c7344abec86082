// The flume's commands: each answers with the bytes to print, or with what went wrong.

use std::io::{Error, Result};
use std::time::Instant;

use crate::flume::damage::bad;
use crate::flume::drawing::{drawn, section};
use crate::flume::grid::Grid;
use crate::flume::hunt::{hunt, EVENTS};
use crate::flume::record::{encode, read_whole, Reading};
use crate::flume::run::run;
use crate::flume::scenes::good;
use crate::flume::sets::blank;
use crate::flume::state::State;
use crate::grid::Refusal;
use crate::hunt::TURBULENT_EVENTS;
use crate::sets::Store;
use crate::state::{FLUID, INTERFACE};
use crate::text::{refused_record, steps_asked};
use crate::turbulence::Modes;

/// What the arguments ask for; none where they ask for nothing.
pub fn answer(arguments: &[&str], input: impl FnOnce() -> Result<Vec<u8>>) -> Option<Result<Vec<u8>>> {
    Some(match arguments {
        ["check"] => input().map(|bytes| told(&bytes, |_, _| b"accepted\n".to_vec())),
        ["run", steps] => {
            let steps = steps_asked(steps)?;
            input().map(|bytes| told(&bytes, |reading, store| advanced(reading, store, steps)))
        }
        ["water"] => input().map(|bytes| told(&bytes, |_, store| water(store))),
        ["show"] => input().map(|bytes| told(&bytes, shown)),
        ["draw"] => input().and_then(|text| {
            drawn(&String::from_utf8_lossy(&text)).map(|scene| scene.record()).map_err(Error::other)
        }),
        ["make", "good", seed] => Ok(good(seed.parse().ok()?).record()),
        ["make", "bad", seed] => Ok(bad(seed.parse().ok()?).bytes),
        ["hunt", seeds, steps] => hunted(seeds.parse().ok()?, steps.parse().ok()?, Modes::Plain),
        ["hunt", seeds, steps, word] => hunted(seeds.parse().ok()?, steps.parse().ok()?, Modes::asked(word)?),
        _ => return None,
    })
}

/// What is told of a record, or its refusal.
fn told(bytes: &[u8], tell: impl FnOnce(&Reading, Store) -> Vec<u8>) -> Vec<u8> {
    match read_whole(bytes) {
        Ok((reading, store)) => tell(&reading, store),
        Err(refusal) => refused_record(refusal).into_bytes(),
    }
}

/// A line with count, number and place, then the record of the state reached unless the run was refused.
fn advanced(reading: &Reading, mut first: Store, steps: u32) -> Vec<u8> {
    let n = first.flags.len();
    let (mut second, mut marks) = (blank(n), vec![0; n]);
    let settings = reading.settings;
    let outcome = run(
        reading.sides,
        settings.p,
        settings.gravity,
        steps,
        first.lend_mut(),
        second.lend_mut(),
        &mut marks,
    );
    let Refusal { number, place } = outcome.refusal.unwrap_or(Refusal { number: 0, place: 0 });
    let mut output = format!("run {} {number} {place}\n", outcome.count).into_bytes();
    if matches!(number, 0 | 7 | 8) {
        output.extend(encode(reading.sides, &settings, reading.origin, &State::of(first.lend())));
    }
    output
}

/// Where a record's water is: in fluid cells, in interface cells, the carry, and all together.
fn water(store: Store) -> Vec<u8> {
    let within = |wanted: u8| -> i128 {
        let cells = store.flags.iter().zip(&store.masses).filter(|(flag, _)| **flag == wanted);
        cells.map(|(_, &mass)| i128::from(mass)).sum()
    };
    let (fluid, interface, carry) = (within(FLUID), within(INTERFACE), i128::from(store.carry[0]));
    format!("{fluid} {interface} {carry} {}\n", fluid + interface + carry).into_bytes()
}

fn shown(reading: &Reading, store: Store) -> Vec<u8> {
    let grid = Grid::new(reading.sides).expect("an accepted record's sides are in range");
    section(&grid, &store.flags).into_bytes()
}

fn hunted(seeds: u64, steps: u32, modes: Modes) -> Result<Vec<u8>> {
    let start = Instant::now();
    let (tally, met) =
        hunt(seeds, steps, modes).map_err(|finding| Error::other(format!("hunt: {finding}")))?;
    let besides = TURBULENT_EVENTS.iter().filter(|_| modes != Modes::Plain);
    let events = EVENTS.iter().chain(besides).map(|event| format!("{:>10}  {event}\n", tally.count(event)));
    let mut lines: Vec<String> = events.chain(met.lines().map(|(_, line)| format!("{line}\n"))).collect();
    lines.push(format!("{:>10.1}  seconds\n", start.elapsed().as_secs_f64()));
    let accepted = tally.count("steps accepted");
    lines.push(format!("flume hunt: {seeds} seeds, {accepted} steps, nothing found\n"));
    Ok(lines.concat().into_bytes())
}
