// A record of one's own: its water after plain steps by the library, or by the plain step where that is not linked, and in f32 beside it.

use oracle::record::read_within;

use crate::engine::{Engine, Settings, ACCEPTED};
use crate::float::{FloatStore, FOUR};
use crate::identical::Case;
use crate::lattice::{Grid, Lattice};
use crate::native::proved;
use crate::plain::PLAIN;
use crate::scenes::water;

/// The largest grid that there is.
const ROOM: usize = 262_144;
/// The library's limit to the steps of one run.
const LOT: usize = 1000;
const ONE: f64 = 589_824.0;

/// A whole number with commas between its thousands.
fn grouped(number: i128) -> String {
    let digits = number.unsigned_abs().to_string();
    let groups: Vec<_> = digits.as_bytes().rchunks(3).rev().map(String::from_utf8_lossy).collect();
    format!("{}{}", if number < 0 { "-" } else { "" }, groups.join(","))
}

/// Runs in lots up to so many steps; how many were made.
fn advance(steps: usize, mut run: impl FnMut(usize) -> crate::engine::Ran) -> (usize, String) {
    let mut made = 0;
    while made < steps {
        let ran = run(LOT.min(steps - made));
        made += ran.count;
        if ran.answer != ACCEPTED {
            return (made, format!(", then refused with {} at cell {}", ran.answer.number, ran.answer.place));
        }
    }
    (made, String::new())
}

/// Tells both totals before and after; an error if the whole numbers lost a unit.
pub fn tell(bytes: &[u8], steps: usize) -> Result<(), String> {
    let (reading, store) = read_within(bytes, ROOM)
        .map_err(|refusal| format!("refusal {} at {}", refusal.number, refusal.place))?;
    let sides = reading.sides.map(|side| side as usize);
    let grid = Grid::new(sides).ok_or("sides out of range")?;
    let oracle::settings::Settings { p, gravity, edge } = reading.settings;
    let settings = Settings { p: p.into(), gravity: gravity.map(i64::from), turbulent: false };
    // A unit in cubic millimetres, and 1,000 of these are a millilitre.
    let millilitres = |units: f64| units * f64::from(edge).powi(3) / ONE / 1000.0;

    let engine: Engine = proved().unwrap_or(PLAIN);
    let mut case = Case::of(sides, settings, &store);
    let start = water(&store);
    let (made, why) = advance(steps, |lot| case.run(engine, lot));
    let end = water(&case.first);

    let mut float = FloatStore::laid(&grid, &store);
    let (mut second, mut marks) = (float.clone(), vec![0; store.flags.len()]);
    let float_start = float.total() * ONE;
    let (float_made, float_why) =
        advance(steps, |lot| (FOUR.run)(&grid, settings, lot, &mut float, &mut second, &mut marks));
    let float_end = float.total() * ONE;

    println!(
        "{:<14} {:>8} {:>20} {:>20} {:>12} {:>14}",
        "", "steps", "units before", "units after", "lost", "lost/ml"
    );
    let lost = start - end;
    println!(
        "{:<14} {:>8} {:>20} {:>20} {:>12} {:>14.6}{why}",
        if engine.name == PLAIN.name { "whole numbers" } else { "the library" },
        grouped(made as i128),
        grouped(start),
        grouped(end),
        grouped(lost),
        millilitres(lost as f64)
    );
    let lost_by_floats = float_start - float_end;
    println!(
        "{:<14} {:>8} {:>20} {:>20} {:>12} {:>14.6}{float_why}",
        "f32",
        grouped(float_made as i128),
        grouped(float_start.round() as i128),
        grouped(float_end.round() as i128),
        grouped(lost_by_floats.round() as i128),
        millilitres(lost_by_floats)
    );
    match lost {
        0 => Ok(()),
        _ => Err(format!("{lost} units lost")),
    }
}
