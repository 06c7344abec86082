// The independent program's functions of the flume, each on what a case lends. Values beside a refusal are 0, but for the run's count.

use oracle::flume::{self, Settings};
use oracle::Relaxation;

use super::cases::Case;
use crate::library::reference::{refused, reply, setting};
use crate::library::Reply;

/// The widest number of the record's type stands for one beyond it: both are out of every range.
fn sides(case: &Case) -> [u32; 2] {
    case.sides.map(|side| u32::try_from(side).unwrap_or(u32::MAX))
}

fn settings(case: &Case) -> Settings {
    Settings { p: setting(case.p), gravity: case.gravity.map(setting), edge: setting(case.edge) }
}

fn relaxation(case: &Case) -> Relaxation {
    Relaxation { p: setting(case.p), turbulent: case.turbulent }
}

pub fn check(case: &mut Case) -> Reply {
    reply(flume::check(sides(case), case.first.lend()).map(|()| []))
}

pub fn step(case: &mut Case) -> Reply {
    let (sides, p, gravity) = (sides(case), relaxation(case), case.gravity.map(setting));
    let (first, second) = (case.first.lend(), case.second.lend_mut());
    let outcome = flume::step(sides, p, gravity, first, second, &mut case.marks);
    reply(outcome.map(|()| []))
}

pub fn mirror(case: &mut Case, axis: usize) -> Reply {
    let sides = sides(case);
    let outcome = flume::mirror(sides, case.first.lend(), case.second.lend_mut(), axis as u64);
    reply(outcome.map(|()| []))
}

pub fn run(case: &mut Case) -> Reply {
    let (sides, p, gravity) = (sides(case), relaxation(case), case.gravity.map(setting));
    let steps = u32::try_from(case.steps).unwrap_or(u32::MAX);
    let (first, second) = (case.first.lend_mut(), case.second.lend_mut());
    let ran = flume::run(sides, p, gravity, steps, first, second, &mut case.marks);
    let count = vec![ran.count.into()];
    match ran.refusal {
        None => Reply { number: 0, place: 0, values: count },
        Some(refusal) => refused(refusal, count),
    }
}

pub fn read(case: &mut Case) -> Reply {
    let lent = &mut case.second;
    let outcome =
        flume::read(&case.record, &mut lent.parts, &mut lent.masses, &mut lent.fills, &mut lent.carry);
    reply(outcome.map(|reading| {
        let [nx, nz] = reading.sides.map(u64::from);
        let [gx, gz] = reading.settings.gravity.map(|number| i64::from(number) as u64);
        let [p, edge] = [reading.settings.p, reading.settings.edge].map(|number| i64::from(number) as u64);
        let [ox, oz] = reading.origin.map(|number| number as u64);
        let from = reading.flags.as_ptr() as u64 - case.record.as_ptr() as u64;
        [nx, nz, p, gx, gz, edge, ox, oz, from, from + reading.flags.len() as u64]
    }))
}

pub fn write(case: &mut Case) -> Reply {
    let (sides, settings) = (sides(case), settings(case));
    let outcome = flume::write(sides, &settings, case.origin, case.first.lend(), &mut case.room);
    reply(outcome.map(|bytes| [bytes as u64]))
}
