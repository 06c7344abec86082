// The independent program's functions, each on what a case lends. Values beside a refusal are 0, but for the run's count.

use oracle::index;
use oracle::readings::Depth;
use oracle::{Held, HeldMut, Refusal, Relaxation, Settings};

use super::cases::Case;
use super::Reply;

/// The widest number of the record's type stands for one beyond it: both are out of every range.
fn sides(case: &Case) -> [u32; 3] {
    case.sides.map(|side| u32::try_from(side).unwrap_or(u32::MAX))
}

pub fn setting(number: i64) -> i32 {
    number.clamp(i32::MIN.into(), i32::MAX.into()) as i32
}

fn settings(case: &Case) -> Settings {
    Settings { p: setting(case.p), gravity: case.gravity.map(setting), edge: setting(case.edge) }
}

fn relaxation(case: &Case) -> Relaxation {
    Relaxation { p: setting(case.p), turbulent: case.turbulent }
}

/// The reply of a call that has so many values, all 0 beside a refusal.
pub fn reply<const N: usize>(outcome: Result<[u64; N], Refusal>) -> Reply {
    match outcome {
        Ok(values) => Reply { number: 0, place: 0, values: values.to_vec() },
        Err(refusal) => refused(refusal, vec![0; N]),
    }
}

pub fn refused(refusal: Refusal, values: Vec<u64>) -> Reply {
    Reply { number: refusal.number as u8, place: refusal.place as usize, values }
}

pub fn check(case: &mut Case) -> Reply {
    reply(oracle::check(sides(case), case.first.lend()).map(|()| []))
}

pub fn pour(case: &mut Case) -> Reply {
    let outcome = oracle::pour(sides(case), case.first.lend_mut(), case.cell as u64, case.amount);
    reply(outcome.map(|moved| [moved as u64]))
}

pub fn take(case: &mut Case) -> Reply {
    let outcome = oracle::take(sides(case), case.first.lend_mut(), case.cell as u64, case.amount);
    reply(outcome.map(|moved| [moved as u64]))
}

pub fn load(case: &mut Case) -> Reply {
    let held = Held { set: case.first.lend(), index: case.first_index.lend() };
    reply(oracle::load(sides(case), held).map(|()| []))
}

pub fn surface_count(case: &mut Case) -> Reply {
    reply(oracle::surface_count(sides(case), &case.first_index.words).map(|cells| [cells as u64]))
}

pub fn surface_next(case: &mut Case) -> Reply {
    let outcome = oracle::surface_next(sides(case), &case.first_index.words, case.start);
    reply(outcome.map(|next| match next.cell {
        Some(cell) => [1, cell as u64, next.words as u64],
        None => [2, 0, next.words as u64],
    }))
}

pub fn step(case: &mut Case) -> Reply {
    let (sides, p, gravity) = (sides(case), relaxation(case), case.gravity.map(setting));
    let first = Held { set: case.first.lend(), index: case.first_index.lend() };
    let second = HeldMut { set: case.second.lend_mut(), index: case.second_index.lend_mut() };
    let outcome = index::step(sides, p, gravity, first, second, &mut case.marks);
    reply(outcome.map(|()| []))
}

pub fn run(case: &mut Case) -> Reply {
    let (sides, p, gravity) = (sides(case), relaxation(case), case.gravity.map(setting));
    let steps = u32::try_from(case.steps).unwrap_or(u32::MAX);
    let first = HeldMut { set: case.first.lend_mut(), index: case.first_index.lend_mut() };
    let second = HeldMut { set: case.second.lend_mut(), index: case.second_index.lend_mut() };
    let ran = index::run(sides, p, gravity, steps, first, second, &mut case.marks);
    let count = vec![ran.count.into()];
    match ran.refusal {
        None => Reply { number: 0, place: 0, values: count },
        Some(refusal) => refused(refusal, count),
    }
}

pub fn read(case: &mut Case) -> Reply {
    let (lent, made) = (&mut case.second, case.second_index.lend_mut());
    let outcome =
        index::read(&case.record, &mut lent.parts, &mut lent.masses, &mut lent.fills, &mut lent.carry, made);
    reply(outcome.map(|reading| {
        let [nx, ny, nz] = reading.sides.map(u64::from);
        let [gx, gy, gz] = reading.settings.gravity.map(|number| i64::from(number) as u64);
        let [p, edge] = [reading.settings.p, reading.settings.edge].map(|number| i64::from(number) as u64);
        let [ox, oy, oz] = reading.origin.map(|number| number as u64);
        let from = reading.flags.as_ptr() as u64 - case.record.as_ptr() as u64;
        [nx, ny, nz, p, gx, gy, gz, edge, ox, oy, oz, from, from + reading.flags.len() as u64]
    }))
}

pub fn write(case: &mut Case) -> Reply {
    let (sides, settings) = (sides(case), settings(case));
    let outcome = oracle::write(sides, &settings, case.origin, case.first.lend(), &mut case.room);
    reply(outcome.map(|bytes| [bytes as u64]))
}

pub fn place(case: &mut Case) -> Reply {
    reply(oracle::place(sides(case), setting(case.edge), case.origin, case.point).map(|cell| [cell]))
}

pub fn point(case: &mut Case) -> Reply {
    let outcome = oracle::cell_point(sides(case), &case.first.fills, case.cell as u64);
    reply(outcome.map(|point| point.floats().map(|number| number.to_bits().into())))
}

pub fn depth(case: &mut Case) -> Reply {
    let [x, y] = case.column.map(|number| number as u64);
    let outcome = oracle::depth(sides(case), &case.first.flags, &case.first.fills, x, y);
    reply(outcome.map(|depth| {
        let kind = match depth {
            Depth::Solid => 1,
            Depth::Dry => 2,
            Depth::Deep(_) => 3,
        };
        [kind, depth.float().unwrap_or(0.0).to_bits().into()]
    }))
}
