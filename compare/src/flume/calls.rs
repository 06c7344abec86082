// The proved library's functions of the flume, each on what a case lends. Every number that a call answers holds something else before.

use super::cases::Case;
use super::raw;
use crate::library::Reply;

const BEFORE: usize = 77;
const BEFORE_SIGNED: i64 = -77;

/// Why every call below is sound: each pointer comes from a slice of the length beside it or from a number of this frame.
pub fn check(case: &mut Case) -> Reply {
    let [nx, nz] = case.sides;
    let set = &case.first;
    let mut place = BEFORE;
    let number = unsafe {
        raw::skw_flume_check(
            set.flags.as_ptr(),
            set.flags.len(),
            set.parts.as_ptr(),
            set.parts.len(),
            set.masses.as_ptr(),
            set.masses.len(),
            set.fills.as_ptr(),
            set.fills.len(),
            set.carry.as_ptr(),
            set.carry.len(),
            nx,
            nz,
            &mut place,
        )
    };
    Reply { number, place, values: vec![] }
}

pub fn step(case: &mut Case) -> Reply {
    let [nx, nz] = case.sides;
    let [gx, gz] = case.gravity;
    let (first, second) = (&case.first, &mut case.second);
    let mut place = BEFORE;
    let number = unsafe {
        raw::skw_flume_step(
            first.flags.as_ptr(),
            first.flags.len(),
            first.parts.as_ptr(),
            first.parts.len(),
            first.masses.as_ptr(),
            first.masses.len(),
            first.fills.as_ptr(),
            first.fills.len(),
            first.carry.as_ptr(),
            first.carry.len(),
            second.flags.as_mut_ptr(),
            second.flags.len(),
            second.parts.as_mut_ptr(),
            second.parts.len(),
            second.masses.as_mut_ptr(),
            second.masses.len(),
            second.fills.as_mut_ptr(),
            second.fills.len(),
            second.carry.as_mut_ptr(),
            second.carry.len(),
            case.marks.as_mut_ptr(),
            case.marks.len(),
            nx,
            nz,
            case.p,
            gx,
            gz,
            case.turbulent,
            &mut place,
        )
    };
    Reply { number, place, values: vec![] }
}

pub fn mirror(case: &mut Case, axis: usize) -> Reply {
    let [nx, nz] = case.sides;
    let (first, second) = (&case.first, &mut case.second);
    let mut place = BEFORE;
    let number = unsafe {
        raw::skw_flume_mirror(
            first.flags.as_ptr(),
            first.flags.len(),
            first.parts.as_ptr(),
            first.parts.len(),
            first.masses.as_ptr(),
            first.masses.len(),
            first.fills.as_ptr(),
            first.fills.len(),
            first.carry.as_ptr(),
            first.carry.len(),
            second.flags.as_mut_ptr(),
            second.flags.len(),
            second.parts.as_mut_ptr(),
            second.parts.len(),
            second.masses.as_mut_ptr(),
            second.masses.len(),
            second.fills.as_mut_ptr(),
            second.fills.len(),
            second.carry.as_mut_ptr(),
            second.carry.len(),
            nx,
            nz,
            axis,
            &mut place,
        )
    };
    Reply { number, place, values: vec![] }
}

/// Its value is the count.
pub fn run(case: &mut Case) -> Reply {
    let [nx, nz] = case.sides;
    let [gx, gz] = case.gravity;
    let (first, second) = (&mut case.first, &mut case.second);
    let (mut number, mut place) = (BEFORE as u8, BEFORE);
    let count = unsafe {
        raw::skw_flume_run(
            case.steps,
            first.flags.as_mut_ptr(),
            first.flags.len(),
            first.parts.as_mut_ptr(),
            first.parts.len(),
            first.masses.as_mut_ptr(),
            first.masses.len(),
            first.fills.as_mut_ptr(),
            first.fills.len(),
            first.carry.as_mut_ptr(),
            first.carry.len(),
            second.flags.as_mut_ptr(),
            second.flags.len(),
            second.parts.as_mut_ptr(),
            second.parts.len(),
            second.masses.as_mut_ptr(),
            second.masses.len(),
            second.fills.as_mut_ptr(),
            second.fills.len(),
            second.carry.as_mut_ptr(),
            second.carry.len(),
            case.marks.as_mut_ptr(),
            case.marks.len(),
            nx,
            nz,
            case.p,
            gx,
            gz,
            case.turbulent,
            &mut number,
            &mut place,
        )
    };
    Reply { number, place, values: vec![count as u64] }
}

/// Its values are sides, p, gravity, edge, origin, and from where to where the flags stand in the record.
pub fn read(case: &mut Case) -> Reply {
    let lent = &mut case.second;
    let [mut nx, mut nz, mut from, mut to, mut place] = [BEFORE; 5];
    let [mut p, mut gx, mut gz, mut edge, mut ox, mut oz] = [BEFORE_SIGNED; 6];
    let number = unsafe {
        raw::skw_flume_read(
            case.record.as_ptr(),
            case.record.len(),
            lent.parts.as_mut_ptr(),
            lent.parts.len(),
            lent.masses.as_mut_ptr(),
            lent.masses.len(),
            lent.fills.as_mut_ptr(),
            lent.fills.len(),
            lent.carry.as_mut_ptr(),
            lent.carry.len(),
            &mut nx,
            &mut nz,
            &mut p,
            &mut gx,
            &mut gz,
            &mut edge,
            &mut ox,
            &mut oz,
            &mut from,
            &mut to,
            &mut place,
        )
    };
    let sides = [nx, nz].map(|number| number as u64);
    let settings = [p, gx, gz, edge, ox, oz].map(|number| number as u64);
    let flags = [from, to].map(|number| number as u64);
    Reply { number, place, values: [&sides[..], &settings, &flags].concat() }
}

/// Its value is the record's length.
pub fn write(case: &mut Case) -> Reply {
    let [nx, nz] = case.sides;
    let [gx, gz] = case.gravity;
    let [ox, oz] = case.origin;
    let set = &case.first;
    let (mut bytes, mut place) = (BEFORE, BEFORE);
    let number = unsafe {
        raw::skw_flume_write(
            nx,
            nz,
            case.p,
            gx,
            gz,
            case.edge,
            ox,
            oz,
            set.flags.as_ptr(),
            set.flags.len(),
            set.parts.as_ptr(),
            set.parts.len(),
            set.masses.as_ptr(),
            set.masses.len(),
            set.fills.as_ptr(),
            set.fills.len(),
            set.carry.as_ptr(),
            set.carry.len(),
            case.room.as_mut_ptr(),
            case.room.len(),
            &mut bytes,
            &mut place,
        )
    };
    Reply { number, place, values: vec![bytes as u64] }
}
