// The proved library's functions, each on what a case lends. Every number that a call answers holds something else before.

use super::cases::Case;
use super::Reply;
use crate::raw;

const BEFORE: usize = 77;
const BEFORE_SIGNED: i64 = -77;
const BEFORE_FLOAT: f32 = -7.5;

/// Why every call below is sound: each pointer comes from a slice of the length beside it or from a number of this frame.
pub fn check(case: &mut Case) -> Reply {
    let [nx, ny, nz] = case.sides;
    let set = &case.first;
    let mut place = BEFORE;
    let number = unsafe {
        raw::skw_check(
            set.flags.as_ptr(),
            set.flags.len(),
            set.parts.as_ptr(),
            set.parts.len(),
            set.masses.as_ptr(),
            set.masses.len(),
            set.fills.as_ptr(),
            set.fills.len(),
            set.carry.as_ptr(),
            set.carry.len(),
            nx,
            ny,
            nz,
            &mut place,
        )
    };
    Reply { number, place, values: vec![] }
}

/// Its value is what was moved.
pub fn pour(case: &mut Case) -> Reply {
    let [nx, ny, nz] = case.sides;
    let set = &mut case.first;
    let (mut moved, mut place) = (BEFORE_SIGNED, BEFORE);
    let number = unsafe {
        raw::skw_pour(
            set.flags.as_ptr(),
            set.flags.len(),
            set.parts.as_ptr(),
            set.parts.len(),
            set.masses.as_mut_ptr(),
            set.masses.len(),
            set.fills.as_mut_ptr(),
            set.fills.len(),
            set.carry.as_mut_ptr(),
            set.carry.len(),
            nx,
            ny,
            nz,
            case.cell,
            case.amount,
            &mut moved,
            &mut place,
        )
    };
    Reply { number, place, values: vec![moved as u64] }
}

/// Its value is what was moved.
pub fn take(case: &mut Case) -> Reply {
    let [nx, ny, nz] = case.sides;
    let set = &mut case.first;
    let (mut moved, mut place) = (BEFORE_SIGNED, BEFORE);
    let number = unsafe {
        raw::skw_take(
            set.flags.as_ptr(),
            set.flags.len(),
            set.parts.as_ptr(),
            set.parts.len(),
            set.masses.as_mut_ptr(),
            set.masses.len(),
            set.fills.as_mut_ptr(),
            set.fills.len(),
            set.carry.as_mut_ptr(),
            set.carry.len(),
            nx,
            ny,
            nz,
            case.cell,
            case.amount,
            &mut moved,
            &mut place,
        )
    };
    Reply { number, place, values: vec![moved as u64] }
}

pub fn load(case: &mut Case) -> Reply {
    let [nx, ny, nz] = case.sides;
    let (set, index) = (&case.first, &case.first_index);
    let mut place = BEFORE;
    let number = unsafe {
        raw::skw_load(
            set.flags.as_ptr(),
            set.flags.len(),
            set.parts.as_ptr(),
            set.parts.len(),
            set.masses.as_ptr(),
            set.masses.len(),
            set.fills.as_ptr(),
            set.fills.len(),
            set.carry.as_ptr(),
            set.carry.len(),
            index.words.as_ptr(),
            index.words.len(),
            index.count.as_ptr(),
            index.count.len(),
            nx,
            ny,
            nz,
            &mut place,
        )
    };
    Reply { number, place, values: vec![] }
}

/// Its value is the number of cells.
pub fn surface_count(case: &mut Case) -> Reply {
    let [nx, ny, nz] = case.sides;
    let words = &case.first_index.words;
    let (mut cells, mut place) = (BEFORE, BEFORE);
    let number =
        unsafe { raw::skw_surface_count(words.as_ptr(), words.len(), nx, ny, nz, &mut cells, &mut place) };
    Reply { number, place, values: vec![cells as u64] }
}

/// Its values are the kind, the cell and the words read.
pub fn surface_next(case: &mut Case) -> Reply {
    let [nx, ny, nz] = case.sides;
    let words = &case.first_index.words;
    let (mut kind, mut cell, mut read, mut place) = (BEFORE as u8, BEFORE, BEFORE, BEFORE);
    let number = unsafe {
        raw::skw_surface_next(
            words.as_ptr(),
            words.len(),
            nx,
            ny,
            nz,
            case.start,
            &mut kind,
            &mut cell,
            &mut read,
            &mut place,
        )
    };
    Reply { number, place, values: vec![kind.into(), cell as u64, read as u64] }
}

pub fn step(case: &mut Case) -> Reply {
    let [nx, ny, nz] = case.sides;
    let [gx, gy, gz] = case.gravity;
    let (first, second) = (&case.first, &mut case.second);
    let (index, index2) = (&case.first_index, &mut case.second_index);
    let mut place = BEFORE;
    let number = unsafe {
        raw::skw_step(
            first.flags.as_ptr(),
            first.flags.len(),
            first.parts.as_ptr(),
            first.parts.len(),
            first.masses.as_ptr(),
            first.masses.len(),
            first.fills.as_ptr(),
            first.fills.len(),
            first.carry.as_ptr(),
            first.carry.len(),
            index.words.as_ptr(),
            index.words.len(),
            index.count.as_ptr(),
            index.count.len(),
            second.flags.as_mut_ptr(),
            second.flags.len(),
            second.parts.as_mut_ptr(),
            second.parts.len(),
            second.masses.as_mut_ptr(),
            second.masses.len(),
            second.fills.as_mut_ptr(),
            second.fills.len(),
            second.carry.as_mut_ptr(),
            second.carry.len(),
            index2.words.as_mut_ptr(),
            index2.words.len(),
            index2.count.as_mut_ptr(),
            index2.count.len(),
            case.marks.as_mut_ptr(),
            case.marks.len(),
            nx,
            ny,
            nz,
            case.p,
            gx,
            gy,
            gz,
            case.turbulent,
            &mut place,
        )
    };
    Reply { number, place, values: vec![] }
}

/// Its value is the count.
pub fn run(case: &mut Case) -> Reply {
    let [nx, ny, nz] = case.sides;
    let [gx, gy, gz] = case.gravity;
    let (first, second) = (&mut case.first, &mut case.second);
    let (index, index2) = (&mut case.first_index, &mut case.second_index);
    let (mut number, mut place) = (BEFORE as u8, BEFORE);
    let count = unsafe {
        raw::skw_run(
            case.steps,
            first.flags.as_mut_ptr(),
            first.flags.len(),
            first.parts.as_mut_ptr(),
            first.parts.len(),
            first.masses.as_mut_ptr(),
            first.masses.len(),
            first.fills.as_mut_ptr(),
            first.fills.len(),
            first.carry.as_mut_ptr(),
            first.carry.len(),
            index.words.as_mut_ptr(),
            index.words.len(),
            index.count.as_mut_ptr(),
            index.count.len(),
            second.flags.as_mut_ptr(),
            second.flags.len(),
            second.parts.as_mut_ptr(),
            second.parts.len(),
            second.masses.as_mut_ptr(),
            second.masses.len(),
            second.fills.as_mut_ptr(),
            second.fills.len(),
            second.carry.as_mut_ptr(),
            second.carry.len(),
            index2.words.as_mut_ptr(),
            index2.words.len(),
            index2.count.as_mut_ptr(),
            index2.count.len(),
            case.marks.as_mut_ptr(),
            case.marks.len(),
            nx,
            ny,
            nz,
            case.p,
            gx,
            gy,
            gz,
            case.turbulent,
            &mut number,
            &mut place,
        )
    };
    Reply { number, place, values: vec![count as u64] }
}

/// Its values are sides, p, gravity, edge, origin, and from where to where the flags stand in the record.
pub fn read(case: &mut Case) -> Reply {
    let (lent, index) = (&mut case.second, &mut case.second_index);
    let [mut nx, mut ny, mut nz, mut from, mut to, mut place] = [BEFORE; 6];
    let [mut p, mut gx, mut gy, mut gz, mut edge, mut ox, mut oy, mut oz] = [BEFORE_SIGNED; 8];
    let number = unsafe {
        raw::skw_read(
            case.record.as_ptr(),
            case.record.len(),
            lent.parts.as_mut_ptr(),
            lent.parts.len(),
            lent.masses.as_mut_ptr(),
            lent.masses.len(),
            lent.fills.as_mut_ptr(),
            lent.fills.len(),
            lent.carry.as_mut_ptr(),
            lent.carry.len(),
            index.words.as_mut_ptr(),
            index.words.len(),
            index.count.as_mut_ptr(),
            index.count.len(),
            &mut nx,
            &mut ny,
            &mut nz,
            &mut p,
            &mut gx,
            &mut gy,
            &mut gz,
            &mut edge,
            &mut ox,
            &mut oy,
            &mut oz,
            &mut from,
            &mut to,
            &mut place,
        )
    };
    let sides = [nx, ny, nz].map(|number| number as u64);
    let settings = [p, gx, gy, gz, edge, ox, oy, oz].map(|number| number as u64);
    let flags = [from, to].map(|number| number as u64);
    Reply { number, place, values: [&sides[..], &settings, &flags].concat() }
}

/// Its value is the record's length.
pub fn write(case: &mut Case) -> Reply {
    let [nx, ny, nz] = case.sides;
    let [gx, gy, gz] = case.gravity;
    let [ox, oy, oz] = case.origin;
    let set = &case.first;
    let (mut bytes, mut place) = (BEFORE, BEFORE);
    let number = unsafe {
        raw::skw_write(
            nx,
            ny,
            nz,
            case.p,
            gx,
            gy,
            gz,
            case.edge,
            ox,
            oy,
            oz,
            set.flags.as_ptr(),
            set.flags.len(),
            set.parts.as_ptr(),
            set.parts.len(),
            set.masses.as_ptr(),
            set.masses.len(),
            set.fills.as_ptr(),
            set.fills.len(),
            set.carry.as_ptr(),
            set.carry.len(),
            case.room.as_mut_ptr(),
            case.room.len(),
            &mut bytes,
            &mut place,
        )
    };
    Reply { number, place, values: vec![bytes as u64] }
}

/// Its value is the cell.
pub fn place(case: &mut Case) -> Reply {
    let [nx, ny, nz] = case.sides;
    let [ox, oy, oz] = case.origin;
    let [x, y, z] = case.point;
    let (mut cell, mut place) = (BEFORE, BEFORE);
    let number = unsafe { raw::skw_place(nx, ny, nz, case.edge, ox, oy, oz, x, y, z, &mut cell, &mut place) };
    Reply { number, place, values: vec![cell as u64] }
}

/// Its values are the four f32.
pub fn point(case: &mut Case) -> Reply {
    let [nx, ny, nz] = case.sides;
    let fills = &case.first.fills;
    let [mut x, mut y, mut z, mut fill] = [BEFORE_FLOAT; 4];
    let mut place = BEFORE;
    let number = unsafe {
        raw::skw_point(
            nx,
            ny,
            nz,
            fills.as_ptr(),
            fills.len(),
            case.cell,
            &mut x,
            &mut y,
            &mut z,
            &mut fill,
            &mut place,
        )
    };
    Reply { number, place, values: [x, y, z, fill].map(|number| number.to_bits().into()).to_vec() }
}

/// Its values are the kind and the f32.
pub fn depth(case: &mut Case) -> Reply {
    let [nx, ny, nz] = case.sides;
    let [x, y] = case.column;
    let (flags, fills) = (&case.first.flags, &case.first.fills);
    let (mut kind, mut depth, mut place) = (BEFORE as u8, BEFORE_FLOAT, BEFORE);
    let number = unsafe {
        raw::skw_depth(
            nx,
            ny,
            nz,
            flags.as_ptr(),
            flags.len(),
            fills.as_ptr(),
            fills.len(),
            x,
            y,
            &mut kind,
            &mut depth,
            &mut place,
        )
    };
    Reply { number, place, values: vec![kind.into(), depth.to_bits().into()] }
}
