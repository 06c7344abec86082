// The proved library's calls over two schemes and a wall map, and over a scheme's grid.

use oracle::acts::Act;
use oracle::designers::{Calls, Deed, Told};
use oracle::index::HeldStore;
use oracle::schemes::Change;
use oracle::{Refusal, Set, Settings, Store};

use crate::library::calls;
use crate::library::cases::Case;
use crate::library::Reply;
use crate::raw;

const BEFORE: usize = 77;

/// Why every call below is sound: each pointer comes from a slice of the length beside it or from a number of this frame.
pub fn join([nx, ny, nz]: [usize; 3], map: &[u8], scheme: Set, grid: &mut [u8]) -> [u64; 2] {
    let mut place = BEFORE;
    let number = unsafe {
        raw::skw_scheme_join(
            map.as_ptr(),
            map.len(),
            scheme.flags.as_ptr(),
            scheme.flags.len(),
            scheme.parts.as_ptr(),
            scheme.parts.len(),
            scheme.masses.as_ptr(),
            scheme.masses.len(),
            scheme.fills.as_ptr(),
            scheme.fills.len(),
            scheme.carry.as_ptr(),
            scheme.carry.len(),
            grid.as_mut_ptr(),
            grid.len(),
            nx,
            ny,
            nz,
            &mut place,
        )
    };
    [number.into(), place as u64]
}

pub fn part([nx, ny, nz]: [usize; 3], grid: &[u8], own: &mut [u8]) -> [u64; 2] {
    let mut place = BEFORE;
    let number = unsafe {
        raw::skw_scheme_part(grid.as_ptr(), grid.len(), own.as_mut_ptr(), own.len(), nx, ny, nz, &mut place)
    };
    [number.into(), place as u64]
}

pub fn change(
    change: Change,
    [nx, ny, nz]: [usize; 3],
    map: &mut [u8],
    asker: Set,
    other: Set,
    cell: usize,
) -> [u64; 2] {
    let call = match change {
        Change::Add => raw::skw_wall_add,
        Change::Remove => raw::skw_wall_remove,
    };
    let mut place = BEFORE;
    let number = unsafe {
        call(
            map.as_mut_ptr(),
            map.len(),
            asker.flags.as_ptr(),
            asker.flags.len(),
            asker.parts.as_ptr(),
            asker.parts.len(),
            asker.masses.as_ptr(),
            asker.masses.len(),
            asker.fills.as_ptr(),
            asker.fills.len(),
            asker.carry.as_ptr(),
            asker.carry.len(),
            other.flags.as_ptr(),
            other.flags.len(),
            other.parts.as_ptr(),
            other.parts.len(),
            other.masses.as_ptr(),
            other.masses.len(),
            other.fills.as_ptr(),
            other.fills.len(),
            other.carry.as_ptr(),
            other.carry.len(),
            nx,
            ny,
            nz,
            cell,
            &mut place,
        )
    };
    [number.into(), place as u64]
}

/// The library where the independent program's histories ask.
pub struct Library;

/// An answer; one that is accepted with a place is none that the independent program gives.
fn answered([number, place]: [u64; 2]) -> Result<(), Refusal> {
    match (number, place) {
        (0, 0) => Ok(()),
        _ => Err(Refusal { number: number as u32, place }),
    }
}

fn wide(sides: [u32; 3]) -> [usize; 3] {
    sides.map(|side| side as usize)
}

fn told(reply: &Reply, value: i64) -> Told {
    Told { refusal: answered([reply.number.into(), reply.place as u64]).err(), value }
}

impl Calls for Library {
    fn join(sides: [u32; 3], map: &[u8], scheme: Set, flags: &mut [u8]) -> Result<(), Refusal> {
        answered(join(wide(sides), map, scheme, flags))
    }

    fn part(sides: [u32; 3], flags: &[u8], own: &mut [u8]) -> Result<(), Refusal> {
        answered(part(wide(sides), flags, own))
    }

    fn change(
        which: Change,
        sides: [u32; 3],
        map: &mut [u8],
        asker: Set,
        other: Set,
        cell: u64,
    ) -> Result<(), Refusal> {
        answered(change(which, wide(sides), map, asker, other, cell as usize))
    }

    fn deed(deed: Deed, sides: [u32; 3], settings: &Settings, grid: &mut HeldStore) -> Told {
        let mut case = Case::of_grid(wide(sides), settings, grid.clone());
        match deed {
            Deed::Step { turbulent } => {
                case.turbulent = turbulent;
                let reply = calls::step(&mut case);
                if [0, 7, 8].contains(&reply.number) {
                    // Poured and taken stay as they were, whether a step is lent them or not.
                    let totals = [grid.set.carry[1], grid.set.carry[2]];
                    *grid = HeldStore { set: case.second, index: case.second_index };
                    grid.set.carry[1..].copy_from_slice(&totals);
                }
                told(&reply, i64::from(reply.number == 0))
            }
            Deed::Run { steps, turbulent } => {
                (case.steps, case.turbulent) = (steps as usize, turbulent);
                let reply = calls::run(&mut case);
                *grid = HeldStore { set: case.first, index: case.first_index };
                told(&reply, reply.values[0] as i64)
            }
            Deed::Act(act, cell, amount) => {
                (case.cell, case.amount) = (cell as usize, amount);
                let reply = if act == Act::Pour { calls::pour(&mut case) } else { calls::take(&mut case) };
                let Store { masses, fills, carry, .. } = case.first;
                (grid.set.masses, grid.set.fills, grid.set.carry) = (masses, fills, carry);
                told(&reply, reply.values[0] as i64)
            }
        }
    }
}
