//! The flume's calls over slices that the caller lends: any lengths, any contents.

// Why every `unsafe` below is sound: as in the box's `lent`. Each pointer is that of a Rust slice, with its length beside it, or of a number of
// the calling function; a `&mut` overlaps no other borrow.

use super::{raw, Axis, Point, Settings, Sides, Site};
use crate::lent::answered;
use crate::{InMode, Refusal, State, StateMut, Stopped};

/// What the reader answers beside the slices that it fills.
#[derive(Clone, Copy, Debug, PartialEq, Eq)]
pub struct Head<'a> {
    pub sides: Sides,
    pub settings: Settings,
    pub site: Site,
    /// The flag section, a part of the record's own bytes.
    pub flags: &'a [u8],
}

/// Whether a state is good. Refusals 1, 2, 4, 5, 6.
pub fn check(sides: Sides, state: State) -> Result<(), Refusal> {
    let mut place = 0;
    let number = unsafe {
        raw::skw_flume_check(
            state.flags.as_ptr(),
            state.flags.len(),
            state.parts.as_ptr(),
            state.parts.len(),
            state.masses.as_ptr(),
            state.masses.len(),
            state.fills.as_ptr(),
            state.fills.len(),
            state.carry.as_ptr(),
            state.carry.len(),
            sides.nx,
            sides.nz,
            &mut place,
        )
    };
    answered(number, place)
}

/// The state one step after the first into the second; marks is a byte per cell of work space, all 0 afterwards. Settings alone make a
/// plain step, [`Settings::in_mode`] one in either mode.
///
/// Refusals 1 to 6 write nothing. After 7 or 8 the second is a copy of the first, and the marks are 0.
pub fn step(
    sides: Sides,
    settings: impl Into<InMode<Settings>>,
    first: State,
    second: StateMut,
    marks: &mut [u8],
) -> Result<(), Refusal> {
    let InMode { settings, mode } = settings.into();
    let mut place = 0;
    let number = unsafe {
        raw::skw_flume_step(
            first.flags.as_ptr(),
            first.flags.len(),
            first.parts.as_ptr(),
            first.parts.len(),
            first.masses.as_ptr(),
            first.masses.len(),
            first.fills.as_ptr(),
            first.fills.len(),
            first.carry.as_ptr(),
            first.carry.len(),
            second.flags.as_mut_ptr(),
            second.flags.len(),
            second.parts.as_mut_ptr(),
            second.parts.len(),
            second.masses.as_mut_ptr(),
            second.masses.len(),
            second.fills.as_mut_ptr(),
            second.fills.len(),
            second.carry.as_mut_ptr(),
            second.carry.len(),
            marks.as_mut_ptr(),
            marks.len(),
            sides.nx,
            sides.nz,
            settings.p,
            settings.gx,
            settings.gz,
            mode.is_turbulent(),
            &mut place,
        )
    };
    answered(number, place)
}

/// The first state reflected in an axis into the second: cell x goes to n − 1 − x, parts with their directions, and all else of a cell with it; the
/// carry stays. Gravity is no part of a state: [`Settings::mirrored`] changes its sign.
///
/// Refusals 1, 2, 4, 5 and 6 write nothing; of the second state the lengths alone are tested.
pub fn mirror(sides: Sides, first: State, second: StateMut, axis: Axis) -> Result<(), Refusal> {
    let mut place = 0;
    let number = unsafe {
        raw::skw_flume_mirror(
            first.flags.as_ptr(),
            first.flags.len(),
            first.parts.as_ptr(),
            first.parts.len(),
            first.masses.as_ptr(),
            first.masses.len(),
            first.fills.as_ptr(),
            first.fills.len(),
            first.carry.as_ptr(),
            first.carry.len(),
            second.flags.as_mut_ptr(),
            second.flags.len(),
            second.parts.as_mut_ptr(),
            second.parts.len(),
            second.masses.as_mut_ptr(),
            second.masses.len(),
            second.fills.as_mut_ptr(),
            second.fills.len(),
            second.carry.as_mut_ptr(),
            second.carry.len(),
            sides.nx,
            sides.nz,
            axis as usize,
            &mut place,
        )
    };
    answered(number, place)
}

/// So many steps, 0 to 1,000, from the state in the first set, until one is refused, all in one mode as [`step`] takes it.
///
/// Refusals 9 and 1 to 6 write nothing. Else both hold the state reached, after 7 or 8 too, and the marks are 0.
pub fn run(
    sides: Sides,
    settings: impl Into<InMode<Settings>>,
    steps: usize,
    first: StateMut,
    second: StateMut,
    marks: &mut [u8],
) -> Result<(), Stopped> {
    let InMode { settings, mode } = settings.into();
    let (mut number, mut place) = (0, 0);
    let count = unsafe {
        raw::skw_flume_run(
            steps,
            first.flags.as_mut_ptr(),
            first.flags.len(),
            first.parts.as_mut_ptr(),
            first.parts.len(),
            first.masses.as_mut_ptr(),
            first.masses.len(),
            first.fills.as_mut_ptr(),
            first.fills.len(),
            first.carry.as_mut_ptr(),
            first.carry.len(),
            second.flags.as_mut_ptr(),
            second.flags.len(),
            second.parts.as_mut_ptr(),
            second.parts.len(),
            second.masses.as_mut_ptr(),
            second.masses.len(),
            second.fills.as_mut_ptr(),
            second.fills.len(),
            second.carry.as_mut_ptr(),
            second.carry.len(),
            marks.as_mut_ptr(),
            marks.len(),
            sides.nx,
            sides.nz,
            settings.p,
            settings.gx,
            settings.gz,
            mode.is_turbulent(),
            &mut number,
            &mut place,
        )
    };
    answered(number, place).map_err(|refusal| Stopped { count, refusal })
}

/// Reads a record of the flume into a set without its flags, which are a part of the record. A refusal writes nothing.
///
/// The record's sections are tested as they are read (10, 11), after the first the sides and lengths (1, 2), after the fifth the
/// flags (4), at the end that nothing is left over (10), then settings and origin (3), and the state (5, 6).
pub fn read<'a>(
    record: &'a [u8],
    parts: &mut [i32],
    masses: &mut [i32],
    fills: &mut [u32],
    carry: &mut [i64],
) -> Result<Head<'a>, Refusal> {
    let mut sides = Sides::new(0, 0);
    let mut settings = Settings { p: 0, gx: 0, gz: 0 };
    let mut site = Site { edge: 0, origin: Point::default() };
    let (mut from, mut to, mut place) = (0, 0, 0);
    let number = unsafe {
        raw::skw_flume_read(
            record.as_ptr(),
            record.len(),
            parts.as_mut_ptr(),
            parts.len(),
            masses.as_mut_ptr(),
            masses.len(),
            fills.as_mut_ptr(),
            fills.len(),
            carry.as_mut_ptr(),
            carry.len(),
            &mut sides.nx,
            &mut sides.nz,
            &mut settings.p,
            &mut settings.gx,
            &mut settings.gz,
            &mut site.edge,
            &mut site.origin.x,
            &mut site.origin.z,
            &mut from,
            &mut to,
            &mut place,
        )
    };
    answered(number, place)?;
    Ok(Head { sides, settings, site, flags: &record[from..to] })
}

/// Writes the record of a flume into the room, and answers its length; room past it stays as it was. Refusals 1 to 6, then 12.
pub fn write(
    sides: Sides,
    settings: Settings,
    site: Site,
    state: State,
    room: &mut [u8],
) -> Result<usize, Refusal> {
    let (mut bytes, mut place) = (0, 0);
    let number = unsafe {
        raw::skw_flume_write(
            sides.nx,
            sides.nz,
            settings.p,
            settings.gx,
            settings.gz,
            site.edge,
            site.origin.x,
            site.origin.z,
            state.flags.as_ptr(),
            state.flags.len(),
            state.parts.as_ptr(),
            state.parts.len(),
            state.masses.as_ptr(),
            state.masses.len(),
            state.fills.as_ptr(),
            state.fills.len(),
            state.carry.as_ptr(),
            state.carry.len(),
            room.as_mut_ptr(),
            room.len(),
            &mut bytes,
            &mut place,
        )
    };
    answered(number, place)?;
    Ok(bytes)
}
