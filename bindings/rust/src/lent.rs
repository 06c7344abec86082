//! The library's calls over slices that the caller lends: any lengths, any contents.
//!
//! [`Grid`](crate::Grid) makes the same calls over buffers of its own. These are for a host that has its own buffers, or wants to
//! be refused.

// Why every `unsafe` below is sound: the library asks for pointers that are neither null nor misaligned, each with its slice's length,
// and for slices and numbers to be written that overlap nothing else. Each pointer here is that of a Rust slice, with its length beside
// it, or of a number of the calling function; a `&mut` overlaps no other borrow.

use crate::raw;
use crate::{
    Axis, CellPoint, Depth, Held, HeldMut, InMode, IndexMut, Next, Point, Refusal, Settings, Sides, Site,
    State, StateMut, Stopped,
};

/// What the reader answers beside the slices that it fills.
#[derive(Clone, Copy, Debug, PartialEq, Eq)]
pub struct Head<'a> {
    pub sides: Sides,
    pub settings: Settings,
    pub site: Site,
    /// The flag section, a part of the record's own bytes.
    pub flags: &'a [u8],
}

pub(crate) fn answered(number: u8, place: usize) -> Result<(), Refusal> {
    match number {
        0 => Ok(()),
        _ => Err(Refusal::new(number, place)),
    }
}

/// Whether a state is good. Refusals 1, 2, 4, 5, 6.
pub fn check(sides: Sides, state: State) -> Result<(), Refusal> {
    let mut place = 0;
    let number = unsafe {
        raw::skw_check(
            state.flags.as_ptr(),
            state.flags.len(),
            state.parts.as_ptr(),
            state.parts.len(),
            state.masses.as_ptr(),
            state.masses.len(),
            state.fills.as_ptr(),
            state.fills.len(),
            state.carry.as_ptr(),
            state.carry.len(),
            sides.nx,
            sides.ny,
            sides.nz,
            &mut place,
        )
    };
    answered(number, place)
}

/// Pours an amount into an interface cell; what was moved, which is the amount. Refusals 1, 2, 4, 5, 6, 13, 15, 16.
pub fn pour(sides: Sides, state: StateMut, cell: usize, amount: i64) -> Result<i64, Refusal> {
    let (mut moved, mut place) = (0, 0);
    let number = unsafe {
        raw::skw_pour(
            state.flags.as_ptr(),
            state.flags.len(),
            state.parts.as_ptr(),
            state.parts.len(),
            state.masses.as_mut_ptr(),
            state.masses.len(),
            state.fills.as_mut_ptr(),
            state.fills.len(),
            state.carry.as_mut_ptr(),
            state.carry.len(),
            sides.nx,
            sides.ny,
            sides.nz,
            cell,
            amount,
            &mut moved,
            &mut place,
        )
    };
    answered(number, place).map(|()| moved)
}

/// Takes from an interface cell the smaller of an amount and its mass, nothing if the mass is not above 0; what was moved.
/// Refusals 1, 2, 4, 5, 6, 13, 15, 16.
pub fn take(sides: Sides, state: StateMut, cell: usize, amount: i64) -> Result<i64, Refusal> {
    let (mut moved, mut place) = (0, 0);
    let number = unsafe {
        raw::skw_take(
            state.flags.as_ptr(),
            state.flags.len(),
            state.parts.as_ptr(),
            state.parts.len(),
            state.masses.as_mut_ptr(),
            state.masses.len(),
            state.fills.as_mut_ptr(),
            state.fills.len(),
            state.carry.as_mut_ptr(),
            state.carry.len(),
            sides.nx,
            sides.ny,
            sides.nz,
            cell,
            amount,
            &mut moved,
            &mut place,
        )
    };
    answered(number, place).map(|()| moved)
}

/// Whether a state is good and its index true. Refusals 1, 2, 4, 5, 6, 14.
pub fn load(sides: Sides, held: Held) -> Result<(), Refusal> {
    let Held { state, index } = held;
    let mut place = 0;
    let number = unsafe {
        raw::skw_load(
            state.flags.as_ptr(),
            state.flags.len(),
            state.parts.as_ptr(),
            state.parts.len(),
            state.masses.as_ptr(),
            state.masses.len(),
            state.fills.as_ptr(),
            state.fills.len(),
            state.carry.as_ptr(),
            state.carry.len(),
            index.words.as_ptr(),
            index.words.len(),
            index.count.as_ptr(),
            index.count.len(),
            sides.nx,
            sides.ny,
            sides.nz,
            &mut place,
        )
    };
    answered(number, place)
}

/// How many interface cells the words of an index hold, by their bits. Refusals 1, 2.
pub fn surface_count(sides: Sides, words: &[u64]) -> Result<usize, Refusal> {
    let (mut cells, mut place) = (0, 0);
    let number = unsafe {
        raw::skw_surface_count(
            words.as_ptr(),
            words.len(),
            sides.nx,
            sides.ny,
            sides.nz,
            &mut cells,
            &mut place,
        )
    };
    answered(number, place)?;
    Ok(cells)
}

/// The next interface cell at or after the start, by the words of an index, and how many of them were read. Refusals 1, 2, and 13
/// for a start above the number of cells.
pub fn surface_next(sides: Sides, words: &[u64], start: usize) -> Result<Next, Refusal> {
    let (mut kind, mut cell, mut read, mut place) = (0, 0, 0, 0);
    let number = unsafe {
        raw::skw_surface_next(
            words.as_ptr(),
            words.len(),
            sides.nx,
            sides.ny,
            sides.nz,
            start,
            &mut kind,
            &mut cell,
            &mut read,
            &mut place,
        )
    };
    answered(number, place)?;
    // As include/skwarzyna.h numbers the kinds; 0 stands beside a refusal alone.
    Ok(Next { cell: (kind == 1).then_some(cell), words: read })
}

/// The state one step after the first, and its index, into the second; marks is a byte per cell of work space, all 0 afterwards.
/// Settings alone make a plain step, [`Settings::in_mode`] one in either mode.
///
/// Refusals 1 to 6 and 14 write nothing. After 7 or 8 the second is a copy of the first, and the marks are 0.
pub fn step(
    sides: Sides,
    settings: impl Into<InMode<Settings>>,
    first: Held,
    second: HeldMut,
    marks: &mut [u8],
) -> Result<(), Refusal> {
    let InMode { settings, mode } = settings.into();
    let (Held { state: first, index }, HeldMut { state: second, index: index2 }) = (first, second);
    let mut place = 0;
    let number = unsafe {
        raw::skw_step(
            first.flags.as_ptr(),
            first.flags.len(),
            first.parts.as_ptr(),
            first.parts.len(),
            first.masses.as_ptr(),
            first.masses.len(),
            first.fills.as_ptr(),
            first.fills.len(),
            first.carry.as_ptr(),
            first.carry.len(),
            index.words.as_ptr(),
            index.words.len(),
            index.count.as_ptr(),
            index.count.len(),
            second.flags.as_mut_ptr(),
            second.flags.len(),
            second.parts.as_mut_ptr(),
            second.parts.len(),
            second.masses.as_mut_ptr(),
            second.masses.len(),
            second.fills.as_mut_ptr(),
            second.fills.len(),
            second.carry.as_mut_ptr(),
            second.carry.len(),
            index2.words.as_mut_ptr(),
            index2.words.len(),
            index2.count.as_mut_ptr(),
            index2.count.len(),
            marks.as_mut_ptr(),
            marks.len(),
            sides.nx,
            sides.ny,
            sides.nz,
            settings.p,
            settings.gx,
            settings.gy,
            settings.gz,
            mode.is_turbulent(),
            &mut place,
        )
    };
    answered(number, place)
}

/// The first state reflected in an axis into the second, with its index: cell x goes to n − 1 − x, parts with their directions, and all else of a
/// cell with it; the three totals stay. Gravity is no part of a state: [`Settings::mirrored`] changes its sign.
///
/// Refusals 1, 2, 4, 5 and 6 write nothing; of the second state the lengths alone are tested.
pub fn mirror(sides: Sides, first: State, second: HeldMut, axis: Axis) -> Result<(), Refusal> {
    let HeldMut { state: second, index: index2 } = second;
    let mut place = 0;
    let number = unsafe {
        raw::skw_mirror(
            first.flags.as_ptr(),
            first.flags.len(),
            first.parts.as_ptr(),
            first.parts.len(),
            first.masses.as_ptr(),
            first.masses.len(),
            first.fills.as_ptr(),
            first.fills.len(),
            first.carry.as_ptr(),
            first.carry.len(),
            second.flags.as_mut_ptr(),
            second.flags.len(),
            second.parts.as_mut_ptr(),
            second.parts.len(),
            second.masses.as_mut_ptr(),
            second.masses.len(),
            second.fills.as_mut_ptr(),
            second.fills.len(),
            second.carry.as_mut_ptr(),
            second.carry.len(),
            index2.words.as_mut_ptr(),
            index2.words.len(),
            index2.count.as_mut_ptr(),
            index2.count.len(),
            sides.nx,
            sides.ny,
            sides.nz,
            axis as usize,
            &mut place,
        )
    };
    answered(number, place)
}

/// So many steps, 0 to 1,000, from the state in the first set, until one is refused, all in one mode as [`step`] takes it.
///
/// Refusals 9, 1 to 6 and 14 write nothing. Else both hold the state reached and its index, after 7 or 8 too, and the marks are 0.
pub fn run(
    sides: Sides,
    settings: impl Into<InMode<Settings>>,
    steps: usize,
    first: HeldMut,
    second: HeldMut,
    marks: &mut [u8],
) -> Result<(), Stopped> {
    let InMode { settings, mode } = settings.into();
    let (HeldMut { state: first, index }, HeldMut { state: second, index: index2 }) = (first, second);
    let (mut number, mut place) = (0, 0);
    let count = unsafe {
        raw::skw_run(
            steps,
            first.flags.as_mut_ptr(),
            first.flags.len(),
            first.parts.as_mut_ptr(),
            first.parts.len(),
            first.masses.as_mut_ptr(),
            first.masses.len(),
            first.fills.as_mut_ptr(),
            first.fills.len(),
            first.carry.as_mut_ptr(),
            first.carry.len(),
            index.words.as_mut_ptr(),
            index.words.len(),
            index.count.as_mut_ptr(),
            index.count.len(),
            second.flags.as_mut_ptr(),
            second.flags.len(),
            second.parts.as_mut_ptr(),
            second.parts.len(),
            second.masses.as_mut_ptr(),
            second.masses.len(),
            second.fills.as_mut_ptr(),
            second.fills.len(),
            second.carry.as_mut_ptr(),
            second.carry.len(),
            index2.words.as_mut_ptr(),
            index2.words.len(),
            index2.count.as_mut_ptr(),
            index2.count.len(),
            marks.as_mut_ptr(),
            marks.len(),
            sides.nx,
            sides.ny,
            sides.nz,
            settings.p,
            settings.gx,
            settings.gy,
            settings.gz,
            mode.is_turbulent(),
            &mut number,
            &mut place,
        )
    };
    answered(number, place).map_err(|refusal| Stopped { count, refusal })
}

/// Reads a grid record into a set without its flags, which are a part of the record, and makes their index. A refusal writes nothing.
///
/// The record's sections are tested as they are read (10, 11), after the first the sides and lengths (1, 2), after the fifth the
/// flags (4), at the end that nothing is left over (10), then settings and origin (3), and the state (5, 6).
pub fn read<'a>(
    record: &'a [u8],
    parts: &mut [i32],
    masses: &mut [i32],
    fills: &mut [u32],
    carry: &mut [i64],
    index: IndexMut,
) -> Result<Head<'a>, Refusal> {
    let mut sides = Sides::new(0, 0, 0);
    let mut settings = Settings { p: 0, gx: 0, gy: 0, gz: 0 };
    let mut site = Site { edge: 0, origin: Point::default() };
    let (mut from, mut to, mut place) = (0, 0, 0);
    let number = unsafe {
        raw::skw_read(
            record.as_ptr(),
            record.len(),
            parts.as_mut_ptr(),
            parts.len(),
            masses.as_mut_ptr(),
            masses.len(),
            fills.as_mut_ptr(),
            fills.len(),
            carry.as_mut_ptr(),
            carry.len(),
            index.words.as_mut_ptr(),
            index.words.len(),
            index.count.as_mut_ptr(),
            index.count.len(),
            &mut sides.nx,
            &mut sides.ny,
            &mut sides.nz,
            &mut settings.p,
            &mut settings.gx,
            &mut settings.gy,
            &mut settings.gz,
            &mut site.edge,
            &mut site.origin.x,
            &mut site.origin.y,
            &mut site.origin.z,
            &mut from,
            &mut to,
            &mut place,
        )
    };
    answered(number, place)?;
    Ok(Head { sides, settings, site, flags: &record[from..to] })
}

/// Writes the record of a state from the front of the room, and answers its length; room past it stays as it was.
///
/// Refusals 1 to 6 and 12, whose place is the bytes needed, write nothing.
pub fn write(
    sides: Sides,
    settings: Settings,
    site: Site,
    state: State,
    room: &mut [u8],
) -> Result<usize, Refusal> {
    let (mut bytes, mut place) = (0, 0);
    let number = unsafe {
        raw::skw_write(
            sides.nx,
            sides.ny,
            sides.nz,
            settings.p,
            settings.gx,
            settings.gy,
            settings.gz,
            site.edge,
            site.origin.x,
            site.origin.y,
            site.origin.z,
            state.flags.as_ptr(),
            state.flags.len(),
            state.parts.as_ptr(),
            state.parts.len(),
            state.masses.as_ptr(),
            state.masses.len(),
            state.fills.as_ptr(),
            state.fills.len(),
            state.carry.as_ptr(),
            state.carry.len(),
            room.as_mut_ptr(),
            room.len(),
            &mut bytes,
            &mut place,
        )
    };
    answered(number, place)?;
    Ok(bytes)
}

/// The cell that holds a survey point. Refusals 1, 3, 13.
pub fn place(sides: Sides, site: Site, point: Point) -> Result<usize, Refusal> {
    let (mut cell, mut place) = (0, 0);
    let number = unsafe {
        raw::skw_place(
            sides.nx,
            sides.ny,
            sides.nz,
            site.edge,
            site.origin.x,
            site.origin.y,
            site.origin.z,
            point.x,
            point.y,
            point.z,
            &mut cell,
            &mut place,
        )
    };
    answered(number, place)?;
    Ok(cell)
}

/// A cell's centre and fill. Refusals 1, 2, 13, 6.
pub fn point(sides: Sides, fills: &[u32], cell: usize) -> Result<CellPoint, Refusal> {
    let mut point = CellPoint { x: 0.0, y: 0.0, z: 0.0, fill: 0.0 };
    let mut place = 0;
    let number = unsafe {
        raw::skw_point(
            sides.nx,
            sides.ny,
            sides.nz,
            fills.as_ptr(),
            fills.len(),
            cell,
            &mut point.x,
            &mut point.y,
            &mut point.z,
            &mut point.fill,
            &mut place,
        )
    };
    answered(number, place)?;
    Ok(point)
}

/// The depth of column (x, y). Refusals 1, 2, 13, then of this column alone 4 and 6.
pub fn depth(sides: Sides, flags: &[u8], fills: &[u32], x: usize, y: usize) -> Result<Depth, Refusal> {
    let (mut kind, mut depth, mut place) = (0, 0.0, 0);
    let number = unsafe {
        raw::skw_depth(
            sides.nx,
            sides.ny,
            sides.nz,
            flags.as_ptr(),
            flags.len(),
            fills.as_ptr(),
            fills.len(),
            x,
            y,
            &mut kind,
            &mut depth,
            &mut place,
        )
    };
    answered(number, place)?;
    // As include/skwarzyna.h numbers the kinds; 0 stands beside a refusal alone.
    Ok(match kind {
        1 => Depth::Solid,
        2 => Depth::Dry,
        _ => Depth::Deep(depth),
    })
}

/// The pools of a state: how many there are. Each one's cells and water go into the list, `counts` and `waters`, in the order of their
/// lowest cells; into `marks`, one per cell, the number of its pool, 0 where it is not liquid. `work` is a number per cell, left at 0.
///
/// The state's carry holds three numbers: carry, poured, taken. Refusals 1, 2, 4, 5 and 6 write nothing; after 21, that the list has
/// room for fewer pools than there are, marks and work are 0 and the list is as it was.
pub fn pools(
    sides: Sides,
    state: State,
    counts: &mut [u32],
    waters: &mut [i64],
    marks: &mut [u16],
    work: &mut [u32],
) -> Result<usize, Refusal> {
    let (mut pools, mut place) = (0, 0);
    let number = unsafe {
        raw::skw_pools(
            state.flags.as_ptr(),
            state.flags.len(),
            state.parts.as_ptr(),
            state.parts.len(),
            state.masses.as_ptr(),
            state.masses.len(),
            state.fills.as_ptr(),
            state.fills.len(),
            state.carry.as_ptr(),
            state.carry.len(),
            counts.as_mut_ptr(),
            counts.len(),
            waters.as_mut_ptr(),
            waters.len(),
            marks.as_mut_ptr(),
            marks.len(),
            work.as_mut_ptr(),
            work.len(),
            sides.nx,
            sides.ny,
            sides.nz,
            &mut pools,
            &mut place,
        )
    };
    answered(number, place)?;
    Ok(pools)
}

/// The profile along a list of points: a kind and a depth for each, and the deepest point, if one is wet.
///
/// `chainages` rise strictly; `points` holds x, y and z of each; kinds are 1 solid, 2 dry, 3 deep and 4 outside, and a depth is 0
/// unless deep. Refusals 1, 2, 22, 3 of the site, 23, 3 of a point, then 4 and 6 of the points' columns by list order write nothing.
#[allow(clippy::too_many_arguments)]
pub fn profile(
    sides: Sides,
    site: Site,
    flags: &[u8],
    fills: &[u32],
    chainages: &[i64],
    points: &[i64],
    kinds: &mut [u8],
    depths: &mut [f32],
) -> Result<Option<usize>, Refusal> {
    let (mut wet, mut deepest, mut place) = (0, 0, 0);
    let number = unsafe {
        raw::skw_profile(
            sides.nx,
            sides.ny,
            sides.nz,
            site.edge,
            site.origin.x,
            site.origin.y,
            site.origin.z,
            flags.as_ptr(),
            flags.len(),
            fills.as_ptr(),
            fills.len(),
            chainages.as_ptr(),
            chainages.len(),
            points.as_ptr(),
            points.len(),
            kinds.as_mut_ptr(),
            kinds.len(),
            depths.as_mut_ptr(),
            depths.len(),
            &mut wet,
            &mut deepest,
            &mut place,
        )
    };
    answered(number, place)?;
    Ok((wet == 1).then_some(deepest))
}

/// The flags of a scheme's grid: wall where the map is 1, the scheme's own flag elsewhere. A scheme is a state whose flags are its own,
/// without walls, beside a map with a byte per cell, 1 for wall and 0 for not.
///
/// Refusals 1, 2, 4, 5 and 6 write nothing; 4 is for a byte of the map above 1, an own flag above 2, or an outer cell that is not wall in
/// the map, and 6 for an own flag other than 0 at a wall too.
pub fn scheme_join(sides: Sides, map: &[u8], scheme: State, grid: &mut [u8]) -> Result<(), Refusal> {
    let mut place = 0;
    let number = unsafe {
        raw::skw_scheme_join(
            map.as_ptr(),
            map.len(),
            scheme.flags.as_ptr(),
            scheme.flags.len(),
            scheme.parts.as_ptr(),
            scheme.parts.len(),
            scheme.masses.as_ptr(),
            scheme.masses.len(),
            scheme.fills.as_ptr(),
            scheme.fills.len(),
            scheme.carry.as_ptr(),
            scheme.carry.len(),
            grid.as_mut_ptr(),
            grid.len(),
            sides.nx,
            sides.ny,
            sides.nz,
            &mut place,
        )
    };
    answered(number, place)
}

/// A scheme's own flags back from those of its grid: empty for every wall. Refusals 1, 2 and 4 write nothing.
pub fn scheme_part(sides: Sides, grid: &[u8], flags: &mut [u8]) -> Result<(), Refusal> {
    let mut place = 0;
    let number = unsafe {
        raw::skw_scheme_part(
            grid.as_ptr(),
            grid.len(),
            flags.as_mut_ptr(),
            flags.len(),
            sides.nx,
            sides.ny,
            sides.nz,
            &mut place,
        )
    };
    answered(number, place)
}

/// Asks for a wall in an inner cell: accepted, the map's byte becomes 1, exactly if the cell is empty in both schemes.
///
/// Refusals of the asker's scheme, then of the other's, as [`scheme_join`] gives them, then 13, 17 and 18; none writes.
pub fn wall_add(
    sides: Sides,
    map: &mut [u8],
    asker: State,
    other: State,
    cell: usize,
) -> Result<(), Refusal> {
    let mut place = 0;
    let number = unsafe {
        raw::skw_wall_add(
            map.as_mut_ptr(),
            map.len(),
            asker.flags.as_ptr(),
            asker.flags.len(),
            asker.parts.as_ptr(),
            asker.parts.len(),
            asker.masses.as_ptr(),
            asker.masses.len(),
            asker.fills.as_ptr(),
            asker.fills.len(),
            asker.carry.as_ptr(),
            asker.carry.len(),
            other.flags.as_ptr(),
            other.flags.len(),
            other.parts.as_ptr(),
            other.parts.len(),
            other.masses.as_ptr(),
            other.masses.len(),
            other.fills.as_ptr(),
            other.fills.len(),
            other.carry.as_ptr(),
            other.carry.len(),
            sides.nx,
            sides.ny,
            sides.nz,
            cell,
            &mut place,
        )
    };
    answered(number, place)
}

/// Asks for an inner wall to be taken out: accepted, the map's byte becomes 0, exactly if no neighbour of the cell is fluid in either
/// scheme. Refusals as [`wall_add`] gives them.
pub fn wall_remove(
    sides: Sides,
    map: &mut [u8],
    asker: State,
    other: State,
    cell: usize,
) -> Result<(), Refusal> {
    let mut place = 0;
    let number = unsafe {
        raw::skw_wall_remove(
            map.as_mut_ptr(),
            map.len(),
            asker.flags.as_ptr(),
            asker.flags.len(),
            asker.parts.as_ptr(),
            asker.parts.len(),
            asker.masses.as_ptr(),
            asker.masses.len(),
            asker.fills.as_ptr(),
            asker.fills.len(),
            asker.carry.as_ptr(),
            asker.carry.len(),
            other.flags.as_ptr(),
            other.flags.len(),
            other.parts.as_ptr(),
            other.parts.len(),
            other.masses.as_ptr(),
            other.masses.len(),
            other.fills.as_ptr(),
            other.fills.len(),
            other.carry.as_ptr(),
            other.carry.len(),
            sides.nx,
            sides.ny,
            sides.nz,
            cell,
            &mut place,
        )
    };
    answered(number, place)
}

/// Writes the depth map of a state from the front of the room, and answers its length; room past it stays as it was.
///
/// A text as surveyors hand each other: six header lines, then a row a line from north to south, in whole millimetres, -9999 for a
/// column that is all wall. Of the site, the origin's height is not looked at. Refusals 1 to 6 and 12, whose place is the bytes
/// needed, write nothing.
pub fn depths_write(sides: Sides, site: Site, state: State, room: &mut [u8]) -> Result<usize, Refusal> {
    let (mut bytes, mut place) = (0, 0);
    let number = unsafe {
        raw::skw_depths_write(
            sides.nx,
            sides.ny,
            sides.nz,
            site.edge,
            site.origin.x,
            site.origin.y,
            state.flags.as_ptr(),
            state.flags.len(),
            state.parts.as_ptr(),
            state.parts.len(),
            state.masses.as_ptr(),
            state.masses.len(),
            state.fills.as_ptr(),
            state.fills.len(),
            state.carry.as_ptr(),
            state.carry.len(),
            room.as_mut_ptr(),
            room.len(),
            &mut bytes,
            &mut place,
        )
    };
    answered(number, place)?;
    Ok(bytes)
}

/// Reads an invert, a height grid's text, into a set and its index, and answers the sides and the site; the number of cells in height,
/// the origin's height and the settings are the host's to give.
///
/// A cell is wall if it is outer, if its column's height is -9999, or if its centre lies below that height; else it is empty.
/// Refusals 19 of a header line, 1, 2, 3, then 20 of a row write nothing; the place of 19 and 20 is the line, from 1.
pub fn invert_read(
    text: &[u8],
    nz: usize,
    height: i64,
    settings: Settings,
    into: HeldMut,
) -> Result<(Sides, Site), Refusal> {
    let HeldMut { state, index } = into;
    let mut sides = Sides::new(0, 0, nz);
    let mut site = Site { edge: 0, origin: Point::new(0, 0, height) };
    let mut place = 0;
    let number = unsafe {
        raw::skw_invert_read(
            text.as_ptr(),
            text.len(),
            nz,
            height,
            settings.p,
            settings.gx,
            settings.gy,
            settings.gz,
            state.flags.as_mut_ptr(),
            state.flags.len(),
            state.parts.as_mut_ptr(),
            state.parts.len(),
            state.masses.as_mut_ptr(),
            state.masses.len(),
            state.fills.as_mut_ptr(),
            state.fills.len(),
            state.carry.as_mut_ptr(),
            state.carry.len(),
            index.words.as_mut_ptr(),
            index.words.len(),
            index.count.as_mut_ptr(),
            index.count.len(),
            &mut sides.nx,
            &mut sides.ny,
            &mut site.edge,
            &mut site.origin.x,
            &mut site.origin.y,
            &mut place,
        )
    };
    answered(number, place)?;
    Ok((sides, site))
}
