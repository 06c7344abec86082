// The grid record: its bytes, its reader and its writer.

use crate::grid::{refuse, Grid, Refusal};
use crate::lattice::density;
use crate::sets::{Set, SetMut, Store};
use crate::settings::{test_all, Settings};
use crate::state::{good_state, test_closed, test_flags, test_rules, Cell, State, FLUID, INTERFACE};

/// What the reader hands back beside the slices it wrote; the flags are the record's own bytes.
#[derive(Clone, Copy, Debug, PartialEq, Eq)]
pub struct Reading<'a> {
    pub sides: [u32; 3],
    pub settings: Settings,
    pub origin: [i64; 3],
    pub flags: &'a [u8],
}

/// The sections not yet read.
pub(crate) struct Sections<'a> {
    bytes: &'a [u8],
    pub(crate) at: usize,
    section: usize,
}

impl<'a> Sections<'a> {
    pub(crate) fn new(bytes: &'a [u8]) -> Sections<'a> {
        Sections { bytes, at: 0, section: 0 }
    }

    /// The next section's numbers as bytes. The place of 10 is the byte of the section's count.
    pub(crate) fn next(&mut self, count: usize, size: usize) -> Result<&'a [u8], Refusal> {
        self.one_of(&[count], size)
    }

    /// The same where the count is one of these.
    fn one_of(&mut self, counts: &[usize], size: usize) -> Result<&'a [u8], Refusal> {
        self.section += 1;
        let rest = &self.bytes[self.at..];
        let Some((head, body)) = rest.split_first_chunk::<4>() else {
            return refuse(10, self.at);
        };
        let count = u32::from_le_bytes(*head) as usize;
        if !counts.contains(&count) {
            return refuse(11, self.section);
        }
        let Some(numbers) = body.get(..count * size) else {
            return refuse(10, self.at);
        };
        self.at += 4 + count * size;
        Ok(numbers)
    }
}

pub(crate) fn numbers_u32(bytes: &[u8]) -> Vec<u32> {
    bytes.chunks_exact(4).map(|b| u32::from_le_bytes([b[0], b[1], b[2], b[3]])).collect()
}

pub(crate) fn numbers_i32(bytes: &[u8]) -> Vec<i32> {
    numbers_u32(bytes).into_iter().map(|number| number as i32).collect()
}

pub(crate) fn numbers_i64(bytes: &[u8]) -> Vec<i64> {
    let halves = numbers_u32(bytes);
    halves.chunks_exact(2).map(|half| (u64::from(half[0]) | u64::from(half[1]) << 32) as i64).collect()
}

fn three<T: Copy>(numbers: &[T]) -> [T; 3] {
    [numbers[0], numbers[1], numbers[2]]
}

/// Section 1, and test 1 of the sides in it.
pub fn opened(bytes: &[u8]) -> Result<Grid, Refusal> {
    Grid::new(three(&numbers_u32(Sections::new(bytes).next(3, 4)?)))
}

/// The reader. The lent slices are written only when the whole record is accepted.
pub fn read<'a>(
    bytes: &'a [u8],
    parts: &mut [i32],
    masses: &mut [i32],
    fills: &mut [u32],
    carry: &mut [i64],
) -> Result<Reading<'a>, Refusal> {
    let mut sections = Sections::new(bytes);
    let sides = three(&numbers_u32(sections.next(3, 4)?));
    let grid = Grid::new(sides)?;
    let n = grid.n;
    if parts.len() != 19 * n || masses.len() != n || fills.len() != n || carry.len() != 3 {
        return refuse(2, 0);
    }
    let setting = numbers_i32(sections.next(5, 4)?);
    let settings = Settings { p: setting[0], gravity: three(&setting[1..]), edge: setting[4] };
    let origin = three(&numbers_i64(sections.next(3, 8)?));
    let totals = numbers_i64(sections.one_of(&[1, 3], 8)?);
    let total = |k: usize| totals.get(k).copied().map_or(0, i128::from);
    let flags = sections.next(n, 1)?;
    test_flags(&grid, flags)?;
    let interface = flags.iter().filter(|&&flag| flag == INTERFACE).count();
    let fluid = flags.iter().filter(|&&flag| flag == FLUID).count();
    let read_masses = numbers_i32(sections.next(interface, 4)?);
    let read_parts = numbers_i32(sections.next(19 * (interface + fluid), 4)?);
    if sections.at != bytes.len() {
        return refuse(10, sections.at);
    }
    test_all(&settings, origin)?;

    let mut mass = read_masses.into_iter().map(i128::from);
    let mut part = read_parts.into_iter().map(i128::from);
    let mut state =
        State { cells: Vec::with_capacity(n), carry: total(0), poured: total(1), taken: total(2) };
    for &flag in flags {
        let mut cell = Cell::blank(flag);
        if cell.liquid() {
            cell.parts = std::array::from_fn(|_| part.next().unwrap_or(0));
            let rho = density(&cell.parts);
            cell.mass = if flag == FLUID { rho } else { mass.next().unwrap_or(0) };
            // Without a density there is no fill, and test 6 refuses the cell for its density.
            cell.fill = if rho == 0 { 0 } else { cell.worked_out_fill() };
        }
        state.cells.push(cell);
    }
    test_closed(&grid, &state.cells)?;
    test_rules(&state)?;

    let mut own_flags = flags.to_vec();
    SetMut { flags: &mut own_flags, parts, masses, fills, carry }.put(&state);
    Ok(Reading { sides, settings, origin, flags })
}

/// Reads with room for at most that many cells; a larger grid finds slices of a wrong length, 2.
pub fn read_within(bytes: &[u8], room: usize) -> Result<(Reading<'_>, Store), Refusal> {
    let n = opened(bytes).map_or(0, |grid| grid.n);
    let mut store = Store::blank(if n <= room { n } else { 0 });
    let lent = store.lend_mut();
    let reading = read(bytes, lent.parts, lent.masses, lent.fills, lent.carry)?;
    store.flags = reading.flags.to_vec();
    Ok((reading, store))
}

/// The bytes of a record with three numbers in section 4 or only the carry there, of a good state or of a damaged one.
pub fn encode(
    sides: [u32; 3],
    settings: &Settings,
    origin: [i64; 3],
    state: &State,
    numbers: usize,
) -> Vec<u8> {
    let interface = state.cells.iter().filter(|cell| cell.flag == INTERFACE);
    let liquid = state.cells.iter().filter(|cell| cell.liquid());
    let masses: Vec<i32> = interface.map(|cell| cell.mass as i32).collect();
    let parts: Vec<i32> = liquid.flat_map(|cell| cell.parts).map(|part| part as i32).collect();
    let [gx, gy, gz] = settings.gravity;

    let mut bytes = Vec::new();
    let mut section = |count: usize, numbers: Vec<u8>| {
        bytes.extend((count as u32).to_le_bytes());
        bytes.extend(numbers);
    };
    section(3, sides.iter().flat_map(|side| side.to_le_bytes()).collect());
    section(
        5,
        [settings.p, gx, gy, gz, settings.edge].iter().flat_map(|number| number.to_le_bytes()).collect(),
    );
    section(3, origin.iter().flat_map(|number| number.to_le_bytes()).collect());
    let totals = [state.carry, state.poured, state.taken].map(|number| (number as i64).to_le_bytes());
    section(numbers, totals[..numbers].concat());
    section(state.cells.len(), state.cells.iter().map(|cell| cell.flag).collect());
    section(masses.len(), masses.iter().flat_map(|mass| mass.to_le_bytes()).collect());
    section(parts.len(), parts.iter().flat_map(|part| part.to_le_bytes()).collect());
    bytes
}

/// What an accepted record is written back as: with three numbers in section 4 its own bytes.
pub fn written_back(bytes: &[u8]) -> Vec<u8> {
    match bytes[68] {
        1 => [&bytes[..68], &[3, 0, 0, 0], &bytes[72..80], &[0; 16], &bytes[80..]].concat(),
        _ => bytes.to_vec(),
    }
}

/// The writer: the record's length; room past it stays untouched.
pub fn write(
    sides: [u32; 3],
    settings: &Settings,
    origin: [i64; 3],
    set: Set,
    room: &mut [u8],
) -> Result<usize, Refusal> {
    let grid = Grid::new(sides)?;
    if !set.fits(grid.n) {
        return refuse(2, 0);
    }
    test_all(settings, origin)?;
    let state = good_state(&grid, set)?;
    let bytes = encode(sides, settings, origin, &state, 3);
    match room.get_mut(..bytes.len()) {
        Some(record) => {
            record.copy_from_slice(&bytes);
            Ok(bytes.len())
        }
        None => refuse(12, bytes.len()),
    }
}
