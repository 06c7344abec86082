// The flume's record: its bytes, its reader and its writer.

use crate::flume::grid::Grid;
use crate::flume::lattice::Flow;
use crate::flume::sets::{blank, fits, put};
use crate::flume::settings::{test_all, Settings};
use crate::flume::state::{good_state, test_closed, test_flags, test_rules, Cell, State};
use crate::grid::{refuse, Refusal};
use crate::record::{numbers_i32, numbers_i64, numbers_u32, Sections};
use crate::sets::{Set, SetMut, Store};
use crate::state::{density_allowed, FLUID, INTERFACE};

/// What the reader hands back beside the slices it wrote; the flags are the record's own bytes.
#[derive(Clone, Copy, Debug, PartialEq, Eq)]
pub struct Reading<'a> {
    pub sides: [u32; 2],
    pub settings: Settings,
    pub origin: [i64; 2],
    pub flags: &'a [u8],
}

/// Where each section begins with its count, in a record of n cells of which so many are interface.
pub fn section_starts(n: usize, interface: usize) -> [usize; 7] {
    [0, 12, 32, 52, 64, 68 + n, 72 + n + 4 * interface]
}

/// The state of the cells' flags, the masses of its interface cells and the parts of its liquid ones. Where a density is out of range no fill
/// is worked out, and test 6 refuses the cell for its density.
fn assembled(flags: &[u8], masses: Vec<i32>, parts: Vec<i32>, carry: i64) -> State {
    let mut masses = masses.into_iter().map(i128::from);
    let mut parts = parts.chunks_exact(9);
    let mut cell = |&flag: &u8| {
        let blank = Cell::blank(flag);
        if !blank.liquid() {
            return blank;
        }
        let own = parts.next().expect("nine parts for each liquid cell");
        let own = std::array::from_fn(|k| i128::from(own[k]));
        let rho = Flow::of(&own).rho;
        let mass = if flag == FLUID { rho } else { masses.next().expect("a mass for each interface cell") };
        let cell = Cell { flag, parts: own, mass, fill: 0 };
        if density_allowed(rho) {
            cell.filled()
        } else {
            cell
        }
    };
    State { cells: flags.iter().map(&mut cell).collect(), carry: i128::from(carry) }
}

/// The reader. The lent slices are written only when the whole record is accepted.
pub fn read<'a>(
    bytes: &'a [u8],
    parts: &mut [i32],
    masses: &mut [i32],
    fills: &mut [u32],
    carry: &mut [i64],
) -> Result<Reading<'a>, Refusal> {
    let mut sections = Sections::new(bytes);
    let two_sides = numbers_u32(sections.next(2, 4)?);
    let sides = [two_sides[0], two_sides[1]];
    let grid = Grid::new(sides)?;
    let n = grid.n();
    let mut flags_to_be = vec![0; n];
    let mut set = SetMut { flags: &mut flags_to_be, parts, masses, fills, carry };
    if !fits(&set.as_set(), n) {
        return refuse(2, 0);
    }
    let four = numbers_i32(sections.next(4, 4)?);
    let settings = Settings { p: four[0], gravity: [four[1], four[2]], edge: four[3] };
    let two = numbers_i64(sections.next(2, 8)?);
    let origin = [two[0], two[1]];
    let carried = numbers_i64(sections.next(1, 8)?)[0];
    let flags = sections.next(n, 1)?;
    test_flags(&grid, flags)?;
    let count = |wanted: u8| flags.iter().filter(|&&flag| flag == wanted).count();
    let masses = numbers_i32(sections.next(count(INTERFACE), 4)?);
    let parts = numbers_i32(sections.next(9 * (count(INTERFACE) + count(FLUID)), 4)?);
    if sections.at != bytes.len() {
        return refuse(10, sections.at);
    }
    test_all(&settings, origin)?;
    test_closed(&grid, flags)?;
    let state = assembled(flags, masses, parts, carried);
    test_rules(&state)?;
    put(&mut set, &state);
    Ok(Reading { sides, settings, origin, flags })
}

/// Reads into a store of the size that the record asks for.
pub fn read_whole(bytes: &[u8]) -> Result<(Reading<'_>, Store), Refusal> {
    let sides = Sections::new(bytes).next(2, 4).map(numbers_u32);
    let grid = sides.and_then(|sides| Grid::new([sides[0], sides[1]]));
    let mut store = blank(grid.map_or(0, |grid| grid.n()));
    let lent = store.lend_mut();
    let reading = read(bytes, lent.parts, lent.masses, lent.fills, lent.carry)?;
    store.flags = reading.flags.to_vec();
    Ok((reading, store))
}

/// The bytes of a record, of a good state or of a damaged one.
pub fn encode(sides: [u32; 2], settings: &Settings, origin: [i64; 2], state: &State) -> Vec<u8> {
    let interface = state.cells.iter().filter(|cell| cell.flag == INTERFACE);
    let liquid = state.cells.iter().filter(|cell| cell.liquid());
    let masses: Vec<i32> = interface.map(|cell| cell.mass as i32).collect();
    let parts: Vec<i32> = liquid.flat_map(|cell| cell.parts).map(|part| part as i32).collect();
    let Settings { p, gravity: [gx, gz], edge } = *settings;
    let numbers =
        |numbers: &[i32]| numbers.iter().flat_map(|number| number.to_le_bytes()).collect::<Vec<u8>>();
    let long = |numbers: &[i64]| numbers.iter().flat_map(|number| number.to_le_bytes()).collect::<Vec<u8>>();
    let sections = [
        (2, sides.map(u32::to_le_bytes).concat()),
        (4, numbers(&[p, gx, gz, edge])),
        (2, long(&origin)),
        (1, long(&[state.carry as i64])),
        (state.cells.len(), state.flags()),
        (masses.len(), numbers(&masses)),
        (parts.len(), numbers(&parts)),
    ];
    sections
        .into_iter()
        .flat_map(|(count, bytes)| [(count as u32).to_le_bytes().to_vec(), bytes].concat())
        .collect()
}

/// The writer: the record's length; room past it stays untouched.
pub fn write(
    sides: [u32; 2],
    settings: &Settings,
    origin: [i64; 2],
    set: Set,
    room: &mut [u8],
) -> Result<usize, Refusal> {
    let grid = Grid::new(sides)?;
    if !fits(&set, grid.n()) {
        return refuse(2, 0);
    }
    test_all(settings, origin)?;
    let state = good_state(&grid, set)?;
    let bytes = encode(sides, settings, origin, &state);
    match room.get_mut(..bytes.len()) {
        Some(record) => {
            record.copy_from_slice(&bytes);
            Ok(bytes.len())
        }
        None => refuse(12, bytes.len()),
    }
}
