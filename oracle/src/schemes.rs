// Two schemes over one wall map, as docs/AMENDMENTS.md has them under P7: join, part, and a wall asked for or taken out by either.

use crate::grid::{refuse, Grid, Refusal};
use crate::sets::Set;
use crate::state::{test_closed, test_flags, State, EMPTY, FLUID, WALL};

/// The map's byte where there is a wall; 0 where there is none.
pub const SOLID: u8 = 1;

/// What either designer may ask for at a cell.
#[derive(Clone, Copy, Debug, PartialEq, Eq)]
pub enum Change {
    /// A wall.
    Add,
    /// The wall to be taken out.
    Remove,
}

impl Change {
    /// The map's byte of the cell once it is accepted.
    fn byte(self) -> u8 {
        match self {
            Change::Add => SOLID,
            Change::Remove => 0,
        }
    }

    /// Whether a scheme's water is in the way; the cell lies inside the outer layer.
    fn hindered(self, grid: &Grid, own: &[u8], cell: usize) -> bool {
        match self {
            Change::Add => own[cell] != EMPTY,
            Change::Remove => grid.neighbours(cell).any(|neighbour| own[neighbour] == FLUID),
        }
    }
}

/// Test 4, one pass over its three faults.
fn test_bytes(grid: &Grid, map: &[u8], own: &[u8]) -> Result<(), Refusal> {
    let wrong = |&c: &usize| map[c] > SOLID || own[c] > FLUID || grid.outer(c) && map[c] != SOLID;
    match (0..grid.n).find(wrong) {
        Some(c) => refuse(4, c),
        None => Ok(()),
    }
}

/// Test 6 of the grid that a scheme makes, and of its own flags at walls, one pass over both.
fn test_dry_walls(map: &[u8], own: &[u8], state: &State) -> Result<(), Refusal> {
    let wet = (0..map.len()).find(|&c| map[c] == SOLID && own[c] != EMPTY);
    match wet.into_iter().chain(state.broken_place()).min() {
        Some(place) => refuse(6, place),
        None => Ok(()),
    }
}

/// Tests 4 to 6 of a scheme whose lengths are right; the flags of the grid that it makes with the map.
fn good_scheme(grid: &Grid, map: &[u8], scheme: Set) -> Result<Vec<u8>, Refusal> {
    test_bytes(grid, map, scheme.flags)?;
    let walled = |c: usize| if map[c] == SOLID { WALL } else { scheme.flags[c] };
    let flags: Vec<u8> = (0..grid.n).map(walled).collect();
    let state = State::of(Set { flags: &flags, ..scheme });
    test_closed(grid, &state.cells)?;
    test_dry_walls(map, scheme.flags, &state)?;
    Ok(flags)
}

/// Join: the flags of a scheme's grid. A refusal writes nothing.
pub fn join(sides: [u32; 3], map: &[u8], scheme: Set, flags: &mut [u8]) -> Result<(), Refusal> {
    let grid = Grid::new(sides)?;
    if !(map.len() == grid.n && scheme.fits(grid.n) && flags.len() == grid.n) {
        return refuse(2, 0);
    }
    flags.copy_from_slice(&good_scheme(&grid, map, scheme)?);
    Ok(())
}

/// Part: the own flags of a grid, 0 for every wall. A refusal writes nothing.
pub fn part(sides: [u32; 3], flags: &[u8], own: &mut [u8]) -> Result<(), Refusal> {
    let grid = Grid::new(sides)?;
    if !(flags.len() == grid.n && own.len() == grid.n) {
        return refuse(2, 0);
    }
    test_flags(&grid, flags)?;
    for (own, &flag) in own.iter_mut().zip(flags) {
        *own = if flag == WALL { EMPTY } else { flag };
    }
    Ok(())
}

/// A wall asked for or taken out: all of the asker's tests, all of the other's, then those of the cell. Accepted, the cell's byte of the map is written
/// and nothing else.
pub fn change(
    change: Change,
    sides: [u32; 3],
    map: &mut [u8],
    asker: Set,
    other: Set,
    cell: u64,
) -> Result<(), Refusal> {
    let grid = Grid::new(sides)?;
    if !(map.len() == grid.n && asker.fits(grid.n)) {
        return refuse(2, 0);
    }
    good_scheme(&grid, map, asker)?;
    if !other.fits(grid.n) {
        return refuse(2, 0);
    }
    good_scheme(&grid, map, other)?;
    let Some(cell) = usize::try_from(cell).ok().filter(|&cell| cell < grid.n) else {
        return refuse(13, 0);
    };
    if grid.outer(cell) || map[cell] == change.byte() {
        return refuse(17, cell);
    }
    if [asker, other].iter().any(|scheme| change.hindered(&grid, scheme.flags, cell)) {
        return refuse(18, cell);
    }
    map[cell] = change.byte();
    Ok(())
}

pub fn wall_add(sides: [u32; 3], map: &mut [u8], asker: Set, other: Set, cell: u64) -> Result<(), Refusal> {
    change(Change::Add, sides, map, asker, other, cell)
}

pub fn wall_remove(
    sides: [u32; 3],
    map: &mut [u8],
    asker: Set,
    other: Set,
    cell: u64,
) -> Result<(), Refusal> {
    change(Change::Remove, sides, map, asker, other, cell)
}
