// One pool or three, as docs/AMENDMENTS.md has it under P9: which liquid cells hang together, by trees of cells that grow together.

use crate::grid::{refuse, Grid, Refusal};
use crate::sets::Set;
use crate::state::{good_state, State};

/// What is lent beside the set.
#[derive(Debug)]
pub struct Room<'a> {
    pub counts: &'a mut [u32],
    pub waters: &'a mut [i64],
    pub marks: &'a mut [u16],
    pub work: &'a mut [u32],
}

/// Tests 1, 2, 4, 5 and 6.
fn tested(sides: [u32; 3], set: Set, room: &Room) -> Result<(Grid, State), Refusal> {
    let grid = Grid::new(sides)?;
    let fits = [room.marks.len(), room.work.len()] == [grid.n; 2] && room.counts.len() == room.waters.len();
    if !(set.fits(grid.n) && fits) {
        return refuse(2, 0);
    }
    let state = good_state(&grid, set)?;
    Ok((grid, state))
}

/// The lowest cell of a tree: the one that is its own root.
fn root(roots: &mut [usize], c: usize) -> usize {
    let mut lowest = c;
    while roots[lowest] != lowest {
        // On the way every other cell is hung higher, so that later ways are short.
        roots[lowest] = roots[roots[lowest]];
        lowest = roots[lowest];
    }
    lowest
}

/// For every liquid cell the lowest one of its pool.
fn lowest_cells(grid: &Grid, state: &State) -> Vec<Option<usize>> {
    let liquid = |c: usize| state.cells[c].liquid();
    let mut roots: Vec<usize> = (0..grid.n).collect();
    for c in (0..grid.n).filter(|&c| liquid(c)) {
        for d in grid.neighbours(c).filter(|&d| liquid(d)) {
            let (a, b) = (root(&mut roots, c), root(&mut roots, d));
            roots[a.max(b)] = a.min(b);
        }
    }
    (0..grid.n).map(|c| liquid(c).then(|| root(&mut roots, c))).collect()
}

/// A pool of the list.
#[derive(Clone, Copy, Debug, Default, PartialEq, Eq)]
struct Pool {
    cells: u32,
    water: i128,
}

/// The pools in the order of their lowest cells, and every cell's mark.
fn numbered(lowest: &[Option<usize>], state: &State) -> (Vec<Pool>, Vec<u16>) {
    let firsts: Vec<usize> = (0..lowest.len()).filter(|&c| lowest[c] == Some(c)).collect();
    let mut pools = vec![Pool::default(); firsts.len()];
    let mark = |c: usize| match lowest[c] {
        Some(first) => {
            let k = firsts.binary_search(&first).expect("a lowest cell");
            pools[k].cells += 1;
            pools[k].water += state.cells[c].mass;
            k as u16 + 1
        }
        None => 0,
    };
    let marks = (0..lowest.len()).map(mark).collect();
    (pools, marks)
}

/// How many pools a set has, each one's cells and water, and every cell's mark.
pub fn pools(sides: [u32; 3], set: Set, room: Room) -> Result<usize, Refusal> {
    let (grid, state) = tested(sides, set, &room)?;
    let (pools, marks) = numbered(&lowest_cells(&grid, &state), &state);
    room.work.fill(0);
    if room.counts.len() < pools.len() {
        room.marks.fill(0);
        return refuse(21, pools.len());
    }
    room.marks.copy_from_slice(&marks);
    for (k, pool) in pools.iter().enumerate() {
        room.counts[k] = pool.cells;
        room.waters[k] = pool.water as i64;
    }
    Ok(pools.len())
}
