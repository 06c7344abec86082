// The flume's scenes: water at rest in a hollow section, laid in two ways; good states by construction.

use oracle::flume::sets::blank;
use oracle::Store;

use crate::flume::Settings;
use crate::lattice::{Grid, Lattice, EMPTY, FLUID, INTERFACE, WALL};

const ONE: i64 = 589_824;
/// A deep section falls slowly, or its water would pass the limit of speed.
const DEEPEST_FALL: i64 = 5_000;

#[derive(Clone)]
pub struct Scene {
    pub name: &'static str,
    pub sides: [usize; 2],
    pub settings: Settings,
    pub store: Store,
}

impl Scene {
    pub fn grid(&self) -> Grid<9> {
        Grid::new(self.sides).expect("a scene's sides are in range")
    }
}

/// The two scenes of a section.
pub fn all(sides: [usize; 2]) -> [Scene; 2] {
    let nz = sides[1];
    let down = -(DEEPEST_FALL / nz as i64).max(1);
    let settings = Settings { p: 1600, gravity: [0, down], turbulent: false };
    [laid("flume at rest", sides, settings, |_, z| z <= nz / 2), dam_break(sides, settings)]
}

/// A third of the floor under water to three quarters of the height, let loose.
pub fn dam_break(sides: [usize; 2], settings: Settings) -> Scene {
    let [nx, nz] = sides;
    laid("flume dam break", sides, settings, |x, z| x <= nx / 3 && z <= 3 * nz / 4)
}

/// Lays water where it is asked for, makes its outermost cells interface, half full, and gives each cell the density that the water above it
/// presses out.
fn laid(
    name: &'static str,
    sides: [usize; 2],
    settings: Settings,
    water: impl Fn(usize, usize) -> bool,
) -> Scene {
    let [nx, nz] = sides;
    let grid = Grid::new(sides).expect("sides in range");
    let down = settings.gravity[1];
    let mut store = blank(grid.n);
    let inner = |c: usize| c % nx > 0 && c % nx < nx - 1 && c / nx > 0 && c / nx < nz - 1;
    for c in 0..grid.n {
        store.flags[c] = match inner(c) {
            false => WALL,
            true if water(c % nx, c / nx) => FLUID,
            true => EMPTY,
        };
    }
    let surface =
        |c: &usize| store.flags[*c] == FLUID && (1..9).any(|i| store.flags[grid.near(*c, i)] == EMPTY);
    let surface: Vec<usize> = (0..grid.n).filter(surface).collect();
    surface.into_iter().for_each(|c| store.flags[c] = INTERFACE);
    // From above, so that the depth under the surface is known when a cell is reached.
    let mut depth = vec![0; grid.n];
    for c in (0..grid.n).rev().filter(|&c| inner(c)) {
        if store.flags[c] == FLUID {
            depth[c] = depth[c + nx] + 1;
        }
        if store.flags[c] != EMPTY {
            fill_cell(&mut store, c, ONE - 3 * ONE * down * depth[c] / 1_048_576);
        }
    }
    Scene { name, sides, settings, store }
}

/// Parts at rest with this density, a fluid cell full and an interface cell half full.
fn fill_cell(store: &mut Store, c: usize, rho: i64) {
    let parts = &mut store.parts[9 * c..9 * c + 9];
    for (k, part) in parts.iter_mut().enumerate().skip(1) {
        *part = (if k < 5 { 4 * rho / 36 } else { rho / 36 }) as i32;
    }
    parts[0] = rho as i32 - parts[1..].iter().sum::<i32>();
    let mass = if store.flags[c] == FLUID { rho } else { rho / 2 };
    store.masses[c] = mass as i32;
    store.fills[c] = (65_536 * mass / rho) as u32;
}
