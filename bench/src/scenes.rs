// The scenes: water at rest in a hollow cube, laid in four ways; good states by construction.

use oracle::Store;

use crate::engine::Settings;
use crate::lattice::{Grid, Lattice, EMPTY, FLUID, INTERFACE, WALL};

const ONE: i64 = 589_824;
/// About a ten-thousandth of a cell per step and step: a dam of 48 cells then falls at a third of the speed limit.
const DOWN: i64 = -105;

#[derive(Clone)]
pub struct Scene {
    pub name: &'static str,
    pub sides: [usize; 3],
    pub settings: Settings,
    pub store: Store,
}

impl Scene {
    pub fn grid(&self) -> Grid {
        Grid::new(self.sides).expect("a scene's sides are in range")
    }
}

/// All the water of a set, with the carry.
pub fn water(store: &Store) -> i128 {
    store.masses.iter().map(|&mass| i128::from(mass)).sum::<i128>() + i128::from(store.carry[0])
}

pub fn liquid_cells(flags: &[u8]) -> usize {
    flags.iter().filter(|&&flag| flag == FLUID || flag == INTERFACE).count()
}

/// The settings of every scene but for its gravity.
fn flowing(gravity: [i64; 3]) -> Settings {
    Settings { p: 1600, gravity, turbulent: false }
}

/// The four scenes of one side.
pub fn all(side: usize) -> [Scene; 4] {
    let dam_break = dam_break(side, flowing([0, 0, DOWN]));
    [tank_at_rest(side, (side - 2) / 2), dam_break, thin_film(side), mostly_dry(side)]
}

/// Water of this depth in cells, its densities those that gravity asks, so that nothing moves.
pub fn tank_at_rest(side: usize, depth: usize) -> Scene {
    laid("tank at rest", side, flowing([0, 0, DOWN]), |[_, _, z]| z <= depth)
}

/// A third of the floor under water to three quarters of the height, let loose.
pub fn dam_break(side: usize, settings: Settings) -> Scene {
    laid("dam break", side, settings, |[x, _, z]| x <= side / 3 && z <= 3 * side / 4)
}

/// One layer of fluid under one of interface, on a floor that falls by one in ten.
fn thin_film(side: usize) -> Scene {
    laid("thin film", side, flowing([-DOWN / 10, 0, DOWN]), |[_, _, z]| z <= 2)
}

/// A drop of a third of the side across, falling from above the floor.
fn mostly_dry(side: usize) -> Scene {
    let (middle, radius) = (side as i64 / 2, side as i64 / 6);
    laid("mostly dry", side, flowing([0, 0, DOWN]), |cell| {
        let [x, y, z] = cell.map(|coordinate| coordinate as i64 - middle);
        x * x + y * y + z * z <= radius * radius
    })
}

/// Lays water where it is asked for, makes its outermost cells interface, half full, and gives each cell the density
/// that the water above it presses out.
fn laid(name: &'static str, side: usize, settings: Settings, water: impl Fn([usize; 3]) -> bool) -> Scene {
    let sides = [side; 3];
    let grid = Grid::new(sides).expect("a side in range");
    let mut store = Store::blank(grid.n);
    let place = |c: usize| [c % side, c / side % side, c / side / side];
    let inner = |c: usize| place(c).iter().all(|&coordinate| coordinate > 0 && coordinate < side - 1);
    for c in 0..grid.n {
        store.flags[c] = match inner(c) {
            false => WALL,
            true if water(place(c)) => FLUID,
            true => EMPTY,
        };
    }
    let beside_empty: Vec<bool> =
        (0..grid.n).map(|c| inner(c) && (1..19).any(|i| store.flags[grid.near(c, i)] == EMPTY)).collect();
    for c in (0..grid.n).filter(|&c| inner(c)) {
        if store.flags[c] == FLUID && beside_empty[c] {
            store.flags[c] = INTERFACE;
        }
    }
    // From above, so that the depth under the surface is known when a cell is reached.
    let mut depth = vec![0; grid.n];
    let layer = side * side;
    for c in (0..grid.n).rev().filter(|&c| inner(c)) {
        if store.flags[c] == FLUID {
            depth[c] = depth[c + layer] + 1;
        }
        if store.flags[c] == FLUID || store.flags[c] == INTERFACE {
            let rho = ONE - 3 * ONE * settings.gravity[2] * depth[c] / 1_048_576;
            fill_cell(&mut store, c, rho);
        }
    }
    Scene { name, sides, settings, store }
}

/// Parts at rest with this density, a fluid cell full and an interface cell half full.
fn fill_cell(store: &mut Store, c: usize, rho: i64) {
    let parts = &mut store.parts[19 * c..19 * c + 19];
    for (k, part) in parts.iter_mut().enumerate().skip(1) {
        *part = (if k < 7 { 2 * rho / 36 } else { rho / 36 }) as i32;
    }
    parts[0] = rho as i32 - parts[1..].iter().sum::<i32>();
    let mass = if store.flags[c] == FLUID { rho } else { rho / 2 };
    store.masses[c] = mass as i32;
    store.fills[c] = (65_536 * mass / rho) as u32;
}
