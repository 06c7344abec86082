// Scenes of interface cells at rest that hang together in many ways, or not at all.

use crate::grid::Grid;
use crate::lattice::{weight, ONE};
use crate::random::Random;
use crate::scenes::{case_t, Scene};
use crate::state::{Cell, State, EMPTY, INTERFACE, MASS_LIMIT, WALL};

/// What a scene has at a place inside its outer layer: a flag that is not fluid's.
type Layout<'a> = &'a mut dyn FnMut([usize; 3]) -> u8;

/// The scene of a layout, its masses by seed.
fn laid(sides: [u32; 3], random: &mut Random, layout: Layout) -> Scene {
    let grid = Grid::new(sides).expect("sides in range");
    let parts = std::array::from_fn(|k| weight(k) * ONE / 36);
    let cell = |c: usize| match if grid.outer(c) { WALL } else { layout(grid.position(c)) } {
        INTERFACE => {
            let mass = random.between(-MASS_LIMIT, MASS_LIMIT);
            Cell { flag: INTERFACE, parts, mass, fill: 0 }
        }
        flag => Cell::blank(flag),
    };
    let mut state = State::new((0..grid.n).map(cell).collect(), 0);
    state.work_out_fills();
    Scene { sides, state, ..case_t() }
}

fn wet(liquid: bool) -> u8 {
    if liquid {
        INTERFACE
    } else {
        EMPTY
    }
}

/// As many lone cells as are known to fit: those whose coordinates are all odd or all even.
pub fn densest(sides: [u32; 3], random: &mut Random) -> Scene {
    laid(sides, random, &mut |[x, y, z]| wet(x % 2 == y % 2 && y % 2 == z % 2))
}

/// One pool of every cell inside.
pub fn full(sides: [u32; 3], random: &mut Random) -> Scene {
    laid(sides, random, &mut |_| INTERFACE)
}

/// One pool a cell wide, through the whole box: there and back along x, and so through every second row of every second layer.
pub fn snake(sides: [u32; 3], random: &mut Random) -> Scene {
    let [last_x, last_y, _] = sides.map(|side| side as usize - 2);
    let rows = last_y.div_ceil(2);
    laid(sides, random, &mut |[x, y, z]| {
        // How many rows the snake has gone through before the layer at or below z, and then in it.
        let before = (z - 1) / 2 * rows;
        let [first, end] = if (z - 1) / 2 % 2 == 0 { [1, 2 * rows - 1] } else { [2 * rows - 1, 1] };
        let within = y.abs_diff(first) / 2;
        let end_of = |row: usize| if row % 2 == 0 { last_x } else { 1 };
        wet(match (z % 2, y % 2) {
            (1, 1) => true,
            (1, _) => y < 2 * rows - 1 && x == end_of(before + within),
            _ => y == end && x == end_of(before + rows - 1),
        })
    })
}

/// Cells strewn among empty ones and walls, about as many as just hang together.
pub fn strewn(random: &mut Random) -> Scene {
    let sides = [(); 3].map(|_| random.between(3, 12) as u32);
    let (liquid, walls) = (random.pick(&[3, 8, 12, 15, 20, 40]), random.pick(&[0, 0, 20, 60]));
    let mut places = Random::new(random.bits());
    laid(sides, random, &mut |_| match places.below(100) {
        roll if roll < liquid => INTERFACE,
        _ if places.percent(walls) => WALL,
        _ => EMPTY,
    })
}
