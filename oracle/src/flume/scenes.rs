// Good states of the flume by seed: where the water lies, how its parts are chosen, and how its masses are.

use crate::flume::grid::Grid;
use crate::flume::lattice::{dot, Flow, Parts, Vector, WEIGHTS};
use crate::flume::record::encode;
use crate::flume::settings::{test_step, Settings};
use crate::flume::state::{speed_allowed, Cell, State};
use crate::flume::step::rebuilt;
use crate::lattice::{cut, opposite, ONE};
use crate::random::Random;
use crate::settings::REACH;
use crate::state::{
    CARRY_LIMIT, EMPTY, FLUID, HIGHEST_DENSITY, INTERFACE, LOWEST_DENSITY, MASS_LIMIT, PART_LIMIT, WALL,
};

#[derive(Clone, Debug, PartialEq, Eq)]
pub struct Scene {
    pub sides: [u32; 2],
    pub settings: Settings,
    pub origin: [i64; 2],
    pub state: State,
}

impl Scene {
    pub fn grid(&self) -> Grid {
        Grid::new(self.sides).expect("a scene's sides are in range")
    }

    pub fn record(&self) -> Vec<u8> {
        encode(self.sides, &self.settings, self.origin, &self.state)
    }

    /// A scene of these cells inside walls, at origin 0 with no carry.
    pub fn of(sides: [u32; 2], settings: Settings, inner: &[(usize, Cell)]) -> Scene {
        let grid = Grid::new(sides).expect("sides in range");
        let mut state = State { cells: vec![Cell::blank(WALL); grid.n()], carry: 0 };
        for &(c, cell) in inner {
            state.cells[c] = cell;
        }
        state.work_out_fills();
        Scene { sides, settings, origin: [0; 2], state }
    }
}

/// An interface cell at rest at density ONE.
pub fn resting(mass: i128) -> Cell {
    Cell { flag: INTERFACE, parts: WEIGHTS.map(|weight| weight * 16_384), mass, fill: 0 }.filled()
}

/// Case F of the amendment.
pub fn case_f() -> Scene {
    let settings = Settings { p: 1024, gravity: [0, -1024], edge: 50 };
    Scene::of([3, 3], settings, &[(4, resting(294_912))])
}

/// Where a scene's water lies.
#[derive(Clone, Copy)]
enum Layout {
    /// Fluid under a layer of interface, drops above it.
    Pool,
    /// Fluid to one side, as behind a dam.
    Dam,
    Film,
    Drop,
    /// Cells alone between walls and empty cells, whose excess finds no interface cell.
    Pockets,
    /// All fluid but for single interface cells.
    Full,
    Anything,
}

const LAYOUTS: [Layout; 7] =
    [Layout::Pool, Layout::Dam, Layout::Film, Layout::Drop, Layout::Pockets, Layout::Full, Layout::Anything];

/// How the parts of a scene's water are chosen.
#[derive(Clone, Copy)]
enum Temper {
    /// Near rest.
    Still,
    /// One common velocity in thousandths, with noise.
    Lively(Vector),
    /// Any density and speed, the limits themselves among them.
    Wild,
    /// Parts driven to their limits at unchanged density and momentum.
    Extreme,
}

/// How the masses of interface cells are chosen.
#[derive(Clone, Copy)]
enum Mood {
    Part,
    /// About to fill or to empty.
    Brink,
    /// At the limits of a mass, or anywhere between them.
    Limit,
}

/// The good scene of a seed.
pub fn good(seed: u64) -> Scene {
    let random = &mut Random::new(seed);
    let mut scene = match random.below(20) {
        0 => fast_newborn(random),
        1 => gravity_past_speed(random),
        2 => at_a_limit(random),
        _ => mixed(random),
    };
    scene.origin = [(); 2].map(|_| {
        let anywhere = random.between(i128::from(-REACH), i128::from(REACH)) as i64;
        random.pick(&[0, REACH, -REACH, anywhere])
    });
    scene.state.carry = match random.below(8) {
        0 => CARRY_LIMIT - random.between(0, 3),
        1 => random.between(0, 3) - CARRY_LIMIT,
        2 => random.between(-CARRY_LIMIT, CARRY_LIMIT),
        3 => random.between(-1000, 1000),
        _ => 0,
    };
    scene.state.work_out_fills();
    scene
}

/// Settings for a step, often at the ends of their ranges.
pub fn settings(random: &mut Random) -> Settings {
    let p = match random.below(8) {
        0 => 1,
        1 => 2037,
        2 => 1024,
        3 => random.between(1500, 2037),
        _ => random.between(1, 2037),
    };
    let gravity = match random.below(6) {
        0 => [0, 0],
        1 => random.pick(&[[34, -1048], [-1048, 34], [-34, 1048]]),
        2 => random.pick(&[[1048, 0], [-1048, 0], [0, 1048], [0, -1048]]),
        3 => [0, -(random.between(1, 200) as i32)],
        _ => loop {
            let gravity = [(); 2].map(|_| random.between(-1048, 1048) as i32);
            if test_step(1, gravity).is_ok() {
                break gravity;
            }
        },
    };
    let edge = random.between(1, 1000) as i32;
    let edge = random.pick(&[1, 1000, edge, edge]);
    Settings { p: p as i32, gravity, edge }
}

fn sides(random: &mut Random) -> [u32; 2] {
    let mut side = |lowest: i128, highest: i128| random.between(lowest, highest) as u32;
    match side(1, 100) {
        1..=2 => [side(17, 40), side(17, 30)],
        3..=5 => [side(100, 512), side(3, 6)],
        6..=7 => [side(3, 6), side(100, 512)],
        8..=10 => [3, 3],
        11..=40 => [side(3, 6), side(3, 6)],
        _ => [side(4, 16), side(4, 16)],
    }
}

/// Lays water into a hollow section, then closes the layer around the fluid.
fn flags(random: &mut Random, grid: &Grid, layout: Layout) -> Vec<u8> {
    let (nx, nz) = (grid.nx as i128, grid.nz as i128);
    let (reach, level) = (random.between(1, nx - 2), random.between(1, nz - 2));
    // In half cells, so that a drop's centre may lie between cells.
    let centre = [random.between(2, 2 * nx - 4), random.between(2, 2 * nz - 4)];
    let radius = random.between(2, 10);
    let walls = random.pick(&[0, 0, 0, 5, 15]);
    let rock = random.pick(&[50, 85]);
    // In a hundred: how many cells are fluid, and how many are liquid.
    let (fluid, liquid) = random.pick(&[(20, 50), (50, 90), (70, 100), (0, 20), (90, 100)]);
    let mut laid = |c: usize| {
        if grid.outer(c) || random.percent(walls) {
            return WALL;
        }
        let (x, z) = grid.position(c);
        let (x, z) = (x as i128, z as i128);
        let way = [2 * x - centre[0], 2 * z - centre[1]];
        let far = dot(way, way);
        match layout {
            Layout::Pool if z < level => FLUID,
            Layout::Pool if z == level || random.percent(3) => INTERFACE,
            Layout::Dam if x < reach && z < level => FLUID,
            Layout::Dam if x <= reach && z <= level => INTERFACE,
            Layout::Film if z == level => INTERFACE,
            Layout::Drop if far <= radius * radius => FLUID,
            Layout::Drop if far <= (radius + 3) * (radius + 3) => INTERFACE,
            Layout::Pockets if random.percent(rock) => WALL,
            Layout::Pockets if random.percent(60) => INTERFACE,
            Layout::Full if random.percent(12) => INTERFACE,
            Layout::Full => FLUID,
            Layout::Anything => match random.below(100) {
                roll if roll < fluid => FLUID,
                roll if roll < liquid => INTERFACE,
                _ => EMPTY,
            },
            _ => EMPTY,
        }
    };
    let mut flags: Vec<u8> = (0..grid.n()).map(&mut laid).collect();
    for c in 0..grid.n() {
        if flags[c] == FLUID && grid.neighbours(c).any(|b| flags[b] == EMPTY) {
            flags[c] = INTERFACE;
        }
    }
    flags
}

fn mixed(random: &mut Random) -> Scene {
    let sides = sides(random);
    let grid = Grid::new(sides).expect("sides in range");
    let mut settings = settings(random);
    let mut layout = random.pick(&LAYOUTS);
    let speed = random.pick(&[10, 30, 100]);
    let temper = match random.below(100) {
        0..35 => Temper::Still,
        35..70 => Temper::Lively([(); 2].map(|_| random.between(-speed, speed))),
        70..80 => Temper::Wild,
        _ => Temper::Extreme,
    };
    if matches!(temper, Temper::Extreme) && random.percent(70) {
        // Walls throw extreme parts back so that test 7 lets them pass; p near 2048 then nearly turns their signs, which is where a part
        // leaves its range.
        layout = Layout::Pockets;
        settings.p = settings.p.max(random.pick(&[1, 2000, 2030, 2037]));
    }
    let mood = random.pick(&[Mood::Part, Mood::Part, Mood::Brink, Mood::Brink, Mood::Limit]);
    // Strangers among the cells, so that one scene mixes tempers and moods.
    let strangers = random.pick(&[0, 0, 5, 30]);
    let flags = flags(random, &grid, layout);
    let cell = |flag: u8| {
        if flag != FLUID && flag != INTERFACE {
            return Cell::blank(flag);
        }
        let (temper, mood) = if random.percent(strangers) {
            (
                random.pick(&[Temper::Still, Temper::Wild, Temper::Extreme]),
                random.pick(&[Mood::Part, Mood::Brink, Mood::Limit]),
            )
        } else {
            (temper, mood)
        };
        let parts = water(random, temper);
        let rho = Flow::of(&parts).rho;
        let mass = if flag == FLUID { rho } else { mass(random, rho, mood) };
        Cell { flag, parts, mass, fill: 0 }
    };
    let cells = flags.into_iter().map(cell).collect();
    Scene { sides, settings, origin: [0; 2], state: State { cells, carry: 0 } }
}

/// Parts with exactly this density and momentum, close to their equilibrium.
pub fn parts_at(rho: i128, j: Vector) -> Parts {
    let mut parts = Flow { rho, j }.equilibrium();
    let reached = Flow::of(&parts).j;
    for (axis, part) in [(0, 1), (1, 3)] {
        let missing = j[axis] - reached[axis];
        parts[part] += missing;
        parts[0] -= missing;
    }
    parts
}

/// A momentum as long as the speed rule allows at this density, in a random direction.
fn fastest(random: &mut Random, rho: i128) -> Vector {
    let way = [(); 2].map(|_| random.between(-100, 100));
    let length = dot(way, way).isqrt().max(1);
    let mut j = way.map(|part| cut(part * rho, 3 * length));
    while !speed_allowed(&Flow { rho, j }) {
        j = j.map(|part| part - part.signum());
    }
    j
}

fn water(random: &mut Random, temper: Temper) -> Parts {
    match temper {
        Temper::Still => {
            let rho = ONE + random.between(-600, 600);
            parts_at(rho, [(); 2].map(|_| random.between(-500, 500)))
        }
        Temper::Lively(velocity) => {
            let rho = ONE + random.between(-20_000, 20_000);
            let j = velocity.map(|part| cut(part * rho, 1000) + random.between(-3000, 3000));
            let mut parts = parts_at(rho, j);
            swap(random, &mut parts, 2000);
            parts
        }
        Temper::Wild => {
            let between = random.between(LOWEST_DENSITY, HIGHEST_DENSITY);
            let rho = random.pick(&[LOWEST_DENSITY, HIGHEST_DENSITY, between, between]);
            let share = random.pick(&[0, 30, 90, 100]);
            let j = fastest(random, rho).map(|part| cut(part * share, 100));
            let mut parts = parts_at(rho, j);
            swap(random, &mut parts, 20_000);
            parts
        }
        Temper::Extreme => {
            let rho = random.between(ONE - 100_000, ONE + 100_000);
            let mut parts = parts_at(rho, [(); 2].map(|_| random.between(-9000, 9000)));
            for _ in 0..random.between(1, 4) {
                swap(random, &mut parts, 2 * PART_LIMIT);
            }
            parts
        }
    }
}

/// Moves water between two pairs of opposite directions, or between a pair and rest, as much of a random amount as the limits of the parts
/// allow: density and momentum stay as they are.
fn swap(random: &mut Random, parts: &mut Parts, reach: i128) {
    let from = 2 * random.below(4) + 1;
    let to = random.pick(&[1, 3, 5, 7].into_iter().filter(|&pair| pair != from).collect::<Vec<usize>>());
    let with_rest = random.percent(30);
    let amount = random.between(-reach, reach);
    let moved = |amount: i128| {
        let mut moved = *parts;
        moved[to] += amount;
        moved[to + 1] += amount;
        if with_rest {
            moved[0] -= 2 * amount;
        } else {
            moved[from] -= amount;
            moved[from + 1] -= amount;
        }
        moved
    };
    let allowed = |amount: i128| moved(amount).iter().all(|part| part.abs() <= PART_LIMIT);
    // The largest amount that is allowed; none at all is.
    let (mut most, mut too_much) = (0, amount.abs() + 1);
    while too_much - most > 1 {
        let middle = (most + too_much) / 2;
        if allowed(middle * amount.signum()) {
            most = middle;
        } else {
            too_much = middle;
        }
    }
    *parts = moved(most * amount.signum());
}

fn mass(random: &mut Random, rho: i128, mood: Mood) -> i128 {
    let near = random.between(-2, 2);
    let part = random.between(0, rho);
    let any = random.between(-MASS_LIMIT, MASS_LIMIT);
    match mood {
        Mood::Part => part,
        Mood::Brink => random.pick(&[part, cut(1001 * rho, 1000) + near, cut(-rho, 1000) + near]),
        Mood::Limit => random.pick(&[MASS_LIMIT, -MASS_LIMIT, any, any]),
    }
}

/// An interface cell between walls that fills towards one empty cell at the very limit of speed, so that the new interface cell takes over
/// ρ' and j' and its rounding alone decides about refusal 8.
fn fast_newborn(random: &mut Random) -> Scene {
    // With p 1 the filling cell itself, close to equilibrium, keeps its momentum.
    let settings = Settings { p: 1, gravity: [0; 2], edge: 50 };
    loop {
        let rho = random.between(ONE - 30_000, ONE + 30_000);
        let [x, z] = fastest(random, rho);
        let Some(parts) = before_streaming(&parts_at(rho, [x.abs(), z])) else { continue };
        let mass = cut(1001 * rho, 1000) + random.between(1, 1000);
        let cell = Cell { flag: INTERFACE, parts, mass, fill: 0 }.filled();
        if cell.broken_rules().is_empty() {
            return Scene::of([4, 3], settings, &[(5, cell), (6, Cell::blank(EMPTY))]);
        }
    }
}

/// Parts that stream into the wanted ones in a cell with walls around it but for an empty cell at direction 1: all are known but part 1,
/// which is searched.
fn before_streaming(wanted: &Parts) -> Option<Parts> {
    let mut parts = *wanted;
    for i in 1..9 {
        parts[i] = wanted[opposite(i)];
    }
    let rest = Flow::of(&parts).rho - parts[1];
    // What streaming would give as part 2 falls as part 1 grows.
    let (mut low, mut high) = (LOWEST_DENSITY - rest, HIGHEST_DENSITY - rest);
    while low < high {
        parts[1] = (low + high).div_euclid(2);
        if rebuilt(&parts, 1) <= wanted[2] {
            high = parts[1];
        } else {
            low = parts[1] + 1;
        }
    }
    parts[1] = low;
    (rebuilt(&parts, 1) == wanted[2]).then_some(parts)
}

/// A cell between walls that passes test 7 with gravity once, while p above 1024 adds more of it.
fn gravity_past_speed(random: &mut Random) -> Scene {
    let rho = random.between(LOWEST_DENSITY, HIGHEST_DENSITY);
    let (axis, way) = (random.below(2), random.pick(&[1, -1]));
    let (mut gravity, mut j) = ([0; 2], [0; 2]);
    gravity[axis] = 1048 * way as i32;
    j[axis] = -way * (cut(rho, 3) - cut(rho * 1048, 1_048_576) - random.between(0, 300));
    let cell = Cell { flag: INTERFACE, parts: parts_at(rho, j), mass: random.between(0, rho), fill: 0 };
    let settings = Settings { p: random.between(1025, 2037) as i32, gravity, edge: 50 };
    Scene::of([3, 3], settings, &[(4, cell)])
}

/// A cell between walls, so that streaming leaves its density, speed and mass as they are, exactly at a limit or one unit beside it: of
/// filling, of emptying, or of speed.
fn at_a_limit(random: &mut Random) -> Scene {
    let beside = random.between(-1, 1);
    let thousands = random.between(295, 1179);
    // Fifteenths, as a momentum of 3 and 4 of them is 5 long.
    let fifteenths = random.between(LOWEST_DENSITY / 15 + 1, HIGHEST_DENSITY / 15 - 1);
    let full = 15 * fifteenths;
    let (rho, j, mass) = match random.below(4) {
        0 => (1000 * thousands, [0; 2], 1001 * thousands + beside),
        1 => (1000 * thousands, [0; 2], beside - thousands),
        2 => (full, [5 * fifteenths, 0], random.between(0, full)),
        _ => (full + beside.max(0), [-3 * fifteenths, 4 * fifteenths], random.between(0, full)),
    };
    let cell = Cell { flag: INTERFACE, parts: parts_at(rho, j), mass, fill: 0 };
    // Gravity would push a speed past its limit.
    let settings = Settings { gravity: [0; 2], ..settings(random) };
    Scene::of([3, 3], settings, &[(4, cell)])
}
