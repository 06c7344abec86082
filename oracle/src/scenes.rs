// Good states by seed: layouts of water crossed with tempers of its parts and moods of its masses.

use crate::grid::Grid;
use crate::lattice::{cut, density, dot, equilibrium, momentum, opposite, weight, Parts, Vector, ONE};
use crate::random::Random;
use crate::record::encode;
use crate::settings::{Settings, GRAVITY_LIMIT, REACH};
use crate::state::{
    speed_allowed, Cell, State, CARRY_LIMIT, EMPTY, FLUID, HIGHEST_DENSITY, INTERFACE, LOWEST_DENSITY,
    MASS_LIMIT, PART_LIMIT, TOTAL_LIMIT, WALL,
};
use crate::step::rebuilt;

#[derive(Clone, Debug, PartialEq, Eq)]
pub struct Scene {
    pub sides: [u32; 3],
    pub settings: Settings,
    pub origin: [i64; 3],
    pub state: State,
    /// How many numbers section 4 of its record has, 1 or 3; with 1 nothing was poured or taken.
    pub numbers: usize,
}

impl Scene {
    pub fn grid(&self) -> Grid {
        Grid::new(self.sides).expect("a scene's sides are in range")
    }

    pub fn record(&self) -> Vec<u8> {
        encode(self.sides, &self.settings, self.origin, &self.state, self.numbers)
    }
}

/// Where a scene's water lies.
#[derive(Clone, Copy)]
enum Layout {
    /// Fluid under an interface layer, with scattered drops above it.
    Pool,
    /// One layer of interface cells.
    Film,
    Drop,
    /// Cells alone between walls and empty cells, whose excess finds no interface cell.
    Pockets,
    /// A full box with single interface cells in it.
    Full,
    Anything,
}

const LAYOUTS: [Layout; 6] =
    [Layout::Pool, Layout::Film, Layout::Drop, Layout::Pockets, Layout::Full, Layout::Anything];

/// How the parts of a scene's water are chosen.
#[derive(Clone, Copy)]
enum Temper {
    /// Near rest.
    Still,
    /// One common velocity, with noise.
    Lively(Vector),
    /// Any density and speed, the limits themselves among them.
    Wild,
    /// Parts driven to their limits at unchanged density and momentum.
    Extreme,
}

/// How the masses of a scene's interface cells are chosen.
#[derive(Clone, Copy)]
enum Mood {
    Part,
    /// About to fill or to empty.
    Brink,
    /// At the limits of a mass, or anywhere between them.
    Limit,
}

/// Case T of document 01.
pub fn case_t() -> Scene {
    let sides = [3, 3, 3];
    let grid = Grid::new(sides).expect("sides in range");
    let mut cells: Vec<Cell> = hollow(&grid).into_iter().map(Cell::blank).collect();
    let parts = std::array::from_fn(|k| weight(k) * 16_384);
    cells[grid.cell([1, 1, 1])] = Cell { flag: INTERFACE, parts, mass: 294_912, fill: 32_768 };
    let settings = Settings { p: 1024, gravity: [0, 0, -1024], edge: 50 };
    Scene { sides, settings, origin: [0; 3], state: State::new(cells, 0), numbers: 1 }
}

/// The good scene of a seed.
pub fn good(seed: u64) -> Scene {
    let random = &mut Random::new(seed);
    let mut scene = match random.below(20) {
        0 => fast_newborn(random),
        1 => gravity_past_speed(random),
        2 => at_a_limit(random),
        _ => mixed(random),
    };
    scene.origin = [(); 3].map(|_| coordinate(random));
    scene.state.work_out_fills();
    // Section 4 goes by another source of chance, so that a seed's water is what it was.
    let totals = &mut Random::new(seed ^ 0x70a1_5000_0000);
    if totals.percent(60) {
        scene.numbers = 3;
        (scene.state.poured, scene.state.taken) = (total(totals), total(totals));
    }
    scene
}

/// Settings for a step, often at the ends of their ranges.
pub fn settings(random: &mut Random) -> Settings {
    let p = match random.below(8) {
        0 => 1,
        1 => 2037,
        2 => 1024,
        3 => random.between(1500, 2037) as i32,
        _ => random.between(1, 2037) as i32,
    };
    let gravity = match random.below(6) {
        0 => [0; 3],
        1 => random.pick(&[[34, 0, -1048], [-1048, 34, 0], [0, 1048, 34]]),
        2 => {
            let mut gravity = [0; 3];
            gravity[random.below(3)] = random.pick(&[1048, -1048]);
            gravity
        }
        3 => [0, 0, -(random.between(1, 200) as i32)],
        _ => loop {
            let gravity = [(); 3].map(|_| random.between(-1048, 1048));
            if dot(&gravity, &gravity) <= GRAVITY_LIMIT {
                break gravity.map(|g| g as i32);
            }
        },
    };
    let edge = match random.below(4) {
        0 => 1,
        1 => 1000,
        _ => random.between(1, 1000) as i32,
    };
    Settings { p, gravity, edge }
}

fn coordinate(random: &mut Random) -> i64 {
    match random.below(5) {
        0 => 0,
        1 => REACH,
        2 => -REACH,
        _ => random.between(i128::from(-REACH), i128::from(REACH)) as i64,
    }
}

fn carry(random: &mut Random) -> i128 {
    match random.below(8) {
        0 => CARRY_LIMIT - random.between(0, 3),
        1 => -CARRY_LIMIT + random.between(0, 3),
        2 => random.between(-CARRY_LIMIT, CARRY_LIMIT),
        3 => random.between(-1000, 1000),
        _ => 0,
    }
}

/// Poured or taken, often at an end of its range.
fn total(random: &mut Random) -> i128 {
    match random.below(5) {
        0 => TOTAL_LIMIT - random.between(0, 600_000),
        1 => random.between(0, TOTAL_LIMIT),
        2 => random.between(0, 10_000_000),
        _ => 0,
    }
}

fn sides(random: &mut Random) -> [u32; 3] {
    let mut side = |lowest: i128, highest: i128| random.between(lowest, highest) as u32;
    match side(1, 100) {
        1 => [side(9, 17), side(9, 16), side(9, 16)],
        2..=4 => [side(3, 4), side(3, 5), side(10, 128)],
        5..=6 => [side(10, 128), side(3, 4), side(3, 5)],
        7..=8 => [3, 3, 3],
        9..=40 => [side(3, 5), side(3, 5), side(3, 5)],
        _ => [side(4, 9), side(4, 9), side(4, 9)],
    }
}

/// A closed box of empty cells.
fn hollow(grid: &Grid) -> Vec<u8> {
    (0..grid.n).map(|c| if grid.outer(c) { WALL } else { EMPTY }).collect()
}

/// Lays water into a hollow box, then closes the layer around the fluid.
fn flags(random: &mut Random, grid: &Grid, layout: Layout) -> Vec<u8> {
    let mut flags = hollow(grid);
    let sides = grid.sides.map(|side| side as i128);
    let level = random.between(1, sides[2] - 2);
    // In half cells, so that a drop's centre may lie between cells.
    let centre = sides.map(|side| random.between(2, 2 * side - 4));
    let radius = random.between(2, 8);
    let walls = random.pick(&[0, 0, 0, 5, 15]);
    let rock = random.pick(&[70, 95]);
    // In a hundred: how many cells are fluid, and how many are liquid.
    let (fluid, liquid) = random.pick(&[(20, 50), (50, 90), (70, 100), (0, 20), (90, 100)]);
    for (c, flag) in flags.iter_mut().enumerate().filter(|(c, _)| !grid.outer(*c)) {
        let position = grid.position(c).map(|coordinate| coordinate as i128);
        let way = [0, 1, 2].map(|axis| 2 * position[axis] - centre[axis]);
        let (z, far) = (position[2], dot(&way, &way));
        *flag = match layout {
            Layout::Pool if z < level => FLUID,
            Layout::Pool if z == level || random.percent(3) => INTERFACE,
            Layout::Film if z == level => INTERFACE,
            Layout::Drop if far <= radius * radius => FLUID,
            Layout::Drop if far <= (radius + 3) * (radius + 3) => INTERFACE,
            Layout::Pockets if random.percent(rock) => WALL,
            Layout::Pockets if random.percent(60) => INTERFACE,
            Layout::Full if random.percent(12) => INTERFACE,
            Layout::Full => FLUID,
            Layout::Anything => match random.below(100) {
                roll if roll < fluid => FLUID,
                roll if roll < liquid => INTERFACE,
                _ => EMPTY,
            },
            _ => EMPTY,
        };
        if random.percent(walls) {
            *flag = WALL;
        }
    }
    close(grid, &mut flags);
    flags
}

/// Closes the layer around the fluid.
fn close(grid: &Grid, flags: &mut [u8]) {
    for c in 0..grid.n {
        if flags[c] == FLUID && grid.neighbours(c).any(|neighbour| flags[neighbour] == EMPTY) {
            flags[c] = INTERFACE;
        }
    }
}

fn mixed(random: &mut Random) -> Scene {
    let sides = sides(random);
    let grid = Grid::new(sides).expect("sides in range");
    let mut settings = settings(random);
    let mut layout = random.pick(&LAYOUTS);
    let temper = temper(random);
    if matches!(temper, Temper::Extreme) && random.percent(70) {
        // Only walls throw extreme parts back so that test 7 lets them pass; p near 2048 then
        // nearly turns their signs, which is where a part leaves its range.
        layout = Layout::Pockets;
        settings.p = settings.p.max(random.pick(&[1, 2000, 2030, 2037]));
    }
    let kind = Kind::of(random, temper);
    let flags = flags(random, &grid, layout);
    let cells = kind.cells(random, flags);
    Scene { sides, settings, origin: [0; 3], state: State::new(cells, carry(random)), numbers: 1 }
}

fn temper(random: &mut Random) -> Temper {
    let speed = random.pick(&[10, 30, 100]);
    match random.below(100) {
        0..35 => Temper::Still,
        35..70 => Temper::Lively([(); 3].map(|_| random.between(-speed, speed))),
        70..80 => Temper::Wild,
        _ => Temper::Extreme,
    }
}

/// How all of a scene's water is chosen.
struct Kind {
    temper: Temper,
    mood: Mood,
    /// In a hundred: strangers among the cells, so that one scene mixes tempers and moods.
    strangers: usize,
}

impl Kind {
    fn of(random: &mut Random, temper: Temper) -> Kind {
        let mood = random.pick(&[Mood::Part, Mood::Part, Mood::Brink, Mood::Brink, Mood::Limit]);
        Kind { temper, mood, strangers: random.pick(&[0, 0, 5, 30]) }
    }

    fn cells(&self, random: &mut Random, flags: Vec<u8>) -> Vec<Cell> {
        let cell = |flag: u8| {
            if flag != FLUID && flag != INTERFACE {
                return Cell::blank(flag);
            }
            let (mut temper, mut mood) = (self.temper, self.mood);
            if random.percent(self.strangers) {
                temper = random.pick(&[Temper::Still, Temper::Wild, Temper::Extreme]);
                mood = random.pick(&[Mood::Part, Mood::Brink, Mood::Limit]);
            }
            let parts = water(random, temper);
            let rho = density(&parts);
            let mass = if flag == FLUID { rho } else { mass(random, rho, mood) };
            Cell { flag, parts, mass, fill: 0 }
        };
        flags.into_iter().map(cell).collect()
    }
}

/// Water between given walls, those of the outer layer among them.
pub fn between(random: &mut Random, grid: &Grid, walls: &[bool]) -> State {
    let layout = random.pick(&LAYOUTS);
    let temper = temper(random);
    let kind = Kind::of(random, temper);
    let mut flags = flags(random, grid, layout);
    for (flag, &wall) in flags.iter_mut().zip(walls) {
        *flag = match *flag {
            _ if wall => WALL,
            WALL => EMPTY,
            other => other,
        };
    }
    close(grid, &mut flags);
    let cells = kind.cells(random, flags);
    let mut state = State::new(cells, carry(random));
    (state.poured, state.taken) = (total(random), total(random));
    state.work_out_fills();
    state
}

/// Parts with exactly this density and momentum, close to their equilibrium.
pub fn parts_at(rho: i128, j: &Vector) -> Parts {
    let mut parts = equilibrium(rho, j);
    let reached = momentum(&parts);
    for axis in 0..3 {
        let missing = j[axis] - reached[axis];
        parts[2 * axis + 1] += missing;
        parts[0] -= missing;
    }
    parts
}

/// A momentum as long as the speed rule allows at this density, in a random direction.
fn fastest(random: &mut Random, rho: i128) -> Vector {
    let way = [(); 3].map(|_| random.between(-100, 100));
    let length = dot(&way, &way).isqrt().max(1);
    let mut j = way.map(|part| cut(part * rho, 3 * length));
    while !speed_allowed(rho, &j) {
        j = j.map(|part| part - part.signum());
    }
    j
}

fn water(random: &mut Random, temper: Temper) -> Parts {
    match temper {
        Temper::Still => {
            let rho = ONE + random.between(-600, 600);
            parts_at(rho, &[(); 3].map(|_| random.between(-500, 500)))
        }
        Temper::Lively(velocity) => {
            let rho = ONE + random.between(-20_000, 20_000);
            let j = velocity.map(|part| cut(part * rho, 1000) + random.between(-3000, 3000));
            let mut parts = parts_at(rho, &j);
            swap(random, &mut parts, 2000);
            parts
        }
        Temper::Wild => {
            let rho = match random.below(4) {
                0 => LOWEST_DENSITY,
                1 => HIGHEST_DENSITY,
                _ => random.between(LOWEST_DENSITY, HIGHEST_DENSITY),
            };
            let fastest = fastest(random, rho);
            let share = random.pick(&[0, 30, 90, 100]);
            let mut parts = parts_at(rho, &fastest.map(|part| cut(part * share, 100)));
            swap(random, &mut parts, 20_000);
            parts
        }
        Temper::Extreme => {
            let rho = random.between(ONE - 100_000, ONE + 100_000);
            let mut parts = parts_at(rho, &[(); 3].map(|_| random.between(-9000, 9000)));
            for _ in 0..random.between(1, 6) {
                swap(random, &mut parts, 2 * PART_LIMIT);
            }
            parts
        }
    }
}

/// Moves water between two axes, or between an axis and rest: density and momentum stay as they are.
fn swap(random: &mut Random, parts: &mut Parts, reach: i128) {
    let from = random.below(9);
    let to = (from + 1 + random.below(8)) % 9;
    let wanted = random.between(-reach, reach);
    let with_rest = random.percent(30);
    let moved = |parts: &Parts, amount: i128| {
        let mut moved = *parts;
        moved[2 * to + 1] += amount;
        moved[2 * to + 2] += amount;
        if with_rest {
            moved[0] -= 2 * amount;
        } else {
            moved[2 * from + 1] -= amount;
            moved[2 * from + 2] -= amount;
        }
        moved
    };
    let allowed = |parts: &Parts| parts.iter().all(|part| part.abs() <= PART_LIMIT);
    // As much of the wanted amount as the limits of the parts allow.
    let (mut most, mut too_much) = (0, wanted.abs() + 1);
    while too_much - most > 1 {
        let middle = (most + too_much) / 2;
        if allowed(&moved(parts, middle * wanted.signum())) {
            most = middle;
        } else {
            too_much = middle;
        }
    }
    *parts = moved(parts, most * wanted.signum());
}

fn mass(random: &mut Random, rho: i128, mood: Mood) -> i128 {
    let near = random.between(-2, 2);
    match mood {
        Mood::Part => random.between(0, rho),
        Mood::Brink => match random.below(3) {
            0 => random.between(0, rho),
            1 => cut(1001 * rho, 1000) + near,
            _ => cut(-rho, 1000) + near,
        },
        Mood::Limit => match random.below(4) {
            0 => MASS_LIMIT,
            1 => -MASS_LIMIT,
            _ => random.between(-MASS_LIMIT, MASS_LIMIT),
        },
    }
}

/// An interface cell between walls that fills towards one empty cell at the very limit of speed, so that
/// the new interface cell takes over ρ' and j' and its rounding alone decides about refusal 8.
fn fast_newborn(random: &mut Random) -> Scene {
    let sides = [4, 3, 3];
    let grid = Grid::new(sides).expect("sides in range");
    let filling = grid.cell([1, 1, 1]);
    let cell = loop {
        let rho = random.between(ONE - 30_000, ONE + 30_000);
        let mut j = fastest(random, rho);
        j[0] = j[0].abs();
        let wanted = parts_at(rho, &j);
        if let Some(parts) = before_streaming(&wanted) {
            let mass = cut(1001 * rho, 1000) + random.between(1, 1000);
            let cell = Cell { flag: INTERFACE, parts, mass, fill: 0 };
            let cell = Cell { fill: cell.worked_out_fill(), ..cell };
            if cell.broken_rules().is_empty() {
                break cell;
            }
        }
    };
    let mut cells: Vec<Cell> = hollow(&grid).into_iter().map(Cell::blank).collect();
    cells[filling] = cell;
    // With p 1 the filling cell itself, close to equilibrium, keeps its momentum.
    let settings = Settings { p: 1, gravity: [0; 3], edge: 50 };
    Scene { sides, settings, origin: [0; 3], state: State::new(cells, carry(random)), numbers: 1 }
}

/// Parts that stream into the wanted ones in a cell with walls around it but for an empty cell at
/// direction 1: all are known but part 1, which is searched.
fn before_streaming(wanted: &Parts) -> Option<Parts> {
    let mut parts: Parts = std::array::from_fn(|i| wanted[opposite(i)]);
    let rest = density(&parts) - parts[1];
    // What streaming would give as part 2 falls as part 1 grows.
    let (mut low, mut high) = (LOWEST_DENSITY - rest, HIGHEST_DENSITY - rest);
    while low < high {
        let middle = (low + high).div_euclid(2);
        parts[1] = middle;
        if rebuilt(&parts, 1) - middle <= wanted[2] {
            high = middle;
        } else {
            low = middle + 1;
        }
    }
    parts[1] = low;
    (rebuilt(&parts, 1) - low == wanted[2]).then_some(parts)
}

/// A cell between walls that passes test 7 with gravity once, while p above 1024 adds more of it.
fn gravity_past_speed(random: &mut Random) -> Scene {
    let sides = [3, 3, 3];
    let grid = Grid::new(sides).expect("sides in range");
    let rho = random.between(LOWEST_DENSITY, HIGHEST_DENSITY);
    let axis = random.below(3);
    let way = random.pick(&[1, -1]);
    let (mut gravity, mut j) = ([0; 3], [0; 3]);
    gravity[axis] = 1048 * way as i32;
    j[axis] = -way * (cut(rho, 3) - cut(rho * 1048, 1_048_576) - random.between(0, 300));
    let mass = random.between(0, rho);
    let mut cells: Vec<Cell> = hollow(&grid).into_iter().map(Cell::blank).collect();
    cells[grid.cell([1, 1, 1])] = Cell { flag: INTERFACE, parts: parts_at(rho, &j), mass, fill: 0 };
    let settings = Settings { p: random.between(1025, 2037) as i32, gravity, edge: 50 };
    Scene { sides, settings, origin: [0; 3], state: State::new(cells, carry(random)), numbers: 1 }
}

/// A cell between walls, so that streaming leaves its density, speed and mass as they are, exactly at a limit or one unit beside it: of filling,
/// of emptying, or of speed.
fn at_a_limit(random: &mut Random) -> Scene {
    let sides = [3, 3, 3];
    let grid = Grid::new(sides).expect("sides in range");
    let beside = random.between(-1, 1);
    let thousands = random.between(295, 1179);
    // Ninths, as a momentum of 2, 1 and 2 of them is 3 long; none is pushed past the limit, which only a damaged record is.
    let ninths = random.between(LOWEST_DENSITY / 9 + 1, HIGHEST_DENSITY / 9 - 1);
    let (rho, j, mass) = match random.below(4) {
        0 => (1000 * thousands, [0; 3], 1001 * thousands + beside),
        1 => (1000 * thousands, [0; 3], -thousands + beside),
        2 => (9 * ninths, [3 * ninths, 0, 0], random.between(0, 9 * ninths)),
        _ => (9 * ninths + beside.max(0), [-2 * ninths, ninths, 2 * ninths], random.between(0, 9 * ninths)),
    };
    let mut cells: Vec<Cell> = hollow(&grid).into_iter().map(Cell::blank).collect();
    cells[grid.cell([1, 1, 1])] = Cell { flag: INTERFACE, parts: parts_at(rho, &j), mass, fill: 0 };
    // Gravity would push a speed past its limit.
    let settings = Settings { gravity: [0; 3], ..settings(random) };
    Scene { sides, settings, origin: [0; 3], state: State::new(cells, carry(random)), numbers: 1 }
}
