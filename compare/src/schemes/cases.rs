// Cases by seed: a wall map, two schemes and room for flags, good or with few faults, and slices of anything.

use oracle::designers::Tunnel;
use oracle::random::Random;
use oracle::schemes::{self, Change};
use oracle::state::{CARRY_LIMIT, FLUID, MASS_LIMIT, PART_LIMIT, TOTAL_LIMIT};
use oracle::Store;

use super::library;
use crate::lengths::{changed, CHANGES};

/// What the four functions are lent and given; sides and lengths may be wrong.
#[derive(Clone)]
pub struct Case {
    pub sides: [usize; 3],
    pub map: Vec<u8>,
    pub asker: Store,
    pub other: Store,
    /// What part reads: the flags of the asker's grid.
    pub flags: Vec<u8>,
    /// What join and part write.
    pub room: Vec<u8>,
    pub cell: usize,
}

/// How many large cases there are.
pub const LARGE: usize = 12;

impl Case {
    /// The case of a seed.
    pub fn of(seed: u64) -> Case {
        let random = &mut Random::new(seed ^ 0x5c4e_3e00_0000);
        let mut case = Case::good(random, seed);
        match random.below(20) {
            0 => case.soup(random),
            1..11 => {
                case.fault(random);
                while random.percent(40) {
                    case.fault(random);
                }
            }
            _ => {}
        }
        case
    }

    /// One of the large cases: a good one, or the same with faults.
    pub fn large(number: usize) -> Case {
        let random = &mut Random::new(number as u64);
        let sides = [[64; 3], [128, 16, 128], [57, 63, 73], [128, 128, 16]][number % 4];
        let tunnel = Tunnel::around(random, sides);
        let mut case = Case::between(random, tunnel);
        if number >= LARGE / 2 {
            case.fault(random);
        }
        case
    }

    /// Two good schemes.
    fn good(random: &mut Random, seed: u64) -> Case {
        Case::between(random, Tunnel::of(seed))
    }

    /// The schemes of a tunnel, one of them dry now and then, or both the same.
    fn between(random: &mut Random, mut tunnel: Tunnel) -> Case {
        let n = tunnel.map.len();
        match random.below(8) {
            0 => tunnel.schemes[random.below(2)] = tunnel.dry(),
            1 => tunnel.schemes[1] = tunnel.schemes[0].clone(),
            _ => {}
        }
        let change = random.pick(&[Change::Add, Change::Remove]);
        let cell = match random.below(20) {
            0 => random.pick(&[n, n + 1, 1 << 32, usize::MAX]),
            1 => random.bits() as usize,
            _ => tunnel.wished_cell(random, change),
        };
        let Tunnel { sides, map, schemes: [asker, other], .. } = tunnel;
        let (asker, other) = (asker.set, other.set);
        let flags = map.iter().zip(&asker.flags).map(|(&wall, &own)| if wall == 1 { 3 } else { own });
        Case {
            sides: sides.map(|side| side as usize),
            flags: flags.collect(),
            map,
            asker,
            other,
            room: (0..n).map(|_| random.bits() as u8).collect(),
            cell,
        }
    }

    /// One thing made wrong, or at least another.
    fn fault(&mut self, random: &mut Random) {
        let set = if random.percent(50) { &mut self.asker } else { &mut self.other };
        let n = self.map.len().max(1);
        let (c, change) = (random.below(n), random.below(CHANGES));
        let cells_where = |wanted: &dyn Fn(usize) -> bool| {
            let cells: Vec<usize> = (0..self.map.len()).filter(|&c| wanted(c)).collect();
            cells
        };
        match random.below(24) {
            0 => {
                let side = random.pick(&[0, 2, 3, 128, 129, 1 << 20, 1 << 32, usize::MAX]);
                self.sides[random.below(3)] = side;
            }
            1 => self.sides.swap(0, 1 + random.below(2)),
            // The lowest 32 bits still right.
            2 => {
                let side = &mut self.sides[random.below(3)];
                *side = side.wrapping_add(1 << 32);
            }
            3 => changed(&mut self.map, change),
            4 => changed(&mut self.room, change),
            5 => changed(&mut self.flags, change),
            6..9 => match random.below(5) {
                0 => changed(&mut set.flags, change),
                1 => changed(&mut set.parts, change),
                2 => changed(&mut set.masses, change),
                3 => changed(&mut set.fills, change),
                _ => changed(&mut set.carry, change),
            },
            9 => put(&mut self.map, c, random.pick(&[0, 1, 2, 3, 255])),
            // An inner wall where there is water, or none where there was one, and the water beside it.
            10 | 11 => {
                let wet = cells_where(&|c| set.flags.get(c).is_some_and(|&flag| flag != 0));
                let walls = cells_where(&|c| self.map[c] == 1);
                let c = match [&wet, &walls][random.below(2)] {
                    cells if cells.is_empty() => c,
                    cells => random.pick(cells),
                };
                let byte = self.map.get(c).map_or(0, |&byte| byte ^ 1);
                put(&mut self.map, c, byte);
            }
            12 => put(&mut set.flags, c, random.bits() as u8),
            // An own flag at a wall.
            13 => {
                let walls = cells_where(&|c| self.map[c] == 1);
                let c = if walls.is_empty() { c } else { random.pick(&walls) };
                put(&mut set.flags, c, random.pick(&[1, 2, 3]));
            }
            // Fluid beside empty: a neighbour's water gone.
            14 => {
                let fluid = cells_where(&|c| set.flags.get(c) == Some(&FLUID));
                let c = if fluid.is_empty() { c } else { random.pick(&fluid) };
                let [nx, ny, _] = self.sides.map(|side| side % 1000);
                let way = random.pick(&[1, nx, nx * ny, nx + 1, nx * ny + 1, nx * ny + nx]);
                put(&mut set.flags, if random.percent(50) { c.saturating_sub(way) } else { c + way }, 0);
            }
            // The same, or water without parts.
            15 => {
                let open = cells_where(&|c| self.map[c] == 0);
                let c = if open.is_empty() { c } else { random.pick(&open) };
                put(&mut set.flags, c, random.below(4) as u8);
            }
            16 => {
                let at = random.below(set.parts.len().max(1));
                put(&mut set.parts, at, number(random, PART_LIMIT as i32));
            }
            17 => put(&mut set.masses, c, number(random, MASS_LIMIT as i32)),
            18 => {
                let fill = set.fills.get(c).copied().unwrap_or(0);
                put(&mut set.fills, c, random.pick(&[fill ^ 1, 65_536, 65_537, fill ^ 1 << 31]));
            }
            19 => {
                let end = random.pick(&[CARRY_LIMIT as i64, -CARRY_LIMIT as i64]);
                put(&mut set.carry, 0, total(random, end));
            }
            20 | 21 => {
                let end = random.pick(&[TOTAL_LIMIT as i64, 0]);
                put(&mut set.carry, 1 + random.below(2), total(random, end));
            }
            22 => put(&mut self.flags, c, random.bits() as u8),
            _ => put(&mut self.flags, c, random.below(5) as u8),
        }
    }

    /// Small sides and slices that fit them, all numbers anything.
    fn soup(&mut self, random: &mut Random) {
        self.sides = [(); 3].map(|_| 3 + random.below(3));
        let n: usize = self.sides.iter().product();
        let bytes = random.pick(&[2, 3, 4, 256]);
        let mut byte = || random.below(bytes) as u8;
        self.map = (0..n).map(|_| byte()).collect();
        self.flags = (0..n).map(|_| byte()).collect();
        self.room = (0..n).map(|_| byte()).collect();
        for set in [&mut self.asker, &mut self.other] {
            *set = Store {
                flags: (0..n).map(|_| random.below(bytes) as u8).collect(),
                parts: (0..19 * n).map(|_| random.bits() as i32).collect(),
                masses: (0..n).map(|_| random.bits() as i32).collect(),
                fills: (0..n).map(|_| random.bits() as u32).collect(),
                carry: (0..3).map(|_| random.bits() as i64).collect(),
            };
        }
        self.cell = random.below(n + 2);
    }

    /// The sides as the independent program takes them. The widest number of its type stands for one beyond it: both are out of every range.
    pub fn narrow(&self) -> [u32; 3] {
        self.sides.map(|side| u32::try_from(side).unwrap_or(u32::MAX))
    }

    /// The library's wall change.
    pub fn changed(&mut self, change: Change) -> [u64; 2] {
        let (asker, other) = (self.asker.lend(), self.other.lend());
        library::change(change, self.sides, &mut self.map, asker, other, self.cell)
    }

    /// Whether the asker's scheme passes its tests.
    pub fn asker_is_good(&self) -> bool {
        let mut grid = vec![0; self.asker.flags.len()];
        schemes::join(self.narrow(), &self.map, self.asker.lend(), &mut grid).is_ok()
    }

    pub fn beside_a_dry_scheme(&self) -> Case {
        Case { other: Store::blank(self.map.len()), ..self.clone() }
    }

    /// The first lent slice in which this case, as it should be, and another differ.
    pub fn apart(&self, given: &Case) -> Option<String> {
        fn apart(name: &str, wanted: &[u8], given: &[u8]) -> Option<String> {
            let i = wanted.iter().zip(given).position(|(wanted, given)| wanted != given)?;
            Some(format!("{name}[{i}]: wanted {}, given {}", wanted[i], given[i]))
        }
        apart("map", &self.map, &given.map)
            .or_else(|| apart("room", &self.room, &given.room))
            .or_else(|| apart("flags", &self.flags, &given.flags))
            .or_else(|| (self.asker != given.asker).then(|| "the asker's scheme is written".into()))
            .or_else(|| (self.other != given.other).then(|| "the other's scheme is written".into()))
    }
}

fn put<T>(slice: &mut [T], at: usize, number: T) {
    if let Some(place) = slice.get_mut(at) {
        *place = number;
    }
}

/// A part or a mass: about its limit, or anything.
fn number(random: &mut Random, limit: i32) -> i32 {
    let near = random.between(-1, 1) as i32;
    match random.below(4) {
        0 => limit + near,
        1 => -limit + near,
        2 => near,
        _ => random.bits() as i32,
    }
}

/// A carry, poured or taken: about an end of its range, or anything.
fn total(random: &mut Random, end: i64) -> i64 {
    let (near, anything) = (random.between(-2, 2) as i64, random.bits() as i64);
    random.pick(&[end + near, end + near, i64::MIN, i64::MAX, anything])
}
