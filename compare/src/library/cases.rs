// Cases by seed: all that a call can be lent, good states with few faults or none, and slices of anything.

use std::fmt::Debug;

use oracle::damage::bad;
use oracle::index::words_of;
use oracle::random::Random;
use oracle::record::Reading;
use oracle::scenes::good;
use oracle::state::{CARRY_LIMIT, FLUID, INTERFACE, MASS_LIMIT, PART_LIMIT, TOTAL_LIMIT, WALL};
use oracle::{HeldStore, IndexStore, Settings, Store};

use super::Reply;
use crate::lengths::{changed, CHANGES};

/// What the functions are lent; sides and lengths may be wrong.
#[derive(Clone)]
pub struct Case {
    pub sides: [usize; 3],
    pub p: i64,
    pub gravity: [i64; 3],
    /// The mode of step and run.
    pub turbulent: bool,
    pub edge: i64,
    pub origin: [i64; 3],
    pub first: Store,
    /// Of step and run; the reader writes into all of it but the flags.
    pub second: Store,
    pub first_index: IndexStore,
    /// As the second set: of step, run and reader.
    pub second_index: IndexStore,
    pub marks: Vec<u8>,
    pub steps: usize,
    pub record: Vec<u8>,
    pub room: Vec<u8>,
    pub point: [i64; 3],
    pub cell: usize,
    /// Of pour and take, at that cell.
    pub amount: i64,
    /// Where the question "next" begins.
    pub start: usize,
    pub column: [usize; 2],
}

/// A number of any size, small ones and the ends of its type often among them.
pub fn any(random: &mut Random) -> u64 {
    match random.below(6) {
        0 => random.below(4) as u64,
        1 => (random.below(4) as u64).wrapping_neg(),
        2 => 1 << random.below(64),
        3 => random.bits() >> random.below(64),
        4 => (random.bits() >> random.below(64)).wrapping_neg(),
        _ => random.bits(),
    }
}

/// A vector of so many numbers that a call must overwrite or leave alone.
pub fn junk<T>(random: &mut Random, length: usize, number: impl Fn(u64) -> T) -> Vec<T> {
    (0..length).map(|_| number(random.bits())).collect()
}

fn junk_store(random: &mut Random, n: usize, carries: usize) -> Store {
    Store {
        flags: junk(random, n, |bits| bits as u8),
        parts: junk(random, 19 * n, |bits| bits as i32),
        masses: junk(random, n, |bits| bits as i32),
        fills: junk(random, n, |bits| bits as u32),
        carry: junk(random, carries, |bits| bits as i64),
    }
}

/// An index that is no state's, for so many cells.
fn junk_index(random: &mut Random, n: usize, counts: usize) -> IndexStore {
    IndexStore { words: junk(random, words_of(n), |bits| bits), count: junk(random, counts, |bits| bits) }
}

impl Case {
    /// The case of a seed.
    pub fn of(seed: u64) -> Case {
        let random = &mut Random::new(seed ^ 0x5eed_0f4a_5e00_0000);
        let mut case = Case::good(random, seed);
        match random.below(20) {
            0 => case.sides = [(); 3].map(|_| any(random) as usize),
            1 => case.soup(random),
            2 => case.fragments(random),
            3..11 => {
                case.fault(random);
                while random.percent(40) {
                    case.fault(random);
                }
            }
            _ => {}
        }
        case
    }

    /// A good state, and settings, points and room mostly in their ranges.
    fn good(random: &mut Random, seed: u64) -> Case {
        let scene = good(seed);
        let first = Store::of(&scene.state);
        let n = first.flags.len();
        let liquid = first.flags.iter().filter(|&&flag| flag == FLUID || flag == INTERFACE).count();
        let interface = first.flags.iter().filter(|&&flag| flag == INTERFACE).count();
        let need = 108 + n + 4 * interface + 76 * liquid;
        let room = random.pick(&[need, need, need, need - 1, need + 1, need + 200, need / 2, 0]);
        let steps = random.pick(&[0, 1, 2, 3, 5, 7, 12, 60]);
        let sides = scene.sides.map(|side| side as usize);
        let [x, y] = [sides[0], sides[1]].map(|side| random.below(side + 1));
        let first_index = IndexStore::of(&first.flags);
        let flags = first.flags.clone();
        Case {
            sides,
            p: scene.settings.p.into(),
            gravity: scene.settings.gravity.map(i64::from),
            turbulent: random.percent(50),
            edge: scene.settings.edge.into(),
            origin: scene.origin,
            first,
            second: junk_store(random, n, 3),
            first_index,
            second_index: junk_index(random, n, 1),
            marks: junk(random, n, |bits| bits as u8),
            steps: if random.percent(5) { random.pick(&[1001, 4096, 1 << 32, usize::MAX]) } else { steps },
            record: if random.percent(30) { scene.record() } else { bad(seed).bytes },
            room: junk(random, room, |bits| bits as u8),
            point: point(random, sides, scene.settings.edge.into(), scene.origin),
            cell: cell(random, &flags),
            amount: amount(random),
            start: if random.percent(10) { any(random) as usize } else { random.below(n + 2) },
            column: if random.percent(10) { [any(random) as usize, y] } else { [x, y] },
        }
    }

    /// A good state with all its room, for acts and steps one after another.
    pub fn lively(seed: u64) -> Case {
        let mut case = Case::good(&mut Random::new(seed), seed);
        case.room = vec![0xa5; 108 + 81 * case.first.flags.len()];
        case
    }

    /// A record for the reader, with slices for n cells.
    pub fn of_record(record: Vec<u8>, n: usize) -> Case {
        let random = &mut Random::new(record.len() as u64);
        let blank = Store::blank(0);
        Case {
            sides: [0; 3],
            p: 0,
            gravity: [0; 3],
            turbulent: false,
            edge: 0,
            origin: [0; 3],
            first: blank,
            second: junk_store(random, n, 3),
            first_index: IndexStore::blank(0),
            second_index: junk_index(random, n, 1),
            marks: vec![7; n],
            steps: 0,
            record,
            room: vec![],
            point: [0; 3],
            cell: 0,
            amount: 1,
            start: 0,
            column: [0; 2],
        }
    }

    /// A grid and its index, to be stepped, run, poured into and taken from.
    pub fn of_grid(sides: [usize; 3], settings: &Settings, grid: HeldStore) -> Case {
        let n = grid.set.flags.len();
        Case {
            sides,
            p: settings.p.into(),
            gravity: settings.gravity.map(i64::from),
            first: grid.set,
            first_index: grid.index,
            ..Case::of_record(vec![], n)
        }
    }

    /// What was read, to be stepped and written.
    pub fn of_reading(reading: &Reading, first: Store) -> Case {
        let n = first.flags.len();
        Case {
            sides: reading.sides.map(|side| side as usize),
            p: reading.settings.p.into(),
            gravity: reading.settings.gravity.map(i64::from),
            edge: reading.settings.edge.into(),
            origin: reading.origin,
            first_index: IndexStore::of(&first.flags),
            first,
            ..Case::of_record(vec![], n)
        }
    }

    /// What an accepted reader left here, to be stepped, and written into room for its record and a little more.
    pub fn read(&self, reply: &Reply) -> Option<Case> {
        let [nx, ny, nz, p, gx, gy, gz, edge, ox, oy, oz, from, to] = reply.values[..] else {
            return None;
        };
        let flags = self.record[from as usize..to as usize].to_vec();
        (reply.number == 0).then(|| Case {
            sides: [nx, ny, nz].map(|side| side as usize),
            p: p as i64,
            gravity: [gx, gy, gz].map(|number| number as i64),
            edge: edge as i64,
            origin: [ox, oy, oz].map(|number| number as i64),
            first: Store { flags, ..self.second.clone() },
            first_index: self.second_index.clone(),
            room: vec![0x5a; self.record.len() + 21],
            ..Case::of_record(self.record.clone(), self.marks.len())
        })
    }

    /// Small sides and slices that fit them, all numbers anything.
    fn soup(&mut self, random: &mut Random) {
        self.sides = [(); 3].map(|_| 3 + random.below(3));
        let n = self.sides.iter().product();
        self.first = junk_store(random, n, 3);
        // Flags above 3 would hide all else from most calls.
        if random.percent(80) {
            self.first.flags.iter_mut().for_each(|flag| *flag %= 4);
        }
        if random.percent(60) {
            self.first.fills.iter_mut().for_each(|fill| *fill %= 65_537);
        }
        self.second = junk_store(random, n, 3);
        self.first_index =
            if random.percent(30) { IndexStore::of(&self.first.flags) } else { junk_index(random, n, 1) };
        self.second_index = junk_index(random, n, 1);
        self.marks = vec![1; n];
        self.start = random.below(n + 2);
        self.cell = random.below(n);
        self.column = [random.below(self.sides[0]), random.below(self.sides[1])];
    }

    /// Slices of any small lengths.
    fn fragments(&mut self, random: &mut Random) {
        let store = |random: &mut Random| {
            let whole = junk_store(random, 40, 4);
            Store {
                flags: whole.flags[..random.below(41)].to_vec(),
                parts: whole.parts[..random.below(761)].to_vec(),
                masses: whole.masses[..random.below(41)].to_vec(),
                fills: whole.fills[..random.below(41)].to_vec(),
                carry: whole.carry[..random.below(5)].to_vec(),
            }
        };
        (self.first, self.second) = (store(random), store(random));
        let index = |random: &mut Random| {
            let (cells, counts) = (64 * random.below(4), random.below(3));
            junk_index(random, cells, counts)
        };
        (self.first_index, self.second_index) = (index(random), index(random));
        self.marks.truncate(random.below(41));
        self.room.truncate(random.below(500));
    }

    /// One thing made wrong, or at least another.
    fn fault(&mut self, random: &mut Random) {
        let n = self.first.flags.len().min(self.first.masses.len()).min(self.first.fills.len());
        let c = random.below(n.max(1));
        let at = random.below(self.first.parts.len().max(1));
        let near = random.between(-2, 2) as i64;
        let anything = any(random) as i64;
        match random.below(24) {
            0 => {
                self.sides[random.below(3)] =
                    random.pick(&[0, 1, 2, 3, 128, 129, 1 << 20, 1 << 32, usize::MAX])
            }
            // The lowest 32 bits still right.
            1 => {
                let side = &mut self.sides[random.below(3)];
                *side = side.wrapping_add(1 << 32);
            }
            2 => self.sides.swap(0, 1 + random.below(2)),
            3 => {
                self.p =
                    random.pick(&[0, 1, 2037, 2038, -1, i64::MIN, i64::MAX, self.p.wrapping_add(1 << 32)])
            }
            4 => {
                self.gravity = random.pick(&[
                    [34, 0, -1048],
                    [35, 0, -1048],
                    [0, 1049, 0],
                    [1 << 32, 0, 0],
                    [0, i64::MIN, 0],
                    [i64::MAX, i64::MAX, i64::MAX],
                    [0, 0, 3_037_000_500],
                ])
            }
            5 => self.gravity[random.below(3)] = anything,
            6 => {
                self.edge =
                    random.pick(&[0, 1, 1000, 1001, -50, i64::MIN, self.edge.wrapping_add(1 << 32), anything])
            }
            7 => self.origin[random.below(3)] = random.pick(&[1, -1]) * 10_000_000_000 + near,
            8 => self.origin[random.below(3)] = anything,
            9 | 10 => self.resize(random),
            11 => put(&mut self.first.flags, c, random.bits() as u8),
            // Fluid beside empty, or water without parts; an outer cell is mostly what else is met.
            12 | 13 => {
                let open: Vec<usize> = (0..n).filter(|&c| self.first.flags[c] != WALL).collect();
                let c = if open.is_empty() { c } else { random.pick(&open) };
                put(&mut self.first.flags, c, random.below(4) as u8);
            }
            14 => put(&mut self.first.parts, at, number(random, PART_LIMIT as i32)),
            15 => put(&mut self.first.masses, c, number(random, MASS_LIMIT as i32)),
            16 => {
                let fill = self.first.fills.get(c).copied().unwrap_or(0);
                let other = random.pick(&[fill ^ 1, 65_536, 65_537, fill ^ 1 << 31, anything as u32]);
                put(&mut self.first.fills, c, other);
            }
            17 => {
                let end = random.pick(&[CARRY_LIMIT as i64, -CARRY_LIMIT as i64]);
                let other = random.pick(&[end + near, i64::MIN, i64::MAX, anything]);
                put(&mut self.first.carry, 0, other);
            }
            18 | 19 => {
                let end = random.pick(&[TOTAL_LIMIT as i64, 0]);
                let other = random.pick(&[end + near, i64::MIN, i64::MAX, anything]);
                put(&mut self.first.carry, 1 + random.below(2), other);
            }
            _ => self.mark(random),
        }
    }

    /// Another index of the first set: a bit changed, one past the cells set, a wrong count, or the words of flags that are not its own.
    fn mark(&mut self, random: &mut Random) {
        let IndexStore { words, count } = &mut self.first_index;
        let n = self.first.flags.len();
        match random.below(5) {
            0 => {
                let k = random.below(words.len().max(1));
                if let Some(word) = words.get_mut(k) {
                    *word ^= 1 << random.below(64);
                }
            }
            1 if n % 64 > 0 => {
                if let Some(word) = words.last_mut() {
                    *word |= 1 << (n % 64 + random.below(64 - n % 64));
                }
            }
            2 => {
                let change = random.pick(&[1, u64::MAX, 1 << 32]);
                count.iter_mut().for_each(|count| *count = count.wrapping_add(change));
            }
            3 => words.fill(random.pick(&[0, u64::MAX])),
            _ => {
                let turned: Vec<u8> = self.first.flags.iter().rev().copied().collect();
                self.first_index = IndexStore::of(&turned);
            }
        }
    }

    /// Another length for one of the lent slices.
    fn resize(&mut self, random: &mut Random) {
        let change = random.below(CHANGES);
        let (set, index) = if random.percent(50) {
            (&mut self.first, &mut self.first_index)
        } else {
            (&mut self.second, &mut self.second_index)
        };
        match random.below(8) {
            0 => changed(&mut set.flags, change),
            1 => changed(&mut set.parts, change),
            2 => changed(&mut set.masses, change),
            3 => changed(&mut set.fills, change),
            4 => changed(&mut set.carry, change),
            5 => changed(&mut index.words, change),
            6 => changed(&mut index.count, change),
            _ => changed(&mut self.marks, change),
        }
    }

    /// The first lent slice in which this case, as it should be, and another differ.
    pub fn apart(&self, given: &Case) -> Option<String> {
        let sets = [("first", &self.first, &given.first), ("second", &self.second, &given.second)];
        let differs = sets.into_iter().find_map(|(name, wanted, given)| {
            apart(&format!("{name} flags"), &wanted.flags, &given.flags)
                .or_else(|| apart(&format!("{name} parts"), &wanted.parts, &given.parts))
                .or_else(|| apart(&format!("{name} masses"), &wanted.masses, &given.masses))
                .or_else(|| apart(&format!("{name} fills"), &wanted.fills, &given.fills))
                .or_else(|| apart(&format!("{name} carry"), &wanted.carry, &given.carry))
        });
        let indexes = [
            ("first", &self.first_index, &given.first_index),
            ("second", &self.second_index, &given.second_index),
        ];
        let indexed = indexes.into_iter().find_map(|(name, wanted, given)| {
            apart(&format!("{name} words"), &wanted.words, &given.words)
                .or_else(|| apart(&format!("{name} count"), &wanted.count, &given.count))
        });
        differs
            .or(indexed)
            .or_else(|| apart("marks", &self.marks, &given.marks))
            .or_else(|| apart("record", &self.record, &given.record))
            .or_else(|| apart("room", &self.room, &given.room))
    }
}

/// Where two slices differ, of which one is as it should be.
pub fn apart<T: PartialEq + Debug>(name: &str, wanted: &[T], given: &[T]) -> Option<String> {
    let i = wanted.iter().zip(given).position(|(wanted, given)| wanted != given)?;
    Some(format!("{name}[{i}]: wanted {:?}, given {:?}", wanted[i], given[i]))
}

pub fn put<T>(slice: &mut [T], at: usize, number: T) {
    if let Some(place) = slice.get_mut(at) {
        *place = number;
    }
}

/// A cell for a pour, a take or a point: mostly of the surface, else any of the grid or the first one outside it, or anything.
pub fn cell(random: &mut Random, flags: &[u8]) -> usize {
    let surface: Vec<usize> = (0..flags.len()).filter(|&c| flags[c] == INTERFACE).collect();
    match random.below(10) {
        0 => any(random) as usize,
        1..4 => random.below(flags.len() + 1),
        _ if surface.is_empty() => random.below(flags.len() + 1),
        _ => random.pick(&surface),
    }
}

/// An amount: in its range, about its ends, or anything.
pub fn amount(random: &mut Random) -> i64 {
    match random.below(6) {
        0 => random.pick(&[0, 1, 589_824, 589_825, -1, i64::MIN, i64::MAX]),
        1 => any(random) as i64,
        2 => random.between(1, 1000) as i64,
        _ => random.between(1, 589_824) as i64,
    }
}

/// A part or a mass: about its limit, or anything.
pub fn number(random: &mut Random, limit: i32) -> i32 {
    let near = random.between(-1, 1) as i32;
    match random.below(4) {
        0 => limit + near,
        1 => -limit + near,
        2 => near,
        _ => random.bits() as i32,
    }
}

/// A survey point: at the borders of cells, about the ends of the grid and of the range, or anywhere.
fn point(random: &mut Random, sides: [usize; 3], edge: i64, origin: [i64; 3]) -> [i64; 3] {
    let careless = random.percent(10);
    [0, 1, 2].map(|axis| {
        if careless {
            return random.pick(&[10_000_000_000, 10_000_000_001, -10_000_000_001, i64::MIN, i64::MAX]);
        }
        let cells = random.below(sides[axis]) as i64;
        let somewhere = random.below(edge as usize) as i64;
        let within = random.pick(&[0, 0, edge - 1, somewhere]);
        let outside = random.percent(8);
        let end = random.pick(&[-1, sides[axis] as i64 * edge]);
        origin[axis] + if outside { end } else { cells * edge + within }
    })
}
