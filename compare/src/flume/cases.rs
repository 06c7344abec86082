// Cases by seed: all that a call of the flume can be lent, good states with few faults or none, and slices of anything.

use oracle::flume::damage::bad;
use oracle::flume::record::Reading;
use oracle::flume::scenes::good;
use oracle::flume::sets::{blank, store};
use oracle::random::Random;
use oracle::state::{CARRY_LIMIT, FLUID, INTERFACE, MASS_LIMIT, PART_LIMIT, WALL};
use oracle::Store;

use crate::lengths::{changed, CHANGES};
use crate::library::cases::{any, apart, junk, number, put};
use crate::library::Reply;

/// What the functions are lent; sides and lengths may be wrong.
#[derive(Clone)]
pub struct Case {
    pub sides: [usize; 2],
    pub p: i64,
    pub gravity: [i64; 2],
    /// The mode of step and run.
    pub turbulent: bool,
    pub edge: i64,
    pub origin: [i64; 2],
    pub first: Store,
    /// Of step and run; the reader writes into all of it but the flags.
    pub second: Store,
    pub marks: Vec<u8>,
    pub steps: usize,
    pub record: Vec<u8>,
    pub room: Vec<u8>,
}

fn junk_store(random: &mut Random, n: usize, carries: usize) -> Store {
    Store {
        flags: junk(random, n, |bits| bits as u8),
        parts: junk(random, 9 * n, |bits| bits as i32),
        masses: junk(random, n, |bits| bits as i32),
        fills: junk(random, n, |bits| bits as u32),
        carry: junk(random, carries, |bits| bits as i64),
    }
}

impl Case {
    /// The case of a seed.
    pub fn of(seed: u64) -> Case {
        let random = &mut Random::new(seed ^ 0xf1f0_0f4a_5e00_0000);
        let mut case = Case::good(random, seed);
        match random.below(20) {
            0 => case.sides = [(); 2].map(|_| any(random) as usize),
            1 => case.soup(random),
            2 => case.fragments(random),
            3..11 => {
                case.fault(random);
                while random.percent(40) {
                    case.fault(random);
                }
            }
            _ => {}
        }
        case
    }

    /// A good state, and room mostly enough for its record.
    fn good(random: &mut Random, seed: u64) -> Case {
        let scene = good(seed);
        let first = store(&scene.state);
        let n = first.flags.len();
        let liquid = first.flags.iter().filter(|&&flag| flag == FLUID || flag == INTERFACE).count();
        let interface = first.flags.iter().filter(|&&flag| flag == INTERFACE).count();
        let need = 76 + n + 4 * interface + 36 * liquid;
        let steps = random.pick(&[0, 1, 2, 3, 5, 7, 12, 60]);
        let room = random.pick(&[need, need, need, need - 1, need + 1, need + 200, need / 2, 0]);
        Case {
            sides: scene.sides.map(|side| side as usize),
            p: scene.settings.p.into(),
            gravity: scene.settings.gravity.map(i64::from),
            turbulent: random.percent(50),
            edge: scene.settings.edge.into(),
            origin: scene.origin,
            first,
            second: junk_store(random, n, 1),
            marks: junk(random, n, |bits| bits as u8),
            steps: if random.percent(5) { random.pick(&[1001, 4096, 1 << 32, usize::MAX]) } else { steps },
            record: if random.percent(30) { scene.record() } else { bad(seed).bytes },
            room: junk(random, room, |bits| bits as u8),
        }
    }

    /// A good state with all its room, for steps and runs one after another.
    pub fn lively(seed: u64) -> Case {
        let mut case = Case::good(&mut Random::new(seed), seed);
        case.room = vec![0xa5; 76 + 41 * case.first.flags.len()];
        case
    }

    /// A record for the reader, with slices for n cells.
    pub fn of_record(record: Vec<u8>, n: usize) -> Case {
        let random = &mut Random::new(record.len() as u64);
        Case {
            sides: [0; 2],
            p: 0,
            gravity: [0; 2],
            turbulent: false,
            edge: 0,
            origin: [0; 2],
            first: blank(0),
            second: junk_store(random, n, 1),
            marks: vec![7; n],
            steps: 0,
            record,
            room: vec![],
        }
    }

    /// What was read, to be stepped and written.
    pub fn of_reading(reading: &Reading, first: Store) -> Case {
        let n = first.flags.len();
        Case {
            sides: reading.sides.map(|side| side as usize),
            p: reading.settings.p.into(),
            gravity: reading.settings.gravity.map(i64::from),
            edge: reading.settings.edge.into(),
            origin: reading.origin,
            first,
            ..Case::of_record(vec![], n)
        }
    }

    /// What an accepted reader left here, to be stepped, and written into room for its record and a little more.
    pub fn read(&self, reply: &Reply) -> Option<Case> {
        let [nx, nz, p, gx, gz, edge, ox, oz, from, to] = reply.values[..] else {
            return None;
        };
        let flags = self.record[from as usize..to as usize].to_vec();
        (reply.number == 0).then(|| Case {
            sides: [nx, nz].map(|side| side as usize),
            p: p as i64,
            gravity: [gx, gz].map(|number| number as i64),
            edge: edge as i64,
            origin: [ox, oz].map(|number| number as i64),
            room: vec![0x5a; self.record.len() + 21],
            first: Store { flags, ..self.second.clone() },
            ..Case::of_record(self.record.clone(), self.second.masses.len())
        })
    }

    /// Small sides and slices that fit them, all numbers anything.
    fn soup(&mut self, random: &mut Random) {
        self.sides = [(); 2].map(|_| 3 + random.below(4));
        let n = self.sides.iter().product();
        self.first = junk_store(random, n, 1);
        // Flags above 3 would hide all else from most calls.
        if random.percent(80) {
            self.first.flags.iter_mut().for_each(|flag| *flag %= 4);
        }
        if random.percent(60) {
            self.first.fills.iter_mut().for_each(|fill| *fill %= 65_537);
        }
        self.second = junk_store(random, n, 1);
        self.marks = vec![1; n];
    }

    /// Slices of any small lengths.
    fn fragments(&mut self, random: &mut Random) {
        let store = |random: &mut Random| {
            let whole = junk_store(random, 40, 3);
            Store {
                flags: whole.flags[..random.below(41)].to_vec(),
                parts: whole.parts[..random.below(361)].to_vec(),
                masses: whole.masses[..random.below(41)].to_vec(),
                fills: whole.fills[..random.below(41)].to_vec(),
                carry: whole.carry[..random.below(4)].to_vec(),
            }
        };
        (self.first, self.second) = (store(random), store(random));
        self.marks.truncate(random.below(41));
        self.room.truncate(random.below(500));
    }

    /// One thing made wrong, or at least another.
    fn fault(&mut self, random: &mut Random) {
        let n = self.first.flags.len().min(self.first.masses.len()).min(self.first.fills.len());
        let c = random.below(n.max(1));
        let at = random.below(self.first.parts.len().max(1));
        let near = random.between(-2, 2) as i64;
        let anything = any(random) as i64;
        match random.below(18) {
            0 => {
                let side = random.pick(&[0, 1, 2, 3, 128, 129, 512, 513, 1 << 20, 1 << 32, usize::MAX]);
                self.sides[random.below(2)] = side;
            }
            // The lowest 32 bits still right.
            1 => {
                let side = &mut self.sides[random.below(2)];
                *side = side.wrapping_add(1 << 32);
            }
            2 => self.sides.swap(0, 1),
            3 => {
                self.p =
                    random.pick(&[0, 1, 2037, 2038, -1, i64::MIN, i64::MAX, self.p.wrapping_add(1 << 32)])
            }
            4 => {
                self.gravity = random.pick(&[
                    [34, -1048],
                    [35, -1048],
                    [1049, 0],
                    [1 << 32, 0],
                    [0, i64::MIN],
                    [i64::MAX, i64::MAX],
                    [0, 3_037_000_500],
                ])
            }
            5 => self.gravity[random.below(2)] = anything,
            6 => {
                self.edge =
                    random.pick(&[0, 1, 1000, 1001, -50, i64::MIN, self.edge.wrapping_add(1 << 32), anything])
            }
            7 => self.origin[random.below(2)] = random.pick(&[1, -1]) * 10_000_000_000 + near,
            8 => self.origin[random.below(2)] = anything,
            9 | 10 => self.resize(random),
            11 => put(&mut self.first.flags, c, random.bits() as u8),
            // Fluid beside empty, or water without parts; an outer cell is mostly what else is met.
            12 | 13 => {
                let open: Vec<usize> = (0..n).filter(|&c| self.first.flags[c] != WALL).collect();
                let c = if open.is_empty() { c } else { random.pick(&open) };
                put(&mut self.first.flags, c, random.below(4) as u8);
            }
            14 => put(&mut self.first.parts, at, number(random, PART_LIMIT as i32)),
            15 => put(&mut self.first.masses, c, number(random, MASS_LIMIT as i32)),
            16 => {
                let fill = self.first.fills.get(c).copied().unwrap_or(0);
                let other = random.pick(&[fill ^ 1, 65_536, 65_537, fill ^ 1 << 31, anything as u32]);
                put(&mut self.first.fills, c, other);
            }
            _ => {
                let end = random.pick(&[CARRY_LIMIT as i64, -CARRY_LIMIT as i64]);
                let other = random.pick(&[end + near, i64::MIN, i64::MAX, anything]);
                put(&mut self.first.carry, 0, other);
            }
        }
    }

    /// Another length for one of the lent slices.
    fn resize(&mut self, random: &mut Random) {
        let change = random.below(CHANGES);
        let set = if random.percent(50) { &mut self.first } else { &mut self.second };
        match random.below(6) {
            0 => changed(&mut set.flags, change),
            1 => changed(&mut set.parts, change),
            2 => changed(&mut set.masses, change),
            3 => changed(&mut set.fills, change),
            4 => changed(&mut set.carry, change),
            _ => changed(&mut self.marks, change),
        }
    }

    /// The first lent slice in which this case, as it should be, and another differ.
    pub fn apart(&self, given: &Case) -> Option<String> {
        let sets = [("first", &self.first, &given.first), ("second", &self.second, &given.second)];
        let differs = sets.into_iter().find_map(|(name, wanted, given)| {
            apart(&format!("{name} flags"), &wanted.flags, &given.flags)
                .or_else(|| apart(&format!("{name} parts"), &wanted.parts, &given.parts))
                .or_else(|| apart(&format!("{name} masses"), &wanted.masses, &given.masses))
                .or_else(|| apart(&format!("{name} fills"), &wanted.fills, &given.fills))
                .or_else(|| apart(&format!("{name} carry"), &wanted.carry, &given.carry))
        });
        differs
            .or_else(|| apart("marks", &self.marks, &given.marks))
            .or_else(|| apart("record", &self.record, &given.record))
            .or_else(|| apart("room", &self.room, &given.room))
    }
}
