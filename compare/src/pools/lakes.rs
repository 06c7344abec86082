// Lakes by seed: a set with its three totals, room for its pools, and few faults or none.

use oracle::ponds::{densest, full, snake, strewn};
use oracle::pools::{pools, Room};
use oracle::random::Random;
use oracle::scenes::{good, Scene};
use oracle::state::{CARRY_LIMIT, MASS_LIMIT, WALL};
use oracle::Store;

use crate::lengths::{changed, CHANGES};

/// What the question is lent and given; sides and lengths may be wrong.
#[derive(Clone)]
pub struct Lake {
    pub sides: [usize; 3],
    /// Its carry holds carry, poured and taken.
    pub set: Store,
    pub counts: Vec<u32>,
    pub waters: Vec<i64>,
    pub marks: Vec<u16>,
    pub work: Vec<u32>,
}

const TOTAL_LIMIT: i64 = 1_000_000_000_000_000;

/// How many large lakes there are.
pub const LARGE: usize = 12;

impl Lake {
    /// The lake of a seed: two thirds of them good.
    pub fn of(seed: u64) -> Lake {
        let random = &mut Random::new(seed ^ 0x1a4e_5000_0000_0000);
        let scene = match random.below(10) {
            0..6 => good(seed),
            6 | 7 => strewn(random),
            8 => densest([(); 3].map(|_| random.between(3, 11) as u32), random),
            _ => {
                let sides = [(); 3].map(|_| random.between(3, 9) as u32);
                random.pick(&[full, snake])(sides, random)
            }
        };
        let spare = random.pick(&[0, 0, 0, 0, 1, 3, 40]);
        let short = if random.percent(15) { random.pick(&[1, 1, 2, 9, 1000]) } else { 0 };
        let mut lake = Lake::around(&scene, random, spare, short);
        if random.percent(33) {
            lake.fault(random);
            while random.percent(30) {
                lake.fault(random);
            }
        }
        lake
    }

    /// One of the large lakes, with room for exactly its pools, or one too few.
    pub fn large(number: usize) -> Lake {
        let random = &mut Random::new(number as u64);
        let scene = match number / 2 {
            0 => densest([64; 3], random),
            1 => densest([57, 63, 73], random),
            2 => snake([64; 3], random),
            3 => snake([128, 16, 128], random),
            4 => full([64; 3], random),
            _ => densest([128, 128, 16], random),
        };
        Lake::around(&scene, random, 0, number % 2)
    }

    /// A scene's set, with room for its pools and so many more, or so many fewer. The slices to be written hold anything.
    fn around(scene: &Scene, random: &mut Random, spare: usize, short: usize) -> Lake {
        let mut set = Store::of(&scene.state);
        let mut total = || match random.below(4) {
            0 => TOTAL_LIMIT,
            1 => random.between(0, TOTAL_LIMIT.into()) as i64,
            _ => 0,
        };
        let totals = [total(), total()];
        set.carry.truncate(1);
        set.carry.extend(totals);
        let n = set.flags.len();
        let room = (pools_of(scene, &set) + spare).saturating_sub(short);
        Lake {
            sides: scene.sides.map(|side| side as usize),
            set,
            counts: (0..room).map(|_| random.bits() as u32).collect(),
            waters: (0..room).map(|_| random.bits() as i64).collect(),
            marks: (0..n).map(|_| random.bits() as u16).collect(),
            work: (0..n).map(|_| random.bits() as u32).collect(),
        }
    }

    /// One thing made wrong, or at least another.
    fn fault(&mut self, random: &mut Random) {
        let set = &mut self.set;
        let c = random.below(set.flags.len().min(set.masses.len()).min(set.fills.len()).max(1));
        match random.below(14) {
            0 => self.sides[random.below(3)] = random.pick(&[0, 2, 129, 1 << 32, usize::MAX]),
            1 => self.sides.swap(0, 1 + random.below(2)),
            2 => changed(&mut self.marks, random.below(CHANGES)),
            3 => changed(&mut self.work, random.below(CHANGES)),
            // Counts and waters that are not as many.
            4 => changed(&mut self.counts, random.below(CHANGES)),
            5 => changed(&mut self.waters, random.below(CHANGES)),
            6 => match random.below(5) {
                0 => changed(&mut set.flags, random.below(CHANGES)),
                1 => changed(&mut set.parts, random.below(CHANGES)),
                2 => changed(&mut set.masses, random.below(CHANGES)),
                3 => changed(&mut set.fills, random.below(CHANGES)),
                _ => set.carry.truncate(random.below(3)),
            },
            7 => put(&mut set.flags, c, random.bits() as u8),
            // Fluid beside empty, or water without parts; an outer cell is mostly what else is met.
            8 | 9 => {
                let open: Vec<usize> = (0..set.flags.len()).filter(|&c| set.flags[c] != WALL).collect();
                let c = if open.is_empty() { c } else { random.pick(&open) };
                put(&mut set.flags, c, random.below(4) as u8);
            }
            10 => put(&mut set.masses, c, random.pick(&[1, MASS_LIMIT as i32 + 1, -MASS_LIMIT as i32 - 1])),
            11 => put(&mut set.fills, c, random.pick(&[1, 65_536, 65_537, u32::MAX])),
            12 => put(&mut set.carry, 0, random.pick(&[1, -1]) * (CARRY_LIMIT as i64 + 1)),
            _ => {
                let total = random.pick(&[-1, TOTAL_LIMIT + 1, i64::MIN, i64::MAX]);
                put(&mut set.carry, 1 + random.below(2), total);
            }
        }
    }
}

fn put<T>(slice: &mut [T], at: usize, number: T) {
    if let Some(place) = slice.get_mut(at) {
        *place = number;
    }
}

/// How many pools a good set has: the place of refusal 21 where there is room for none.
fn pools_of(scene: &Scene, set: &Store) -> usize {
    let n = set.flags.len();
    let room = Room { counts: &mut [], waters: &mut [], marks: &mut vec![0; n], work: &mut vec![0; n] };
    match pools(scene.sides, set.lend(), room) {
        Ok(pools) => pools,
        Err(refusal) => refusal.place as usize,
    }
}
