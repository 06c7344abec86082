// Lists by seed: survey points through a grid, with few faults or none.

use oracle::random::Random;
use oracle::scenes::good;
use oracle::state::WALL;
use oracle::Store;

use crate::lengths::{changed, CHANGES};

/// What the profile is lent and given; sides and lengths may be wrong.
#[derive(Clone)]
pub struct List {
    pub sides: [usize; 3],
    pub edge: i64,
    pub origin: [i64; 3],
    pub flags: Vec<u8>,
    pub fills: Vec<u32>,
    pub chainages: Vec<i64>,
    pub points: Vec<i64>,
    pub kinds: Vec<u8>,
    pub depths: Vec<f32>,
}

const REACH: i64 = 10_000_000_000;

impl List {
    /// The list of a seed: half of them good.
    pub fn of(seed: u64) -> List {
        let random = &mut Random::new(seed ^ 0x9e0f_11e0_0000_0000);
        let mut list = List::good(random, seed);
        if random.percent(50) {
            list.fault(random);
            while random.percent(35) {
                list.fault(random);
            }
        }
        list
    }

    /// Points in a good grid, some of them outside; the grid's fills often made equal, so that several points are as deep.
    fn good(random: &mut Random, seed: u64) -> List {
        let scene = good(seed);
        let store = Store::of(&scene.state);
        let sides = scene.sides.map(|side| side as usize);
        let edge = i64::from(scene.settings.edge);
        // So that no point of the grid is out of range.
        let origin = scene.origin.map(|coordinate| coordinate.clamp(-REACH, REACH - 128_000));
        let count = match random.below(12) {
            0 => 1,
            1 => 2,
            2 => 2_000,
            3 => random.pick(&[1_999, 1_000]),
            _ => 1 + random.below(60),
        };
        let mut fills = store.fills;
        if random.percent(40) {
            let share = random.pick(&[1, 4_096, 65_536]);
            fills.iter_mut().for_each(|fill| *fill -= *fill % share);
        }
        let outside = random.pick(&[0, 10, 10, 50]);
        let mut list = List {
            sides,
            edge,
            origin,
            flags: store.flags,
            fills,
            chainages: chainages(random, count),
            points: vec![],
            kinds: (0..count).map(|_| random.bits() as u8).collect(),
            depths: (0..count).map(|_| f32::from_bits(random.bits() as u32)).collect(),
        };
        for _ in 0..count {
            let point = list.point(random, outside);
            list.points.extend(point);
        }
        list
    }

    /// A point in a cell, often at its borders; in so many cases of a hundred outside, by one axis or more.
    fn point(&self, random: &mut Random, outside: usize) -> [i64; 3] {
        let mut point = [0, 1, 2].map(|axis| {
            let somewhere = random.below(self.edge as usize) as i64;
            let within = random.pick(&[0, self.edge - 1, somewhere, somewhere]);
            self.origin[axis] + random.below(self.sides[axis]) as i64 * self.edge + within
        });
        if random.percent(outside) {
            let axis = random.below(3);
            let length = self.sides[axis] as i64 * self.edge;
            let anywhere = random.between((-REACH).into(), REACH.into()) as i64;
            point[axis] = random.pick(&[
                self.origin[axis] + length,
                (self.origin[axis] - 1).max(-REACH),
                REACH,
                -REACH,
                anywhere,
            ]);
        }
        point
    }

    /// One thing made wrong, or at least another.
    fn fault(&mut self, random: &mut Random) {
        let i = random.below(self.chainages.len().max(1));
        let coordinate = random.below(self.points.len().max(1));
        let sign = random.pick(&[1, -1]);
        match random.below(16) {
            0 => self.sides[random.below(3)] = random.pick(&[0, 2, 129, 1 << 32, usize::MAX]),
            1 => self.sides.swap(0, 1 + random.below(2)),
            2 => self.edge = random.pick(&[0, 1001, -50, i64::MIN, self.edge + (1 << 32)]),
            3 => self.origin[random.below(3)] = sign * (REACH + random.below(2) as i64),
            // A chainage as the one before, just below it, or far from it.
            4 | 5 => {
                let before = self.chainages.get(i.saturating_sub(1)).copied().unwrap_or(0);
                let other = random.pick(&[before, before, before.saturating_sub(1), i64::MIN, i64::MAX]);
                put(&mut self.chainages, i, other);
            }
            6 => self.chainages.reverse(),
            7 | 8 => put(&mut self.points, coordinate, sign * (REACH + 1)),
            9 => put(&mut self.points, coordinate, random.pick(&[i64::MIN, i64::MAX, REACH, -REACH])),
            // In a column that a point lies in, or anywhere.
            10 => {
                let c = self.cell(random, i);
                put(&mut self.flags, c, random.pick(&[4, 255, WALL]));
            }
            11 => {
                let c = self.cell(random, i);
                put(&mut self.fills, c, random.pick(&[65_536, 65_537, u32::MAX]));
            }
            12 => self.resize_list(random),
            _ => self.resize(random),
        }
    }

    /// A cell of the column of point i, where that lies in the grid; else any.
    fn cell(&self, random: &mut Random, i: usize) -> usize {
        let n = self.flags.len().max(1);
        let step = |axis: usize| {
            let way = self.points.get(3 * i + axis)?.checked_sub(self.origin[axis])?;
            let step = usize::try_from(way.checked_div_euclid(self.edge)?).ok()?;
            (step < self.sides[axis]).then_some(step)
        };
        match (step(0), step(1)) {
            (Some(x), Some(y)) if random.percent(80) => {
                let layer = self.sides[0].saturating_mul(self.sides[1]);
                let z = random.below(self.sides[2].clamp(1, 128));
                x.saturating_add(self.sides[0].saturating_mul(y)).saturating_add(layer.saturating_mul(z))
            }
            _ => random.below(n),
        }
    }

    /// A whole list of another length, all its slices alike: none, one too many, and others.
    fn resize_list(&mut self, random: &mut Random) {
        let count = random.pick(&[0, 0, 2_001, 2_001, 2_002, 4_000]);
        let last = self.points.len().saturating_sub(3);
        let point = self.points.get(last..last + 3).map_or([0; 3], |point| [point[0], point[1], point[2]]);
        self.chainages = (0..count as i64).collect();
        self.points.truncate(3 * count);
        while self.points.len() < 3 * count {
            self.points.push(point[self.points.len() % 3]);
        }
        self.kinds.resize(count, 9);
        self.depths.resize(count, -9.0);
    }

    /// Another length for one of the slices.
    fn resize(&mut self, random: &mut Random) {
        let change = random.below(CHANGES);
        match random.below(6) {
            0 => changed(&mut self.flags, change),
            1 => changed(&mut self.fills, change),
            2 => changed(&mut self.chainages, change),
            3 => changed(&mut self.points, change),
            4 => changed(&mut self.kinds, change),
            _ => changed(&mut self.depths, change),
        }
    }
}

/// Rising, by small steps and large, from anywhere.
fn chainages(random: &mut Random, count: usize) -> Vec<i64> {
    let mut chainage = match random.below(4) {
        0 => 0,
        1 => i64::MIN,
        2 => i64::MAX - 4_000_000,
        _ => random.between(-1_000_000, 1_000_000) as i64,
    };
    let longest = random.pick(&[1, 1, 2_000]);
    (0..count)
        .map(|_| {
            let this = chainage;
            chainage += 1 + random.below(longest) as i64;
            this
        })
        .collect()
}

fn put<T>(slice: &mut [T], at: usize, number: T) {
    if let Some(place) = slice.get_mut(at) {
        *place = number;
    }
}
