// What the depth map's writer is given and lent, by seed: good and damaged sets, corners at the ends of their range, room of every length around the text's.

use oracle::depths::write;
use oracle::random::Random;
use oracle::state::WALL;
use oracle::Store;

use super::{number, side};
use crate::pools::lakes::Lake;

#[derive(Clone)]
pub struct Map {
    pub sides: [usize; 3],
    pub edge: i64,
    pub corner: [i64; 2],
    pub set: Store,
    /// It holds anything.
    pub room: Vec<u8>,
}

const REACH: i64 = 10_000_000_000;

impl Map {
    /// The map of a seed; sides, lengths and contents of its set may be wrong.
    pub fn of(seed: u64) -> Map {
        let random = &mut Random::new(seed ^ 0xde97_4500_0000_0000);
        let Lake { sides, set, .. } = Lake::of(seed);
        let mut map = Map { sides, edge: edge(random), corner: [0; 2], set, room: Vec::new() };
        map.corner = [(); 2].map(|_| corner(random));
        if random.percent(8) {
            match random.below(2) {
                0 => map.edge = random.pick(&[0, -1, 1001, i64::MAX, i64::MIN, (1 << 32) + 50]),
                _ => map.corner[random.below(2)] = random.pick(&[REACH + 1, -REACH - 1, i64::MAX, i64::MIN]),
            }
        }
        let length = map.length();
        let room = match random.below(6) {
            0 => length.saturating_sub(1 + random.below(3)),
            1 => random.below(length + 1),
            2 => length + 1 + random.below(40),
            _ => length,
        };
        map.room = (0..room).map(|_| random.bits() as u8).collect();
        map
    }

    /// One small grid with room of every length, to a little more than the text's.
    pub fn rooms(number: usize) -> Option<Map> {
        let mut map =
            (0..).map(Map::of).find(|map| map.length() > 0 && map.sides.iter().all(|&side| side < 6))?;
        let random = &mut Random::new(number as u64);
        map.room = (0..number).map(|_| random.bits() as u8).collect();
        (number <= map.length() + 8).then_some(map)
    }

    /// Large grids, the longest text of any among them.
    pub fn large(number: usize) -> Map {
        let random = &mut Random::new(number as u64);
        let mut map = match number % 3 {
            0 => {
                let sides = [128, 128, 16];
                let n = sides.iter().product();
                let set = Store { flags: vec![WALL; n], ..Store::blank(n) };
                Map { sides, edge: random.pick(&[1, 1000]), corner: [-REACH; 2], set, room: Vec::new() }
            }
            _ => {
                let Lake { sides, set, .. } = Lake::large(number);
                Map {
                    sides,
                    edge: edge(random),
                    corner: [corner(random), corner(random)],
                    set,
                    room: Vec::new(),
                }
            }
        };
        map.room = vec![7; map.length() + number % 2];
        map
    }

    /// How long its text is; 0 if it is refused for another reason than its room.
    fn length(&self) -> usize {
        let sides = self.sides.map(side);
        match write(sides, number(self.edge), self.corner, self.set.lend(), &mut []) {
            Err(refusal) if refusal.number == 12 => refusal.place as usize,
            _ => 0,
        }
    }
}

fn edge(random: &mut Random) -> i64 {
    match random.below(3) {
        0 => random.pick(&[1, 9, 10, 100, 999, 1000]),
        _ => random.between(1, 1000) as i64,
    }
}

fn corner(random: &mut Random) -> i64 {
    match random.below(3) {
        0 => random.pick(&[-REACH, REACH, 0, -1, 1, -50, 50, -999, 999, -1000, 1000, -1001, 5_200_000_000]),
        1 => random.between(-3000, 3000) as i64,
        _ => random.between((-REACH).into(), REACH.into()) as i64,
    }
}
