// Two designers at one tunnel by seed: their schemes over one wall map, what they ask one after another, and what each is then told.

use crate::acts::{self, Act};
use crate::grid::{Grid, Refusal};
use crate::index::{self, HeldStore};
use crate::random::Random;
use crate::scenes::{between, good, settings};
use crate::schemes::{self, Change, SOLID};
use crate::sets::{Set, Store};
use crate::settings::Settings;
use crate::state::{State, EMPTY, FLUID, INTERFACE, WALL};
use crate::turbulence::Relaxation;

/// What a designer does to one scheme, through its grid.
#[derive(Clone, Copy, Debug, PartialEq, Eq)]
pub enum Deed {
    Step { turbulent: bool },
    Run { steps: u32, turbulent: bool },
    Act(Act, u64, i64),
}

/// What a designer asks.
#[derive(Clone, Copy, Debug, PartialEq, Eq)]
pub enum Asked {
    Own(Deed),
    Wall(Change, u64),
}

/// What a designer is told: the refusal, if there is one, and the steps made or the water moved.
#[derive(Clone, Copy, Debug, Default, PartialEq, Eq)]
pub struct Told {
    pub refusal: Option<Refusal>,
    pub value: i64,
}

impl Told {
    fn of(outcome: Result<i64, Refusal>) -> Told {
        Told { refusal: outcome.err(), value: outcome.unwrap_or(0) }
    }

    pub fn accepted(&self) -> bool {
        self.refusal.is_none()
    }
}

/// Who answers: this program, where what is compared with it says nothing else.
pub trait Calls {
    fn join(sides: [u32; 3], map: &[u8], scheme: Set, flags: &mut [u8]) -> Result<(), Refusal> {
        schemes::join(sides, map, scheme, flags)
    }

    fn part(sides: [u32; 3], flags: &[u8], own: &mut [u8]) -> Result<(), Refusal> {
        schemes::part(sides, flags, own)
    }

    fn change(
        change: Change,
        sides: [u32; 3],
        map: &mut [u8],
        asker: Set,
        other: Set,
        cell: u64,
    ) -> Result<(), Refusal> {
        schemes::change(change, sides, map, asker, other, cell)
    }

    /// A step, a run or an act on a grid and its index.
    fn deed(deed: Deed, sides: [u32; 3], settings: &Settings, grid: &mut HeldStore) -> Told {
        let Settings { p, gravity, .. } = *settings;
        let relaxed = |turbulent: bool| Relaxation { p, turbulent };
        let n = grid.set.flags.len();
        let (mut second, mut marks) = (HeldStore::of(Store::blank(n)), vec![7; n]);
        match deed {
            Deed::Step { turbulent } => {
                let (first, second_mut) = (grid.lend(), second.lend_mut());
                let told = index::step(sides, relaxed(turbulent), gravity, first, second_mut, &mut marks);
                if matches!(told, Ok(()) | Err(Refusal { number: 7 | 8, .. })) {
                    *grid = second;
                }
                Told::of(told.map(|()| 1))
            }
            Deed::Run { steps, turbulent } => {
                let (first, second) = (grid.lend_mut(), second.lend_mut());
                let ran = index::run(sides, relaxed(turbulent), gravity, steps, first, second, &mut marks);
                Told { refusal: ran.refusal, value: ran.count.into() }
            }
            Deed::Act(act, cell, amount) => {
                Told::of(acts::act(act, sides, grid.set.lend_mut(), cell, amount))
            }
        }
    }
}

/// This program.
pub struct Here;

impl Calls for Here {}

/// Two schemes over one wall map, each with its index and its settings.
#[derive(Clone, Debug, PartialEq, Eq)]
pub struct Tunnel {
    pub sides: [u32; 3],
    pub map: Vec<u8>,
    /// Their flags are their own.
    pub schemes: [HeldStore; 2],
    pub settings: [Settings; 2],
}

/// A scheme of a state: its flags without the walls.
fn own(state: &State) -> HeldStore {
    let mut set = Store::of(state);
    set.flags.iter_mut().filter(|flag| **flag == WALL).for_each(|flag| *flag = EMPTY);
    HeldStore::of(set)
}

impl Tunnel {
    /// The tunnel of a seed: water of two kinds between the same walls.
    pub fn of(seed: u64) -> Tunnel {
        let random = &mut Random::new(seed ^ 0x2de5_1900_0000);
        let scene = good(seed);
        let mut first = scene.state;
        // More walls inside, where there is no water, so that walls can be taken out.
        let stones = random.pick(&[0, 10, 30, 60]);
        for cell in first.cells.iter_mut().filter(|cell| cell.flag == EMPTY) {
            if random.percent(stones) {
                cell.flag = WALL;
            }
        }
        let map = first.cells.iter().map(|cell| u8::from(cell.flag == WALL)).collect();
        let mut tunnel = Tunnel {
            sides: scene.sides,
            map,
            schemes: [own(&first), own(&first)],
            settings: [scene.settings, settings(random)],
        };
        tunnel.schemes[1] = tunnel.other_water(random);
        if random.percent(50) {
            tunnel.schemes.swap(0, 1);
            tunnel.settings.swap(0, 1);
        }
        tunnel
    }

    /// A tunnel of these sides: walls strewn through it, and water of two kinds between them.
    pub fn around(random: &mut Random, sides: [u32; 3]) -> Tunnel {
        let grid = Grid::new(sides).expect("sides in range");
        let stones = random.pick(&[1, 10, 30]);
        let map = (0..grid.n).map(|c| u8::from(grid.outer(c) || random.percent(stones))).collect();
        let dry = HeldStore::of(Store::blank(grid.n));
        let settings = [(); 2].map(|_| settings(random));
        let mut tunnel = Tunnel { sides, map, schemes: [dry.clone(), dry], settings };
        tunnel.schemes = [(); 2].map(|_| tunnel.other_water(random));
        tunnel
    }

    pub fn grid(&self) -> Grid {
        Grid::new(self.sides).expect("a tunnel's sides are in range")
    }

    /// A scheme without water.
    pub fn dry(&self) -> HeldStore {
        HeldStore::of(Store::blank(self.map.len()))
    }

    /// A scheme between the walls as they are.
    pub fn other_water(&self, random: &mut Random) -> HeldStore {
        let walls: Vec<bool> = self.map.iter().map(|&byte| byte == SOLID).collect();
        own(&between(random, &self.grid(), &walls))
    }

    /// What one of the two asks, by chance.
    pub fn wish(&self, random: &mut Random, who: usize) -> Asked {
        let own = &self.schemes[who].set.flags;
        let n = own.len();
        match random.below(10) {
            0 | 1 => Asked::Own(Deed::Step { turbulent: random.percent(50) }),
            2 => {
                let steps = random.pick(&[0, 1, 2, 5]);
                Asked::Own(Deed::Run { steps, turbulent: random.percent(50) })
            }
            3 | 4 => {
                let surface: Vec<usize> = (0..n).filter(|&c| own[c] == INTERFACE).collect();
                let anywhere = surface.is_empty() || random.percent(10);
                let cell = if anywhere { random.below(n + 2) } else { random.pick(&surface) };
                let act = random.pick(&[Act::Pour, Act::Take]);
                Asked::Own(Deed::Act(act, cell as u64, random.between(-3, 589_827) as i64))
            }
            _ => {
                let change = random.pick(&[Change::Add, Change::Remove]);
                Asked::Wall(change, self.wished_cell(random, change) as u64)
            }
        }
    }

    /// A cell for a wall change: mostly one that could be accepted but for the water.
    pub fn wished_cell(&self, random: &mut Random, change: Change) -> usize {
        let (grid, n) = (self.grid(), self.map.len());
        let asked = if change == Change::Add { 0 } else { SOLID };
        let open: Vec<usize> = (0..n).filter(|&c| !grid.outer(c) && self.map[c] == asked).collect();
        let dry = |c: usize| self.schemes.iter().all(|scheme| scheme.set.flags[c] == EMPTY);
        let free: Vec<usize> = open.iter().copied().filter(|&c| dry(c)).collect();
        match random.below(10) {
            0 => random.below(n + 2),
            1..6 if !free.is_empty() => random.pick(&free),
            _ if !open.is_empty() => random.pick(&open),
            _ => random.below(n),
        }
    }

    /// Asks for one of the two; a scheme is stepped, run and poured into through join and part.
    pub fn ask<C: Calls>(&mut self, who: usize, asked: Asked) -> Told {
        match asked {
            Asked::Wall(change, cell) => {
                let [asker, other] = [who, 1 - who].map(|k| self.schemes[k].set.lend());
                Told::of(C::change(change, self.sides, &mut self.map, asker, other, cell).map(|()| 0))
            }
            Asked::Own(deed) => match self.done::<C>(who, deed) {
                Ok(told) => told,
                Err(refusal) => Told::of(Err(refusal)),
            },
        }
    }

    /// A deed between join and part.
    fn done<C: Calls>(&mut self, who: usize, deed: Deed) -> Result<Told, Refusal> {
        let scheme = &mut self.schemes[who];
        let mut grid = scheme.clone();
        C::join(self.sides, &self.map, scheme.set.lend(), &mut grid.set.flags)?;
        let told = C::deed(deed, self.sides, &self.settings[who], &mut grid);
        C::part(self.sides, &grid.set.flags, &mut scheme.set.flags)?;
        let flags = std::mem::take(&mut scheme.set.flags);
        *scheme = HeldStore { set: Store { flags, ..grid.set }, index: grid.index };
        Ok(told)
    }

    /// Whether a scheme is in the way, by coordinates: where a wall is asked for, its water in the cell; where one is taken out, its fluid one away along
    /// one axis or two.
    pub fn in_the_way(&self, who: usize, change: Change, cell: usize) -> bool {
        let (grid, own) = (self.grid(), &self.schemes[who].set.flags);
        let near = |c: usize| {
            let [here, there] = [grid.position(cell), grid.position(c)];
            let ways = [0, 1, 2].map(|axis| here[axis].abs_diff(there[axis]));
            ways.iter().all(|&way| way <= 1) && [1, 2].contains(&ways.iter().sum())
        };
        match change {
            Change::Add => own[cell] != EMPTY,
            Change::Remove => (0..own.len()).any(|c| own[c] == FLUID && near(c)),
        }
    }
}
