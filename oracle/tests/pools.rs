// The worked figures of the pools, their refusals in order, what a refusal leaves, and the pools held to their definition.

use oracle::grid::{Grid, Refusal};
use oracle::ponds::{densest, full, snake, strewn};
use oracle::pools::{pools, Room};
use oracle::random::Random;
use oracle::scenes::{case_t, good, Scene};
use oracle::state::{Cell, State, EMPTY, FLUID, WALL};
use oracle::Store;

/// All that the question is lent.
#[derive(Clone, Debug, PartialEq)]
struct Lent {
    sides: [u32; 3],
    set: Store,
    counts: Vec<u32>,
    waters: Vec<i64>,
    marks: Vec<u16>,
    work: Vec<u32>,
}

impl Lent {
    fn new(sides: [u32; 3], state: &State, room: usize) -> Lent {
        let mut set = Store::of(state);
        set.carry.resize(3, 0);
        let n = set.flags.len();
        Lent {
            sides,
            set,
            counts: vec![77; room],
            waters: vec![-77; room],
            marks: vec![777; n],
            work: vec![7777; n],
        }
    }

    fn of(scene: &Scene, room: usize) -> Lent {
        Lent::new(scene.sides, &scene.state, room)
    }

    fn asked(&mut self) -> Result<usize, Refusal> {
        let Lent { sides, set, counts, waters, marks, work } = self;
        pools(*sides, set.lend(), Room { counts, waters, marks, work })
    }

    /// That it is refused so, and has written nothing.
    fn refused(mut self, number: u32, place: usize) {
        let before = self.clone();
        assert_eq!(self.asked(), Err(Refusal { number, place: place as u64 }));
        assert!(self == before);
    }
}

/// 4×4×4, interface cells at rest with these masses, empty cells between them.
fn corners(cells: &[(usize, i128)]) -> State {
    let grid = Grid::new([4; 3]).unwrap();
    let flag = |c: usize| if grid.outer(c) { WALL } else { EMPTY };
    let mut state = State::new((0..grid.n).map(|c| Cell::blank(flag(c))).collect(), 0);
    for &(c, mass) in cells {
        state.cells[c] = Cell { mass, ..case_t().state.cells[13] };
    }
    state.work_out_fills();
    state
}

#[test]
fn two_corners_are_two_pools() {
    let mut lent = Lent::new([4; 3], &corners(&[(21, 1000), (42, -7)]), 3);
    assert_eq!(lent.asked(), Ok(2));
    assert_eq!((&lent.counts[..], &lent.waters[..]), (&[1, 1, 77][..], &[1000, -7, -77][..]));
    let marked: Vec<(usize, u16)> =
        lent.marks.iter().copied().enumerate().filter(|(_, mark)| *mark > 0).collect();
    assert_eq!(marked, [(21, 1), (42, 2)]);
    assert_eq!(lent.work, [0; 64]);

    let mut short = Lent::new([4; 3], &corners(&[(21, 1000), (42, -7)]), 1);
    assert_eq!(short.asked(), Err(Refusal { number: 21, place: 2 }));
    assert_eq!((short.marks, short.work), (vec![0; 64], vec![0; 64]));
    assert_eq!((short.counts, short.waters), (vec![77], vec![-77]));
}

#[test]
fn a_cell_between_them_makes_one() {
    let mut lent = Lent::new([4; 3], &corners(&[(21, 1000), (22, 50), (42, -7)]), 1);
    assert_eq!(lent.asked(), Ok(1));
    assert_eq!((lent.counts, lent.waters), (vec![3], vec![1043]));
}

#[test]
fn the_first_fault_is_told() {
    let state = corners(&[(21, 1000), (42, -7)]);
    let mut lent = Lent::new([4; 3], &state, 0);
    // Each fault is added to those before it, and is found before them.
    lent.set.carry[2] = -1;
    lent.clone().refused(6, 64);
    lent.set.masses[42] = 100;
    lent.clone().refused(6, 42);
    lent.set.flags[41] = FLUID;
    lent.clone().refused(5, 41);
    lent.set.flags[63] = 0;
    lent.clone().refused(4, 63);
    lent.waters.push(0);
    lent.clone().refused(2, 0);
    lent.sides[1] = 2;
    lent.refused(1, 0);

    let good = Lent::new([4; 3], &state, 2);
    for poured in [-1, 1_000_000_000_000_001, i64::MIN, i64::MAX] {
        let mut lent = good.clone();
        lent.set.carry[1] = poured;
        lent.refused(6, 64);
    }
    for lengths in 0..6 {
        let mut lent = good.clone();
        match lengths {
            0 => lent.set.carry.truncate(1),
            1 => lent.set.carry.push(0),
            2 => lent.marks.push(0),
            3 => lent.work.truncate(63),
            4 => lent.counts.push(0),
            _ => lent.set.parts.truncate(64),
        }
        lent.refused(2, 0);
    }
    let mut most = good;
    most.set.carry = vec![1_000_000_000_000, 1_000_000_000_000_000, 1_000_000_000_000_000];
    assert_eq!(most.asked(), Ok(2));
}

/// The pools by their definition: chains are followed until they lead to nothing new.
fn followed(grid: &Grid, state: &State) -> Vec<u16> {
    let mut marks = vec![0; grid.n];
    let mut number = 0;
    for c in 0..grid.n {
        if !state.cells[c].liquid() || marks[c] != 0 {
            continue;
        }
        number += 1;
        marks[c] = number;
        loop {
            let beside = |d: usize| grid.neighbours(d).any(|e| marks[e] == number);
            let found: Vec<usize> =
                (0..grid.n).filter(|&d| state.cells[d].liquid() && marks[d] == 0 && beside(d)).collect();
            if found.is_empty() {
                break;
            }
            found.iter().for_each(|&d| marks[d] = number);
        }
    }
    marks
}

#[test]
fn pools_are_what_chains_join() {
    let mut most = 0;
    for seed in 0..300 {
        let random = &mut Random::new(seed);
        let scene = match seed % 4 {
            0 => good(seed),
            1 => densest([(); 3].map(|_| random.between(3, 9) as u32), random),
            _ => strewn(random),
        };
        let [nx, ny, nz] = scene.sides.map(|side| side as usize - 1);
        let mut lent = Lent::of(&scene, nx * ny * nz / 4);
        let number = lent.asked().unwrap();
        assert_eq!(lent.marks, followed(&scene.grid(), &scene.state), "seed {seed}");
        let total: i64 = lent.waters[..number].iter().sum();
        assert_eq!(i128::from(total) + scene.state.carry, scene.state.total(), "seed {seed}");
        assert_eq!(
            lent.counts[..number].iter().sum::<u32>() as usize,
            lent.marks.iter().filter(|m| **m > 0).count()
        );
        most = most.max(number);
    }
    assert!(most > 40, "{most}");
}

#[test]
fn lone_cells_and_long_ways() {
    let pools_of = |scene: &Scene| Lent::of(scene, 60_000).asked();
    let random = &mut Random::new(9);
    assert_eq!(pools_of(&densest([5; 3], random)), Ok(9));
    assert_eq!(pools_of(&densest([64; 3], random)), Ok(59_582));
    assert_eq!(pools_of(&densest([57, 63, 73], random)), Ok(59_598));
    assert_eq!(pools_of(&full([64; 3], random)), Ok(1));
    for sides in [[64; 3], [5; 3], [3, 3, 3], [4, 9, 8], [128, 16, 128], [7, 6, 5]] {
        let scene = snake(sides, random);
        assert_eq!(pools_of(&scene), Ok(1), "{sides:?}");
        // One cell wide: a cell has two neighbours, and four at most where it turns.
        let grid = scene.grid();
        let wet = |c: usize| scene.state.cells[c].liquid();
        let crowded = (0..grid.n).filter(|&c| wet(c) && grid.neighbours(c).filter(|&d| wet(d)).count() > 4);
        assert_eq!(crowded.count(), 0, "{sides:?}");
    }
}
