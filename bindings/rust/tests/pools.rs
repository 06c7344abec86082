// The pools: document 01's figures through the grid, every refusal over lent slices and what it leaves, the independent program's answers, and their
// picture.

use oracle::ponds::{densest, strewn};
use oracle::pools::Room;
use oracle::random::Random;
use oracle::scenes::good;
use oracle::Store;
use skwarzyna::drawing::pools::PoolMap;
use skwarzyna::drawing::{Axis, View};
use skwarzyna::picture::Picture;
use skwarzyna::{lent, Grid, Point, Pool, Refusal, Sides, Site, State, ONE};

const SIDES: Sides = Sides::new(4, 4, 4);
const SITE: Site = Site { edge: 50, origin: Point::new(0, 0, 118_000) };

/// Opposite corners of the inner box, and what else is given.
fn corners(more: &[(usize, i32)]) -> Grid {
    let mut grid = Grid::new(SIDES).unwrap();
    for &(cell, mass) in [(21, 1000), (42, -7)].iter().chain(more) {
        grid.set_interface(cell, mass).unwrap();
    }
    grid
}

#[test]
fn corners_are_two_pools_and_with_a_cell_between_them_one() {
    let pools = corners(&[]).pools().unwrap();
    let first = Pool { number: 1, cells: 1, water: 1000, lowest: 21 };
    assert_eq!(pools.list, [first, Pool { number: 2, cells: 1, water: -7, lowest: 42 }]);
    let marked: Vec<usize> = (0..64).filter(|&cell| pools.marks[cell] != 0).collect();
    assert_eq!((marked, pools.marks[21], pools.marks[42]), (vec![21, 42], 1, 2));

    let grid = corners(&[(22, 50)]);
    let pools = grid.pools().unwrap();
    assert_eq!(pools.list, [Pool { number: 1, cells: 3, water: 1043, lowest: 21 }]);
    assert_eq!(pools.water(), grid.total());
    assert!(Grid::new(SIDES).unwrap().pools().unwrap().list.is_empty());
}

#[test]
fn a_state_that_is_not_good_is_refused() {
    let mut grid = corners(&[]);
    grid.state_mut().fills[42] = 1;
    assert_eq!(grid.pools(), Err(Refusal { number: Refusal::STATE, place: 42 }));
    grid.state_mut().flags[41] = 2;
    assert_eq!(grid.pools(), Err(Refusal { number: Refusal::LAYER, place: 41 }));
    grid.state_mut().flags[0] = 0;
    assert_eq!(grid.pools(), Err(Refusal { number: Refusal::FLAG, place: 0 }));
}

/// The call over these slices, which hold something else before; what it answers and leaves.
fn lent_pools(grid: &Grid, carry: &[i64], room: [usize; 4]) -> (Result<usize, Refusal>, [bool; 3]) {
    let [counts, waters, marks, work] = room;
    let (mut counts, mut waters) = (vec![77; counts], vec![-77; waters]);
    let (mut marks, mut work) = (vec![777; marks], vec![7777; work]);
    let state = State { carry, ..grid.state() };
    let told = lent::pools(grid.sides(), state, &mut counts, &mut waters, &mut marks, &mut work);
    let list_left = counts.iter().all(|count| *count == 77) && waters.iter().all(|water| *water == -77);
    let cleared = marks.iter().all(|mark| *mark == 0) && work.iter().all(|number| *number == 0);
    let left = marks.iter().all(|mark| *mark == 777) && work.iter().all(|number| *number == 7777);
    (told, [list_left, cleared, left])
}

#[test]
fn refusals_leave_what_they_say() {
    let grid = corners(&[]);
    let refused = |number: u8, place: usize| Err(Refusal { number, place });
    let carry = [0, 1_000_000_000_000_000, 0];
    assert_eq!(lent_pools(&grid, &carry, [2, 2, 64, 64]).0, Ok(2));
    assert_eq!(lent_pools(&grid, &carry, [1, 1, 64, 64]), (refused(21, 2), [true, true, false]));
    for room in [[1, 2, 64, 64], [2, 1, 64, 64], [2, 2, 63, 64], [2, 2, 64, 65], [2, 2, 0, 64]] {
        assert_eq!(lent_pools(&grid, &carry, room), (refused(2, 0), [true, false, true]));
    }
    for carry in [&[][..], &[0], &[0, 0], &[0, 0, 0, 0]] {
        assert_eq!(lent_pools(&grid, carry, [2, 2, 64, 64]), (refused(2, 0), [true, false, true]));
    }
    for carry in [[0, -1, 0], [0, 0, 1_000_000_000_000_001], [1_000_000_000_001, 0, 0]] {
        assert_eq!(lent_pools(&grid, &carry, [2, 2, 64, 64]), (refused(6, 64), [true, false, true]));
    }
}

#[test]
fn pools_are_the_independent_program_s() {
    for seed in 0..300 {
        let random = &mut Random::new(seed);
        let scene = match seed % 3 {
            0 => good(seed),
            1 => strewn(random),
            _ => densest([(); 3].map(|_| random.between(3, 10) as u32), random),
        };
        let mut set = Store::of(&scene.state);
        let n = set.flags.len();
        let (mut counts, mut waters) = (vec![0; n], vec![0; n]);
        let (mut marks, mut work) = (vec![0; n], vec![0; n]);
        let grid = {
            let [nx, ny, nz] = scene.sides.map(|side| side as usize);
            let Store { flags, parts, masses, fills, carry } = &set;
            Grid::of(Sides::new(nx, ny, nz), State { flags, parts, masses, fills, carry }).unwrap()
        };
        set.carry.resize(3, 0);
        let room = Room { counts: &mut counts, waters: &mut waters, marks: &mut marks, work: &mut work };
        let wanted = oracle::pools(scene.sides, set.lend(), room).unwrap();

        let pools = grid.pools().unwrap();
        assert_eq!(pools.marks, marks, "seed {seed}");
        let told: Vec<(u32, i64)> = pools.list.iter().map(|pool| (pool.cells, pool.water)).collect();
        let list: Vec<(u32, i64)> = counts.into_iter().zip(waters).take(wanted).collect();
        assert_eq!(told, list, "seed {seed}");
        for (k, pool) in pools.list.iter().enumerate() {
            assert_eq!(usize::from(pool.number), k + 1);
            assert_eq!(marks.iter().position(|mark| *mark == pool.number), Some(pool.lowest));
        }
        assert_eq!(pools.water() + grid.water().carry, grid.total());
    }
}

#[test]
fn lines_tell_each_pool() {
    let map = PoolMap::new(&corners(&[]), SITE, View::Above).unwrap();
    assert_eq!(
        map.text(),
        "2 pools; water in units, 589,824 to a full cell\n\
         \x20 pool       cells                   water       share  lowest cell\n\
         \x20    1           1                   1,000    100.70 %  21 (x 1, y 1, z 1)\n\
         \x20    2           1                      -7     -0.70 %  42 (x 2, y 2, z 2)\n\
         \x20  all           2                     993    100.00 %\n\
         \x20carry                                   0\n\
         \x20total                                 993\n"
    );
    let none = PoolMap::new(&Grid::new(SIDES).unwrap(), SITE, View::Above).unwrap();
    assert!(none.text().starts_with("no pools; "));
    assert!(none.text().contains("\n   all           0                       0           -\n"));
}

/// How many pixels have this colour, above the table.
fn pixels(picture: &Picture, colour: [u8; 3], height: usize) -> usize {
    let places = (0..height).flat_map(|y| (0..picture.width()).map(move |x| (x, y)));
    places.filter(|&(x, y)| picture.pixel(x, y) == Some(colour)).count()
}

#[test]
fn each_pool_has_its_colour() {
    const FIRST: [u8; 3] = [26, 92, 160];
    const SECOND: [u8; 3] = [222, 134, 16];
    let mut grid = Grid::new(Sides::new(12, 5, 5)).unwrap();
    for (x, z) in [(1, 1), (2, 1), (9, 1), (10, 1), (5, 3)] {
        grid.set_interface(grid.sides().cell(x, 2, z).unwrap(), ONE).unwrap();
    }
    let drawn = |grid: &Grid, view: View| PoolMap::new(grid, SITE, view).unwrap().named("a").picture();
    // From above and in their section two, two and one square; in another section none.
    for (view, seen) in [
        (View::Above, [2, 2]),
        (View::Section(Axis::Y, 2), [2, 2]),
        (View::Section(Axis::Z, 3), [0, 0]),
        (View::Section(Axis::X, 9), [0, 1]),
    ] {
        let picture = drawn(&grid, view);
        let squares = picture.height() - 200;
        for (colour, seen) in [FIRST, SECOND].into_iter().zip(seen) {
            // A square has 60 by 60 pixels or so; the table's little squares are below.
            let found = pixels(&picture, colour, squares) as f64 / 3600.0;
            assert!((found - seen as f64).abs() < 0.45 * (seen as f64).max(0.2), "{view:?} {found} {seen}");
        }
    }
    // A box with more pools than colours can be drawn too, and one with none.
    let mut many = Grid::new(Sides::new(30, 5, 5)).unwrap();
    for x in (2..28).step_by(2) {
        many.set_interface(many.sides().cell(x, 2, 2).unwrap(), ONE / 2).unwrap();
    }
    assert!(drawn(&many, View::Above).png().starts_with(b"\x89PNG"));
    assert!(drawn(&Grid::new(SIDES).unwrap(), View::Above).png().starts_with(b"\x89PNG"));
    let outside = PoolMap::new(&many, SITE, View::Section(Axis::Z, 5)).map(|_| ());
    assert_eq!(outside, Err(Refusal { number: Refusal::OUTSIDE, place: 0 }));
}
