// Laying walls and water keeps a good state good, and what is laid adds up.

use oracle::random::Random;
use skwarzyna::{Grid, Refusal, Settings, Sides, EMPTY, FLUID, FULL, INTERFACE, ONE, WALL};

fn refusal(number: u8, place: usize) -> Refusal {
    Refusal { number, place }
}

#[test]
fn any_laying_leaves_a_good_state() {
    let random = &mut Random::new(1);
    for _ in 0..60 {
        let side = |random: &mut Random| random.between(3, 8) as usize;
        let sides = Sides::new(side(random), side(random), side(random));
        let mut grid = Grid::new(sides).unwrap();
        let cells = sides.cells().unwrap();
        for _ in 0..80 {
            let cell = random.below(cells + 1);
            let mass = random.pick(&[0, 1, -1, ONE, 294_912, 1_179_648, 777_777, 2_359_296, -2_359_296]);
            let kept = grid.clone();
            let (way, answer) = match random.below(4) {
                0 => (WALL, grid.set_wall(cell)),
                1 => (EMPTY, grid.set_empty(cell)),
                2 => (FLUID, grid.set_fluid(cell, mass)),
                _ => (INTERFACE, grid.set_interface(cell, mass)),
            };
            let wanted = if cell == cells {
                Err(refusal(13, 0))
            } else if sides.is_outer(cell) && way != WALL {
                Err(refusal(4, cell))
            } else if way == FLUID && !(294_912..=1_179_648).contains(&mass) {
                Err(refusal(6, cell))
            } else {
                Ok(())
            };
            assert_eq!(answer, wanted);
            assert_eq!(grid.check(), Ok(()));
            match answer {
                Ok(()) => assert_eq!(grid.state().flags[cell], way),
                Err(_) => assert_eq!(grid, kept),
            }
        }
    }
}

#[test]
fn laid_water_adds_up() {
    let sides = Sides::new(6, 6, 6);
    let mut grid = Grid::new(sides).unwrap();
    let at = |x, y, z| sides.cell(x, y, z).unwrap();
    grid.set_fluid(at(2, 2, 2), ONE).unwrap();
    // The cell and its neighbours, those at the corners left out.
    assert_eq!((grid.counts().fluid, grid.counts().interface), (1, 18));
    grid.set_fluid(at(3, 2, 2), 600_000).unwrap();
    grid.set_interface(at(2, 2, 3), 1000).unwrap();
    assert_eq!(grid.state().fills[at(2, 2, 3)], 111);
    assert_eq!((grid.water().fluid, grid.water().interface), (ONE as i64 + 600_000, 1000));
    assert_eq!(grid.total(), ONE as i64 + 601_000);
    // Emptied beside fluid: that becomes interface, with all its water.
    grid.set_empty(at(2, 2, 1)).unwrap();
    assert_eq!(grid.counts().fluid, 0);
    assert_eq!(grid.state().fills[at(3, 2, 2)], FULL);
    assert_eq!(grid.total(), ONE as i64 + 601_000);
    grid.set_wall(at(3, 2, 2)).unwrap();
    assert_eq!(grid.total(), ONE as i64 + 1000);
    assert_eq!(grid.check(), Ok(()));

    let before = grid.total();
    grid.run(200, Settings { p: 1600, gx: 0, gy: 0, gz: -105 }).unwrap();
    assert_eq!(grid.total(), before);
    for mass in [2_359_297, -2_359_297, i32::MIN, i32::MAX] {
        assert_eq!(grid.set_interface(at(4, 4, 4), mass), Err(refusal(6, at(4, 4, 4))));
    }
    for mass in [294_911, 1_179_649, 0, i32::MIN, i32::MAX] {
        assert_eq!(grid.set_fluid(at(4, 4, 4), mass), Err(refusal(6, at(4, 4, 4))));
    }
}

#[test]
fn a_total_too_large_is_the_nearest() {
    let mut grid = Grid::new(Sides::new(3, 3, 3)).unwrap();
    grid.set_fluid(13, ONE).unwrap();
    grid.state_mut().carry[0] = i64::MAX;
    assert_eq!(grid.total(), i64::MAX);
}
