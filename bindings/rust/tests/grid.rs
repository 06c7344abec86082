// A grid of one's own: every call on good and on bad input, held to document 01's figures.

use oracle::record::written_back;
use skwarzyna::{
    words_of, CellPoint, Counts, Depth, Grid, Mode, Point, Refusal, Settings, Sides, Site, Stopped, Water,
    EMPTY, FLUID, FULL, INTERFACE, ONE, PARTS, WALL,
};

/// Case T of document 01: its record, and what the record holds.
const CASE_T: &[u8] = include_bytes!("../../../crates/gridstep/stdin");
const PRINTED: &str = include_str!("../../../crates/gridstep/stdout");
const MIDDLE: usize = 13;
const THREE: Sides = Sides::new(3, 3, 3);
const FALLING: Settings = Settings { p: 1024, gx: 0, gy: 0, gz: -1024 };
const CORNER: Site = Site { edge: 50, origin: Point::new(0, 0, 0) };

fn refusal(number: u8, place: usize) -> Refusal {
    Refusal { number, place }
}

fn case_t() -> Grid {
    let mut grid = Grid::new(THREE).unwrap();
    grid.set_interface(MIDDLE, ONE / 2).unwrap();
    grid
}

/// Case T with its water moving along x at density ONE, by stage 5's parts.
fn moving(j: i64) -> Grid {
    let along = [0, 1, -1, 0, 0, 0, 0, 1, -1, 1, -1, 0, 0, 0, 0, 1, -1, 1, -1];
    let rho = i64::from(ONE);
    let mut grid = case_t();
    let parts = &mut grid.state_mut().parts[PARTS * MIDDLE..PARTS * (MIDDLE + 1)];
    for (k, e) in along.into_iter().enumerate().skip(1) {
        let weight = if k < 7 { 2 } else { 1 };
        let q = 2 * rho * rho + 6 * rho * e * j + 9 * e * e * j * j - 3 * j * j;
        parts[k] = (weight * q / (72 * rho)) as i32;
    }
    parts[0] = ONE - parts[1..].iter().sum::<i32>();
    grid.check().unwrap();
    grid
}

#[test]
fn a_new_grid_is_a_closed_box() {
    let grid = Grid::new(Sides::new(3, 4, 5)).unwrap();
    assert_eq!(grid.check(), Ok(()));
    assert_eq!(grid.sides(), Sides::new(3, 4, 5));
    assert_eq!(grid.counts(), Counts { empty: 6, interface: 0, fluid: 0, wall: 54 });
    assert_eq!(grid.water(), Water::default());
    for sides in [Sides::new(2, 3, 3), Sides::new(3, 129, 3), Sides::new(128, 128, 17)] {
        assert_eq!(Grid::new(sides).unwrap_err(), refusal(1, 0));
    }
    assert_eq!(Grid::new(Sides::new(usize::MAX, usize::MAX, usize::MAX)).unwrap_err(), refusal(1, 0));
    assert_eq!(Grid::new(Sides::new(128, 128, 16)).unwrap().state().flags.len(), 262_144);
}

#[test]
fn sides_number_their_cells() {
    let sides = Sides::new(3, 4, 5);
    assert_eq!(sides.cells(), Ok(60));
    assert_eq!(Sides::new(0, 4, 5).cells(), Err(refusal(1, 0)));
    assert_eq!(sides.cell(1, 2, 3), Ok(43));
    for (x, y, z) in [(3, 0, 0), (0, 4, 0), (0, 0, 5), (usize::MAX, 0, 0)] {
        assert_eq!(sides.cell(x, y, z), Err(refusal(13, 0)));
    }
    for cell in 0..60 {
        let (x, y, z) = sides.position(cell);
        assert_eq!(sides.cell(x, y, z), Ok(cell));
        let wall = Grid::new(sides).unwrap().state().flags[cell] == WALL;
        assert_eq!(sides.is_outer(cell), wall);
    }
}

#[test]
fn case_t_steps_as_document_01_says() {
    let before = case_t();
    let mut grid = before.clone();
    assert_eq!(grid.check(), Ok(()));
    assert_eq!(grid.step(FALLING), Ok(()));

    let parts = &grid.state().parts[PARTS * MIDDLE..PARTS * (MIDDLE + 1)];
    let mut wanted = before.state().parts[PARTS * MIDDLE..PARTS * (MIDDLE + 1)].to_vec();
    (wanted[0], wanted[5], wanted[6]) = (196_603, 32_673, 32_864);
    for up in [11, 14, 15, 18] {
        wanted[up] = 16_337;
    }
    for down in [12, 13, 16, 17] {
        wanted[down] = 16_432;
    }
    assert_eq!(parts, wanted);
    assert_eq!((grid.state().masses, grid.state().fills), (before.state().masses, before.state().fills));

    let line = |grid: &Grid| {
        let Counts { empty, interface, fluid, wall } = grid.counts();
        format!("{fluid} {interface} {empty} {wall} {} {}", grid.total(), grid.water().carry)
    };
    assert_eq!(format!("before {}\nstep 0 0\nafter {}\n", line(&before), line(&grid)), PRINTED);
}

#[test]
fn case_u_has_a_p_of_its_own_in_the_turbulent_mode() {
    let still = Settings { p: 2037, gx: 0, gy: 0, gz: 0 };
    let mut sheared = case_t();
    let parts = &mut sheared.state_mut().parts[PARTS * MIDDLE..][..PARTS];
    (parts[1], parts[2], parts[5], parts[6]) = (33_768, 33_768, 31_768, 31_768);
    for (mode, along, up) in [(Mode::Plain, 31_779, 33_757), (Mode::Turbulent, 31_795, 33_741)] {
        let (mut grid, mut run) = (sheared.clone(), sheared.clone());
        assert_eq!(grid.step(still.in_mode(mode)), Ok(()));
        let parts = &grid.state().parts[PARTS * MIDDLE..][..PARTS];
        assert_eq!((&parts[1..3], &parts[5..7]), (&[along; 2][..], &[up; 2][..]));
        assert_eq!(run.run(1, still.in_mode(mode)), Ok(()));
        assert_eq!(run, grid);
        assert_eq!(grid.total(), sheared.total());
        // Test 3 is of the plain p, whatever a cell's own would be.
        let above = Settings { p: 2038, ..still };
        assert_eq!(grid.step(above.in_mode(mode)), Err(refusal(3, 0)));
    }
    // Settings alone are the plain mode, and case T has p for its own p.
    let mut plain = sheared.clone();
    assert_eq!((plain.step(still), sheared.step(still.in_mode(Mode::Plain))), (Ok(()), Ok(())));
    assert_eq!(plain, sheared);
    let (mut plain, mut turbulent) = (case_t(), case_t());
    assert_eq!((plain.step(FALLING), turbulent.step(FALLING.in_mode(Mode::Turbulent))), (Ok(()), Ok(())));
    assert_eq!(plain, turbulent);
}

#[test]
fn a_refused_step_leaves_the_state() {
    let mut grid = case_t();
    let kept = grid.clone();
    assert_eq!(grid.step(Settings { p: 0, ..FALLING }), Err(refusal(3, 0)));
    assert_eq!(grid.step(Settings { gx: 35, gz: -1048, ..FALLING }), Err(refusal(3, 0)));
    assert_eq!(grid.step(Settings { gx: i64::MIN, ..FALLING }), Err(refusal(3, 0)));
    assert_eq!(grid, kept);
    assert_eq!(grid.step(Settings { gx: 34, gz: -1048, ..FALLING }), Ok(()));
    assert_ne!(grid, kept);

    // Water at the limit of speed is thrown back by the wall, and gravity adds to it.
    let mut fast = moving(i64::from(ONE) / 3);
    let kept = fast.clone();
    assert_eq!(fast.step(Settings { p: 1024, gx: -1024, gy: 0, gz: 0 }), Err(refusal(7, MIDDLE)));
    assert_eq!(fast, kept);
    // With p above 1024 gravity adds more than was tested.
    let mut pushed = moving(-196_018);
    let kept = pushed.clone();
    assert_eq!(pushed.step(Settings { p: 1500, gx: 1048, gy: 0, gz: 0 }), Err(refusal(8, MIDDLE)));
    assert_eq!(pushed, kept);
}

#[test]
fn what_is_changed_by_hand_is_checked() {
    let checked = |change: fn(&mut Grid)| {
        let mut grid = case_t();
        change(&mut grid);
        let stepped = grid.clone().step(FALLING).err();
        let ran = grid.clone().run(2, FALLING).err();
        assert_eq!(ran, stepped.map(|refusal| Stopped { count: 0, refusal }));
        let answer = grid.check();
        assert_eq!(answer.err(), stepped);
        answer
    };
    assert_eq!(checked(|_| ()), Ok(()));
    assert_eq!(checked(|grid| grid.state_mut().flags[26] = 4), Err(refusal(4, 26)));
    assert_eq!(checked(|grid| grid.state_mut().flags[4] = EMPTY), Err(refusal(4, 4)));
    assert_eq!(checked(|grid| grid.state_mut().fills[MIDDLE] += 1), Err(refusal(6, MIDDLE)));
    assert_eq!(checked(|grid| grid.state_mut().carry[0] = i64::MAX), Err(refusal(6, 27)));
    assert_eq!(checked(|grid| grid.state_mut().carry[0] = 1_000_000_000_000), Ok(()));

    let mut open = Grid::new(Sides::new(4, 3, 3)).unwrap();
    open.set_fluid(17, ONE).unwrap();
    assert_eq!(open.check(), Ok(()));
    open.state_mut().flags[18] = EMPTY;
    assert_eq!(open.check(), Err(refusal(5, 17)));
    assert_eq!(open.step(FALLING), Err(refusal(5, 17)));
}

#[test]
fn a_run_is_its_steps() {
    let mut grid = case_t();
    assert_eq!(grid.run(1001, FALLING), Err(Stopped { count: 0, refusal: refusal(9, 0) }));
    assert_eq!(grid.run(5, Settings { p: 2038, ..FALLING }).unwrap_err().refusal, refusal(3, 0));
    assert_eq!(grid.run(0, FALLING), Ok(()));
    assert_eq!(grid, case_t());
    let mut single = case_t();
    assert_eq!(grid.run(7, FALLING), Ok(()));
    for _ in 0..7 {
        single.step(FALLING).unwrap();
    }
    assert_eq!(grid, single);
    assert_eq!(grid.run(1000, FALLING), Ok(()));

    // The walls turn the water round at every step: gravity, hardly taken over with p 1, brakes it at the first and pushes it past
    // the limit at the second.
    let against = Settings { p: 1, gx: 1048, gy: 0, gz: 0 };
    let mut grid = moving(196_300);
    let mut single = grid.clone();
    assert_eq!(grid.run(50, against), Err(Stopped { count: 1, refusal: refusal(7, MIDDLE) }));
    single.step(against).unwrap();
    assert_eq!(grid, single);
    assert_eq!(single.step(against), Err(refusal(7, MIDDLE)));
    assert_eq!(grid.run(50, against), Err(Stopped { count: 0, refusal: refusal(7, MIDDLE) }));
}

#[test]
fn records_read_and_write() {
    let record = Grid::read(CASE_T).unwrap();
    assert_eq!(record.grid, case_t());
    assert_eq!((record.settings, record.site), (FALLING, CORNER));
    assert_eq!(record.grid.write(FALLING, CORNER).unwrap(), written_back(CASE_T));

    // A grid with all kinds of cells, and with numbers that fill their fields.
    let mut grid = Grid::new(Sides::new(6, 5, 4)).unwrap();
    grid.set_fluid(grid.sides().cell(2, 2, 1).unwrap(), 600_000).unwrap();
    grid.set_wall(grid.sides().cell(4, 3, 2).unwrap()).unwrap();
    grid.state_mut().carry[0] = -999_999_999_999;
    let settings = Settings { p: 2037, gx: -1000, gy: 300, gz: 7 };
    let site = Site { edge: 1000, origin: Point::new(-10_000_000_000, 10_000_000_000, 5_200_000_000) };
    grid.run(20, settings).unwrap();
    let bytes = grid.write(settings, site).unwrap();
    let counts = grid.counts();
    assert_eq!(bytes.len(), 108 + 120 + 4 * counts.interface + 76 * counts.liquid());
    let back = Grid::read(&bytes).unwrap();
    assert_eq!((&back.grid, back.settings, back.site), (&grid, settings, site));

    assert_eq!(grid.write(Settings { p: 0, ..settings }, site), Err(refusal(3, 0)));
    assert_eq!(grid.write(settings, Site { edge: 1001, ..site }), Err(refusal(3, 0)));
    let far = Site { origin: Point::new(0, 0, 10_000_000_001), ..site };
    assert_eq!(grid.write(settings, far), Err(refusal(3, 0)));
    grid.state_mut().masses[0] = 1;
    assert_eq!(grid.write(settings, site), Err(refusal(6, 0)));
    grid.state_mut().flags[0] = 255;
    assert_eq!(grid.write(settings, site), Err(refusal(4, 0)));
}

#[test]
fn damaged_records_are_refused() {
    let changed = |at: usize, byte: u8| {
        let mut bytes = CASE_T.to_vec();
        bytes[at] = byte;
        Grid::read(&bytes).map(|record| record.grid)
    };
    assert_eq!(Grid::read(&[]).unwrap_err(), refusal(10, 0));
    assert_eq!(Grid::read(&CASE_T[..198]).unwrap_err(), refusal(10, 119));
    assert_eq!(Grid::read(&[CASE_T, &[0]].concat()).unwrap_err(), refusal(10, 199));
    for (section, at) in [0, 16, 40, 68, 80, 111, 119].into_iter().enumerate() {
        assert_eq!(changed(at, 99), Err(refusal(11, section + 1)));
    }
    assert_eq!(changed(4, 2), Err(refusal(1, 0)));
    // Sides that are in range and not the record's: its flags are then too few.
    assert_eq!(changed(4, 4), Err(refusal(11, 5)));
    assert_eq!(changed(36, 0), Err(refusal(3, 0)));
    assert_eq!(changed(84, EMPTY), Err(refusal(4, 0)));
    assert_eq!(changed(118, 127), Err(refusal(6, MIDDLE)));
    // A box of 5, 3, 3 whose interface cell and empty cell are changed over.
    let mut row = Grid::new(Sides::new(5, 3, 3)).unwrap();
    row.set_fluid(21, ONE).unwrap();
    let mut bytes = row.write(FALLING, CORNER).unwrap();
    assert_eq!(bytes[100 + 21..100 + 24], [FLUID, INTERFACE, EMPTY]);
    bytes.swap(100 + 22, 100 + 23);
    assert_eq!(Grid::read(&bytes).unwrap_err(), refusal(5, 21));
}

#[test]
fn a_good_state_makes_a_grid() {
    let grid = case_t();
    assert_eq!(Grid::of(THREE, grid.state()).unwrap(), grid);
    assert_eq!(Grid::of(Sides::new(3, 3, 4), grid.state()), Err(refusal(2, 0)));
    assert_eq!(Grid::of(Sides::new(3, 3, 2), grid.state()), Err(refusal(1, 0)));
    let mut state = grid.state();
    state.carry = &[1, 2];
    assert_eq!(Grid::of(THREE, state), Err(refusal(2, 0)));
    state.carry = &[i64::MIN, 0, 0];
    assert_eq!(Grid::of(THREE, state), Err(refusal(6, 27)));
}

#[test]
fn survey_points_are_placed() {
    let origin = 5_200_000_000;
    let grid = Grid::new(Sides::new(10, 3, 4)).unwrap();
    let site = Site { edge: 50, origin: Point::new(origin, origin, origin) };
    let placed = |x: i64| grid.place(site, Point::new(x, origin, origin));
    assert_eq!(placed(5_200_000_149), Ok(2));
    assert_eq!(placed(5_200_000_150), Ok(3));
    assert_eq!(placed(5_199_999_999), Err(refusal(13, 0)));
    assert_eq!(placed(5_200_000_500), Err(refusal(13, 0)));
    assert_eq!(placed(10_000_000_001), Err(refusal(3, 0)));
    assert_eq!(placed(i64::MIN), Err(refusal(3, 0)));
    let corner = Point::new(origin + 499, origin + 149, origin + 199);
    assert_eq!(grid.place(site, corner), Ok(119));
    assert_eq!(grid.place(Site { edge: 0, ..site }, corner), Err(refusal(3, 0)));
}

#[test]
fn points_and_depths_are_read() {
    let mut grid = Grid::new(Sides::new(3, 4, 5)).unwrap();
    assert_eq!(grid.depth(1, 1), Ok(Depth::Dry));
    assert_eq!(grid.depth(0, 1), Ok(Depth::Solid));
    grid.set_fluid(grid.sides().cell(1, 2, 1).unwrap(), ONE).unwrap();
    let above = grid.sides().cell(1, 2, 2).unwrap();
    grid.set_interface(above, ONE / 4).unwrap();
    assert_eq!(grid.depth(1, 2), Ok(Depth::Deep(1.25)));
    assert_eq!(grid.point(above), Ok(CellPoint { x: 1.5, y: 2.5, z: 2.5, fill: 0.25 }));
    assert_eq!(grid.point(60), Err(refusal(13, 0)));
    assert_eq!(grid.depth(3, 0), Err(refusal(13, 0)));
    assert_eq!(grid.depth(0, usize::MAX), Err(refusal(13, 0)));
    grid.state_mut().fills[above] = FULL + 1;
    assert_eq!(grid.point(above), Err(refusal(6, above)));
    assert_eq!(grid.depth(1, 2), Err(refusal(6, above)));
    grid.state_mut().flags[above] = 4;
    assert_eq!(grid.depth(1, 2), Err(refusal(4, above)));
}

/// The interface cells of a grid, by a walk of its flags.
fn walked(grid: &Grid) -> Vec<usize> {
    let flags = grid.state().flags;
    (0..flags.len()).filter(|&cell| flags[cell] == INTERFACE).collect()
}

/// That the index answers as a walk does, from every start, and within the proved cost.
fn expect_surface(grid: &Grid) {
    let (cells, words) = (walked(grid), words_of(grid.state().flags.len()));
    assert_eq!(grid.surface_count(), cells.len());
    for start in (0..=grid.state().flags.len()).step_by(7).chain([grid.state().flags.len()]) {
        let mut surface = grid.surface(start).unwrap();
        let found: Vec<usize> = surface.by_ref().collect();
        assert_eq!(found, cells.iter().copied().filter(|&cell| cell >= start).collect::<Vec<_>>());
        assert!(surface.words_read() <= words + found.len());
        assert_eq!(surface.next(), None);
    }
    assert_eq!(grid.surface(grid.state().flags.len() + 1).unwrap_err(), refusal(13, 0));
}

#[test]
fn a_grid_keeps_its_index() {
    let mut grid = case_t();
    expect_surface(&grid);
    assert_eq!(grid.index().words, [1 << MIDDLE]);
    assert_eq!(grid.index().count, [1]);

    let sides = Sides::new(12, 9, 8);
    let mut grid = Grid::new(sides).unwrap();
    for (x, y, z) in [(1, 1, 1), (2, 1, 1), (1, 2, 1), (1, 1, 2), (6, 4, 3)] {
        grid.set_fluid(sides.cell(x, y, z).unwrap(), ONE).unwrap();
        expect_surface(&grid);
    }
    for steps in [1, 10, 100] {
        grid.step(FALLING).unwrap();
        expect_surface(&grid);
        grid.run(steps, FALLING).unwrap();
        expect_surface(&grid);
    }
    let again = Grid::read(&grid.write(FALLING, CORNER).unwrap()).unwrap().grid;
    expect_surface(&again);
    expect_surface(&Grid::of(sides, grid.state()).unwrap());

    // Flags changed by hand, and stepped: the index follows.
    let cell = walked(&grid)[0];
    let state = grid.state_mut();
    state.flags[cell] = WALL;
    state.parts[PARTS * cell..PARTS * (cell + 1)].fill(0);
    (state.masses[cell], state.fills[cell]) = (0, 0);
    expect_surface(&grid);
    grid.step(FALLING).unwrap();
    expect_surface(&grid);
}
