// Every worked figure of document 01 as amended, the slips it names, and the figures of OPEN-POINTS.

use std::io::Write;
use std::process::{Command, Stdio};

use oracle::grid::{Grid, Refusal};
use oracle::lattice::{density, equilibrium, momentum, opposite, q, weight, DIRECTIONS, ONE};
use oracle::readings::{CellPoint, Depth};
use oracle::record::{read_within, written_back};
use oracle::scenes::{case_t, parts_at, Scene};
use oracle::settings::test_flow;
use oracle::state::{Cell, Rule, State, EMPTY, FLUID, INTERFACE, WALL};
use oracle::step::{draft, exchange, fills_up, next_state, normal, pushed, runs_dry, shares, traded};
use oracle::text::gridstep;
use oracle::{cell_point, check, depth, place, run, step, write, Settings, Store};

fn refusal(number: u32, place: u64) -> Refusal {
    Refusal { number, place }
}

/// Water at rest with so much more in part 0.
fn resting(mass: i128, more: i128) -> Cell {
    let mut cell = case_t().state.cells[13];
    cell.parts[0] += more;
    cell.mass = mass;
    Cell { fill: cell.worked_out_fill(), ..cell }
}

/// A row of three cells along x with walls around it.
fn row(cells: [Cell; 3]) -> (Grid, State) {
    let grid = Grid::new([5, 3, 3]).unwrap();
    let mut state = State::new(vec![Cell::blank(WALL); grid.n], 0);
    for (x, cell) in cells.into_iter().enumerate() {
        state.cells[grid.cell([x + 1, 1, 1])] = cell;
    }
    (grid, state)
}

const ROW: std::ops::Range<usize> = 21..24;

#[test]
fn directions_and_weights() {
    assert_eq!((0..19).map(weight).sum::<i128>(), 36);
    for k in 1..19 {
        assert_eq!(DIRECTIONS[k].map(|part| -part), DIRECTIONS[opposite(k)]);
        let length: i128 = DIRECTIONS[k].iter().map(|part| part * part).sum();
        assert_eq!(length, if k <= 6 { 1 } else { 2 });
        assert_eq!(weight(k), if k <= 6 { 2 } else { 1 });
        assert_eq!((k..19).filter(|&other| DIRECTIONS[other] == DIRECTIONS[k]).count(), 1);
    }
    assert_eq!(opposite(1), 2);
    assert_eq!(opposite(18), 17);
}

#[test]
fn exact_equilibrium_adds_up_to_density_and_momentum() {
    for (rho, j) in [(ONE, [0, 0, 0]), (589_851, [196_617, 0, 0]), (300_001, [-7, 99_999, 1234])] {
        let exact = |k: usize| weight(k) * q(rho, &j, k);
        assert_eq!((0..19).map(exact).sum::<i128>(), 72 * rho * rho);
        for (axis, part) in j.iter().enumerate() {
            let sum: i128 = (0..19).map(|k| exact(k) * DIRECTIONS[k][axis]).sum();
            assert_eq!(sum, 72 * rho * part);
        }
    }
}

#[test]
fn exchange_is_cut() {
    assert_eq!(exchange(98_304, -3), -2);
    assert_eq!(exchange(98_304, 3), 2);
}

#[test]
fn filled_and_emptied() {
    assert!(!fills_up(590_413, ONE));
    assert!(fills_up(590_414, ONE));
    assert!(!runs_dry(-589, ONE));
    assert!(runs_dry(-590, ONE));
}

#[test]
fn fills() {
    for (mass, fill) in [(294_912, 32_768), (589_823, 65_535), (-1, 0), (600_000, 65_536)] {
        assert_eq!(resting(mass, 0).fill, fill);
    }
}

#[test]
fn excess_is_shared() {
    assert_eq!(shares(10, &[1, 1, 2]), [3, 2, 5]);
    assert_eq!(shares(-10, &[1, 1, 2]), [-3, -2, -5]);
    // A target of weight 0 gets nothing, the remainder neither.
    assert_eq!(shares(10, &[0, 1, 1, 1]), [0, 4, 3, 3]);
    // All weights 0: each target weighs 1.
    assert_eq!(shares(-11, &[0, 0, 0]), [-5, -3, -3]);
}

#[test]
fn gravity_limit() {
    assert_eq!(test_flow(1024, [34, 0, -1048]), Ok(()));
    assert_eq!(test_flow(1024, [35, 0, -1048]), Err(refusal(3, 0)));
    assert_eq!(test_flow(0, [0; 3]), Err(refusal(3, 0)));
    assert_eq!(test_flow(2037, [0; 3]), Ok(()));
    assert_eq!(test_flow(2038, [0; 3]), Err(refusal(3, 0)));
    let first = Store::of(&case_t().state);
    let mut second = Store::blank(27);
    let answer = step([3; 3], 1024, [35, 0, -1048], first.lend(), second.lend_mut(), &mut [0; 27]);
    assert_eq!(answer, Err(refusal(3, 0)));
    let answer = step([3; 3], 1024, [34, 0, -1048], first.lend(), second.lend_mut(), &mut [0; 27]);
    assert_eq!(answer, Ok(()));
}

#[test]
fn placing() {
    let origin = 5_200_000_000;
    let on_axis = |axis: usize, coordinate: i64| {
        let mut sides = [3; 3];
        sides[axis] = 10;
        let mut point = [origin; 3];
        point[axis] = coordinate;
        place(sides, 50, [origin; 3], point)
    };
    for (axis, step) in [(0, 1), (1, 3), (2, 9)] {
        assert_eq!(on_axis(axis, origin), Ok(0));
        assert_eq!(on_axis(axis, 5_200_000_149), Ok(2 * step));
        assert_eq!(on_axis(axis, 5_200_000_150), Ok(3 * step));
        assert_eq!(on_axis(axis, 5_199_999_999), Err(refusal(13, 0)));
        assert_eq!(on_axis(axis, 5_200_000_499), Ok(9 * step));
        assert_eq!(on_axis(axis, 5_200_000_500), Err(refusal(13, 0)));
        assert_eq!(on_axis(axis, 10_000_000_001), Err(refusal(3, 0)));
    }
}

#[test]
fn case_t_after_one_step() {
    let scene = case_t();
    let first = Store::of(&scene.state);
    assert_eq!(check(scene.sides, first.lend()), Ok(()));
    let mut second = Store::blank(27);
    let (p, gravity) = (scene.settings.p, scene.settings.gravity);
    let answer = step(scene.sides, p, gravity, first.lend(), second.lend_mut(), &mut [1; 27]);
    assert_eq!(answer, Ok(()));

    let mut expected = first.clone();
    let parts = &mut expected.parts[19 * 13..19 * 14];
    parts[0] = 196_603;
    parts[5] = 32_673;
    parts[6] = 32_864;
    for k in 7..19 {
        parts[k] = [16_432, 16_384, 16_337][(DIRECTIONS[k][2] + 1) as usize];
    }
    assert_eq!(second, expected);
    assert_eq!((second.masses[13], second.fills[13]), (294_912, 32_768));
}

const CASE_T_TEXT: &str = "before 0 1 0 26 294912 0\nstep 0 0\nafter 0 1 0 26 294912 0\n";

#[test]
fn case_t_record_and_text() {
    let scene = case_t();
    let bytes = scene.record();
    assert_eq!(bytes.len(), 199);
    assert_eq!(bytes.len(), 92 + 27 + 4 + 76);
    let mut room = [7; 217];
    let store = Store::of(&scene.state);
    let length = write(scene.sides, &scene.settings, scene.origin, store.lend(), &mut room);
    assert_eq!(length, Ok(215));
    assert_eq!(room[..215], written_back(&bytes));
    assert_eq!(room[215..], [7, 7]);
    assert_eq!(gridstep(&bytes), CASE_T_TEXT);
}

#[test]
fn case_t_through_the_program() {
    let mut program = Command::new(env!("CARGO_BIN_EXE_oracle"))
        .arg("gridstep")
        .stdin(Stdio::piped())
        .stdout(Stdio::piped())
        .spawn()
        .unwrap();
    program.stdin.take().unwrap().write_all(&case_t().record()).unwrap();
    let output = program.wait_with_output().unwrap();
    assert!(output.status.success());
    assert_eq!(String::from_utf8(output.stdout).unwrap(), CASE_T_TEXT);
}

#[test]
fn gridstep_refuses() {
    assert_eq!(gridstep(&[]), "record 10 0\n");
    assert_eq!(gridstep(&[3; 65_537]), "record 10 65536\n");
    assert_eq!(gridstep(&[3; 65_536]), "record 11 1\n");
    let walls = |sides: [u32; 3]| {
        let n = sides.iter().product::<u32>() as usize;
        let state = State::new(vec![Cell::blank(WALL); n], -5);
        Scene { sides, state, ..case_t() }.record()
    };
    // 861 cells fit, 863 is prime, 864 do not.
    assert_eq!(gridstep(&walls([3, 7, 41])), "before 0 0 0 861 -5 -5\nstep 0 0\nafter 0 0 0 861 -5 -5\n");
    assert_eq!(gridstep(&walls([9, 8, 12])), "record 2 0\n");
    // Room is tested right after the sides, before anything that follows them.
    assert_eq!(gridstep(&walls([9, 8, 12])[..16]), "record 2 0\n");
    assert_eq!(gridstep(&walls([9, 8, 12])[..15]), "record 10 0\n");
}

#[test]
fn gridstep_repeats_the_state_of_a_refused_step() {
    let mut scene = case_t();
    scene.settings = Settings { p: 1500, gravity: [1048, 0, 0], edge: 50 };
    let parts = parts_at(ONE, &[-196_018, 0, 0]);
    scene.state.cells[13].parts = parts;
    scene.state.cells[13].fill = scene.state.cells[13].worked_out_fill();
    assert_eq!(gridstep(&scene.record()), "before 0 1 0 26 294912 0\nstep 8 13\nafter 0 1 0 26 294912 0\n");
}

#[test]
fn records_begin_their_sections_where_said() {
    let bytes = case_t().record();
    for (cut, place) in [(0, 0), (15, 0), (16, 16), (39, 16), (40, 40), (67, 40), (68, 68), (79, 68)]
        .into_iter()
        .chain([(80, 80), (110, 80), (111, 111), (118, 111), (119, 119), (198, 119)])
    {
        assert_eq!(read_within(&bytes[..cut], 27).unwrap_err(), refusal(10, place));
    }
    let longer = [bytes.as_slice(), &[0]].concat();
    assert_eq!(read_within(&longer, 27).unwrap_err(), refusal(10, 199));
}

#[test]
fn reader_hands_back_the_callers_own_flags() {
    let bytes = case_t().record();
    let (reading, store) = read_within(&bytes, 27).unwrap();
    assert_eq!(reading.flags.as_ptr(), bytes[84..].as_ptr());
    assert_eq!(reading.flags.len(), 27);
    assert_eq!(store, Store::of(&case_t().state));
}

#[test]
fn emptying_waits_beside_a_filled_cell() {
    let (grid, old) = row([resting(700_000, 0), resting(-1000, 0), Cell::blank(EMPTY)]);
    let next = next_state(&grid, &old, 1024, [0; 3]).unwrap();
    let row = &next.cells[ROW];
    assert_eq!(row.iter().map(|cell| cell.flag).collect::<Vec<_>>(), [FLUID, INTERFACE, EMPTY]);
    // 110,176 above ONE went over to the only target.
    assert_eq!(row.iter().map(|cell| cell.mass).collect::<Vec<_>>(), [ONE, 109_176, 0]);
    assert_eq!(next.carry, 0);
}

#[test]
fn emptying_opens_fluid_and_takes_from_it() {
    let fluid = Cell { flag: FLUID, ..resting(ONE, 0) };
    let (grid, old) = row([fluid, resting(-1000, 0), Cell::blank(EMPTY)]);
    let next = next_state(&grid, &old, 1024, [0; 3]).unwrap();
    let row = &next.cells[ROW];
    assert_eq!(row.iter().map(|cell| cell.flag).collect::<Vec<_>>(), [INTERFACE, EMPTY, EMPTY]);
    assert_eq!(row.iter().map(|cell| cell.mass).collect::<Vec<_>>(), [ONE - 1000, 0, 0]);
}

#[test]
fn a_lone_excess_joins_the_carry() {
    for (mass, flag, excess) in [(700_000, FLUID, 110_176), (-1000, EMPTY, -1000)] {
        let mut state = case_t().state;
        state.cells[13] = resting(mass, 0);
        let next = next_state(&Grid::new([3; 3]).unwrap(), &state, 1024, [0; 3]).unwrap();
        assert_eq!((next.cells[13].flag, next.carry), (flag, excess));
    }
}

#[test]
fn newborn_averages_over_the_old_liquid_cells() {
    // The far cell fills too, so that one pass that changes flags on the way would show.
    for far in [300_000, 700_000] {
        let (grid, old) = row([resting(700_000, 0), Cell::blank(EMPTY), resting(far, 11)]);
        let next = next_state(&grid, &old, 1024, [0; 3]).unwrap();
        let newborn = &next.cells[ROW][1];
        assert_eq!(newborn.flag, INTERFACE);
        assert_eq!(density(&newborn.parts), ONE + 5);
        assert_eq!(newborn.parts, equilibrium(ONE + 5, &[0; 3]));
        assert_eq!(newborn.mass, 110_176 + (far - ONE - 11).max(0));
    }
}

#[test]
fn gravity_is_cut() {
    // 589,824·3 is 1.69 times 1,048,576.
    let parts = resting(0, 0).parts;
    assert_eq!(pushed(&parts, [3, -3, -1]).j, [1, -1, 0]);
}

#[test]
fn fluid_neighbours_trade_the_full_difference() {
    let mut fluid = Cell { flag: FLUID, fill: 65_536, ..resting(ONE, 0) };
    fluid.parts[1] += 1000;
    fluid.parts[0] -= 1000;
    let (grid, old) = row([fluid, resting(294_912, 0), Cell::blank(WALL)]);
    assert_eq!(traded(&grid, &old, ROW.start + 1), 295_912);
}

#[test]
fn excess_follows_the_normal() {
    // The normal points from the fuller side, left, to the emptier one: a filled cell gives forward along
    // it, an emptied one takes from behind.
    for (mass, masses) in [(700_000, [500_000, ONE, 210_176]), (-1000, [499_000, 0, 100_000])] {
        let (grid, old) = row([resting(500_000, 0), resting(mass, 0), resting(100_000, 0)]);
        let next = next_state(&grid, &old, 1024, [0; 3]).unwrap();
        assert_eq!(next.cells[ROW].iter().map(|cell| cell.mass).collect::<Vec<_>>(), masses);
    }
}

#[test]
fn a_wall_counts_with_the_cells_own_fill() {
    let at = |rho: i128, mass: i128| {
        let cell = Cell { flag: INTERFACE, parts: equilibrium(rho, &[0; 3]), mass, fill: 0 };
        Cell { fill: cell.worked_out_fill(), ..cell }
    };
    let (grid, old) = row([at(600_000, 500_000), at(589_824, 300_000), at(580_000, 100_000)]);
    assert_eq!(old.cells[ROW].iter().map(|cell| cell.fill).collect::<Vec<_>>(), [54_613, 33_333, 11_299]);
    let normals: Vec<_> = ROW.map(|c| normal(&grid, &old, c)).collect();
    assert_eq!(normals, [[21_280, 0, 0], [43_314, 0, 0], [22_034, 0, 0]]);

    // A level pool does not slope, and an empty cell beside a wall counts 0 still.
    let (grid, level) = row([at(589_824, 300_000); 3]);
    assert_eq!(ROW.map(|c| normal(&grid, &level, c)).collect::<Vec<_>>(), [[0; 3]; 3]);
    let (grid, ends) = row([at(589_824, 300_000), Cell::blank(EMPTY), Cell::blank(EMPTY)]);
    assert_eq!(
        ROW.map(|c| normal(&grid, &ends, c)).collect::<Vec<_>>(),
        [[33_333, 0, 0], [33_333, 0, 0], [0; 3]]
    );
}

#[test]
fn interface_cells_rebuild_along_the_normal() {
    // nx is positive in each of the three: each rebuilds what comes from the next one, the last has a wall there.
    let at = |rho: i128, mass: i128| {
        let cell = Cell { parts: equilibrium(rho, &[0; 3]), mass, ..Cell::blank(INTERFACE) };
        Cell { fill: cell.worked_out_fill(), ..cell }
    };
    let (grid, old) = row([at(600_000, 500_000), at(589_824, 300_000), at(580_000, 100_000)]);
    let next = next_state(&grid, &old, 1024, [0; 3]).unwrap();
    let seen = |c: usize| {
        let Cell { mass, parts, fill, .. } = next.cells[c];
        [mass, parts[0], parts[1], parts[2], fill]
    };
    assert_eq!(seen(21), [499_621, 199_617, 33_459, 33_082, 54_674]);
    assert_eq!(seen(22), [300_194, 196_801, 32_894, 32_706, 33_322]);
    assert_eq!(seen(23), [100_185, 193_520, 32_344, 32_162, 11_309]);
}

#[test]
fn excess_leaves_the_wall_alone() {
    let grid = Grid::new([4, 4, 3]).unwrap();
    let mut old = State::new(vec![Cell::blank(WALL); grid.n], 0);
    let pool = [(21, 591_424), (22, 147_456), (25, 442_368), (26, 294_912)];
    for (c, mass) in pool {
        old.cells[c] = resting(mass, 0);
    }
    assert_eq!(normal(&grid, &old, 21), [49_152, 16_384, 0]);
    let next = next_state(&grid, &old, 1024, [0; 3]).unwrap();
    assert_eq!((next.cells[21].flag, next.cells[21].mass), (FLUID, ONE));
    let gifts: Vec<_> = pool[1..].iter().map(|&(c, mass)| next.cells[c].mass - mass).collect();
    assert_eq!(gifts, [600, 200, 800]);
}

#[test]
fn newborn_takes_floor_of_density_and_cut_of_momentum() {
    // The left cell streams to density ONE − 1 and momentum (1, −3, 0): its walls throw the 3 back, and
    // the rebuilt part, a little below 65,536, is cut. The right one stays at rest.
    let mut left = resting(700_000, 0);
    left.parts[3] += 3;
    left.parts[0] -= 3;
    let (grid, old) = row([left, Cell::blank(EMPTY), resting(300_000, 28)]);
    let next = next_state(&grid, &old, 1024, [0; 3]).unwrap();
    let newborn = &next.cells[ROW][1];
    assert_eq!(newborn.parts, equilibrium(ONE + 13, &[0, -1, 0]));
    // A momentum of −2 would give 32,769.
    assert_eq!(newborn.parts[4], 32_768);
    assert_eq!(newborn.mass, 110_177);
}

#[test]
fn rounding_of_a_newborn_can_break_the_speed_rule() {
    let (rho, j) = (589_851, [196_617, 0, 0]);
    let parts = equilibrium(rho, &j);
    assert_eq!((density(&parts), momentum(&parts)), (rho, [196_619, 0, 0]));
    let newborn = |parts| Cell { flag: INTERFACE, parts, mass: 0, fill: 0 };
    assert_eq!(newborn(parts).broken_rules(), [Rule::Speed]);
    assert_eq!(newborn(parts_at(rho, &j)).broken_rules(), []);
}

#[test]
fn gravity_with_p_above_1024_can_break_the_speed_rule() {
    let grid = Grid::new([3; 3]).unwrap();
    let mut state = case_t().state;
    state.cells[13].parts = equilibrium(ONE, &[-196_018, 0, 0]);
    state.work_out_fills();
    assert_eq!(check([3; 3], Store::of(&state).lend()), Ok(()));
    assert!(draft(&grid, &state, 1500, [1048, 0, 0]).is_ok());
    assert_eq!(next_state(&grid, &state, 1500, [1048, 0, 0]), Err(refusal(8, 13)));
}

#[test]
fn points_and_depths_are_exact() {
    let sides = [3, 4, 5];
    let grid = Grid::new(sides).unwrap();
    let mut fills = vec![0; grid.n];
    fills[grid.cell([1, 2, 3])] = 65_535;
    let point = cell_point(sides, &fills, grid.cell([1, 2, 3]) as u64).unwrap();
    assert_eq!(point, CellPoint { halves: [3, 5, 7], fill: 65_535 });
    assert_eq!(point.floats(), [1.5, 2.5, 3.5, 65_535.0 / 65_536.0]);
    assert_eq!(cell_point(sides, &fills, 60), Err(refusal(13, 0)));

    let mut flags = vec![WALL; grid.n];
    assert_eq!(depth(sides, &flags, &fills, 1, 2), Ok(Depth::Solid));
    flags[grid.cell([1, 2, 2])] = EMPTY;
    assert_eq!(depth(sides, &flags, &fills, 1, 2), Ok(Depth::Dry));
    flags[grid.cell([1, 2, 3])] = INTERFACE;
    fills[grid.cell([1, 2, 2])] = 65_536;
    let deep = depth(sides, &flags, &fills, 1, 2).unwrap();
    assert_eq!(deep, Depth::Deep(131_071));
    assert_eq!(deep.float(), Some(131_071.0 / 65_536.0));
    assert_eq!(depth(sides, &flags, &fills, 3, 2), Err(refusal(13, 0)));
    assert_eq!(depth(sides, &flags, &fills, 1, 4), Err(refusal(13, 0)));
    flags[grid.cell([1, 2, 4])] = 4;
    fills[grid.cell([1, 2, 0])] = 65_537;
    assert_eq!(depth(sides, &flags, &fills, 1, 2), Err(refusal(4, grid.cell([1, 2, 4]) as u64)));
    flags[grid.cell([1, 2, 4])] = WALL;
    assert_eq!(depth(sides, &flags, &fills, 1, 2), Err(refusal(6, grid.cell([1, 2, 0]) as u64)));
    assert_eq!(depth(sides, &flags, &fills, 1, 1), Ok(Depth::Solid));

    // The largest numbers there are still are exact.
    let tallest = Depth::Deep(126 * 65_536 - 1).float().unwrap();
    assert_eq!(f64::from(tallest) * 65_536.0, f64::from(126 * 65_536 - 1));
}

#[test]
fn run_counts_accepted_steps() {
    let scene = case_t();
    let gravity = scene.settings.gravity;
    let (mut first, mut second) = (Store::of(&scene.state), Store::blank(27));
    let mut marks = [3; 27];
    let none = run([3; 3], 1024, gravity, 0, first.lend_mut(), second.lend_mut(), &mut marks);
    assert_eq!((none.count, none.refusal), (0, None));
    assert_eq!((&second, marks), (&first, [0; 27]));
    let all = run([3; 3], 1024, gravity, 1000, first.lend_mut(), second.lend_mut(), &mut marks);
    assert_eq!((all.count, all.refusal), (1000, None));
    assert_eq!(first, second);
    let many = run([2; 3], 0, gravity, 1001, first.lend_mut(), second.lend_mut(), &mut marks);
    assert_eq!((many.count, many.refusal), (0, Some(refusal(9, 0))));
}
