// The flume's worked figures, its record, its refusals, and what every refusal leaves untouched.

use oracle::flume::drawing::{drawn, section};
use oracle::flume::grid::Grid;
use oracle::flume::hunt::{hunt, EVENTS};
use oracle::flume::lattice::{Flow, DIRECTIONS, WEIGHTS};
use oracle::flume::mirror::Axis;
use oracle::flume::record::{read_whole, section_starts};
use oracle::flume::scenes::{case_f, good, parts_at, resting, Scene};
use oracle::flume::sets::{blank, store};
use oracle::flume::settings::{test_step, Settings};
use oracle::flume::state::{Cell, State};
use oracle::flume::step::{draft, next_state, normal, pushed, streamed, traded};
use oracle::flume::{check, mirror, read, run, step, write};
use oracle::grid::Refusal;
use oracle::hunt::TURBULENT_EVENTS;
use oracle::lattice::{opposite, DIRECTIONS as BOX_DIRECTIONS, ONE};
use oracle::random::Random;
use oracle::record::read_within;
use oracle::scenes::case_t;
use oracle::state::{Rule, EMPTY, FLUID, INTERFACE, WALL};
use oracle::turbulence::Modes;
use oracle::Store;

const CALM: Settings = Settings { p: 1024, gravity: [0; 2], edge: 50 };

fn refusal(number: u32, place: u64) -> Refusal {
    Refusal { number, place }
}

/// Three cells in a row with walls around them: cells 6, 7 and 8 of a 5×3 grid.
fn row(cells: [Cell; 3]) -> (Grid, State) {
    let scene = Scene::of([5, 3], CALM, &[(6, cells[0]), (7, cells[1]), (8, cells[2])]);
    (scene.grid(), scene.state)
}

fn interface_at(rho: i128, mass: i128) -> Cell {
    Cell { flag: INTERFACE, parts: Flow { rho, j: [0; 2] }.equilibrium(), mass, fill: 0 }.filled()
}

#[test]
fn directions_are_the_boxs_without_y() {
    for (ours, theirs) in [1, 2, 5, 6, 15, 16, 17, 18].into_iter().enumerate() {
        let [x, y, z] = BOX_DIRECTIONS[theirs];
        assert_eq!((DIRECTIONS[ours + 1], y), ([x, z], 0));
    }
    for k in 1..9 {
        assert_eq!(DIRECTIONS[opposite(k)], DIRECTIONS[k].map(|part| -part));
    }
}

#[test]
fn weights_give_the_boxs_constants() {
    let sum = |of: &dyn Fn([i128; 2]) -> i128| -> i128 {
        WEIGHTS.iter().zip(DIRECTIONS).map(|(weight, e)| weight * of(e)).sum()
    };
    assert_eq!(sum(&|_| 1), 36);
    assert_eq!((sum(&|[x, _]| x * x), sum(&|[_, z]| z * z), sum(&|[x, z]| x * z)), (12, 12, 0));
    assert_eq!((sum(&|[x, _]| x.pow(4)), sum(&|[_, z]| z.pow(4))), (12, 12));
    assert_eq!((sum(&|[x, z]| x * x * z * z), sum(&|[x, z]| x.pow(3) * z)), (4, 0));
    for (rho, j) in [(ONE, [0, 0]), (589_805, [196_601, 0]), (300_001, [-7, 99_999])] {
        let flow = Flow { rho, j };
        let exact = |k: usize| WEIGHTS[k] * flow.q(k);
        assert_eq!((0..9).map(exact).sum::<i128>(), 72 * rho * rho);
        for axis in 0..2 {
            assert_eq!((0..9).map(|k| exact(k) * DIRECTIONS[k][axis]).sum::<i128>(), 72 * rho * j[axis]);
        }
    }
}

#[test]
fn case_f_after_one_step() {
    let scene = case_f();
    let first = store(&scene.state);
    assert_eq!(check(scene.sides, first.lend()), Ok(()));
    assert_eq!(
        first.parts[36..45],
        [262_144, 65_536, 65_536, 65_536, 65_536, 16_384, 16_384, 16_384, 16_384]
    );
    let (mut second, mut marks) = (blank(9), [1; 9]);
    let answer = step([3, 3], 1024, [0, -1024], first.lend(), second.lend_mut(), &mut marks);
    assert_eq!((answer, marks), (Ok(()), [0; 9]));
    let mut expected = first.clone();
    expected.parts[36..45]
        .copy_from_slice(&[262_141, 65_536, 65_536, 65_345, 65_728, 16_337, 16_432, 16_432, 16_337]);
    assert_eq!(second, expected);
    assert_eq!((second.masses[4], second.fills[4]), (294_912, 32_768));
}

#[test]
fn gravity_limit() {
    assert_eq!(test_step(1024, [34, -1048]), Ok(()));
    assert_eq!(test_step(1024, [35, -1048]), Err(refusal(3, 0)));
    let first = store(&case_f().state);
    let stepped = |gravity| step([3, 3], 1024, gravity, first.lend(), blank(9).lend_mut(), &mut [0; 9]);
    assert_eq!(stepped([34, -1048]), Ok(()));
    assert_eq!(stepped([35, -1048]), Err(refusal(3, 0)));
    assert_eq!(stepped([i32::MIN, i32::MIN]), Err(refusal(3, 0)));
}

#[test]
fn sides_limit() {
    let walls = |n: usize| Store { flags: vec![WALL; n], ..blank(n) };
    assert_eq!(check([512, 512], walls(512 * 512).lend()), Ok(()));
    for sides in [[513, 3], [3, 513], [2, 3], [3, 2], [0, 0], [u32::MAX, u32::MAX]] {
        assert_eq!(check(sides, walls(0).lend()), Err(refusal(1, 0)));
        assert_eq!(check(sides, walls(513 * 3).lend()), Err(refusal(1, 0)));
    }
    assert_eq!(check([512, 3], walls(513 * 3).lend()), Err(refusal(2, 0)));
}

#[test]
fn case_f_record() {
    let scene = case_f();
    let bytes = scene.record();
    assert_eq!(bytes.len(), 125);
    let places = [0, 12, 32, 52, 64, 77, 85];
    assert_eq!(section_starts(9, 1), places);
    let counts =
        places.map(|at| u32::from_le_bytes([bytes[at], bytes[at + 1], bytes[at + 2], bytes[at + 3]]));
    assert_eq!(counts, [2, 4, 2, 1, 9, 1, 9]);

    let kept = store(&scene.state);
    let mut lent = kept.clone();
    let mut answer = |bytes: &[u8]| {
        let set = lent.lend_mut();
        let answer =
            read(bytes, set.parts, set.masses, set.fills, set.carry).map(|reading| reading.flags.len());
        (answer, lent == kept)
    };
    for length in 0..125 {
        let place = places.into_iter().filter(|&place| place <= length).max().unwrap();
        assert_eq!(answer(&bytes[..length]), (Err(refusal(10, place as u64)), true), "{length}");
    }
    assert_eq!(answer(&[&bytes[..], &[0]].concat()), (Err(refusal(10, 125)), true));
    assert_eq!(answer(&bytes), (Ok(9), true));

    let (reading, read) = read_whole(&bytes).unwrap();
    assert_eq!((reading.sides, reading.settings, reading.origin), ([3, 3], scene.settings, [0, 0]));
    assert_eq!(reading.flags.as_ptr(), bytes[68..].as_ptr());
    assert_eq!(read, kept);

    let mut room = [7; 127];
    let mut written =
        |length: usize| write([3, 3], &scene.settings, [0, 0], kept.lend(), &mut room[..length]);
    assert_eq!(written(124), Err(refusal(12, 125)));
    assert_eq!(written(127), Ok(125));
    assert_eq!((&room[..125], &room[125..]), (&bytes[..], &[7, 7][..]));
    let mut small = [7; 124];
    assert!(write([3, 3], &scene.settings, [0, 0], kept.lend(), &mut small).is_err());
    assert_eq!(small, [7; 124]);
}

#[test]
fn either_reader_refuses_the_others_record() {
    let (ours, theirs) = (case_f().record(), case_t().record());
    assert_eq!(read_whole(&theirs).unwrap_err(), refusal(11, 1));
    assert_eq!(read_within(&ours, 262_144).unwrap_err(), refusal(11, 1));
    for length in 0..4 {
        assert_eq!(read_whole(&theirs[..length]).unwrap_err(), refusal(10, 0));
        assert_eq!(read_within(&ours[..length], 262_144).unwrap_err(), refusal(10, 0));
    }
    assert_eq!(read_whole(&theirs[..4]).unwrap_err(), refusal(11, 1));
    assert_eq!(read_within(&ours[..4], 262_144).unwrap_err(), refusal(11, 1));
}

#[test]
fn rounding_can_break_the_speed_rule() {
    let (rho, j) = (589_805, [196_601, 0]);
    let parts = Flow { rho, j }.equilibrium();
    assert_eq!(Flow::of(&parts), Flow { rho, j: [196_602, 0] });
    let cell = |parts| Cell { flag: INTERFACE, parts, mass: 0, fill: 0 };
    assert_eq!(cell(parts).broken_rules(), [Rule::Speed]);
    assert_eq!(cell(parts_at(rho, j)).broken_rules(), []);
}

#[test]
fn gravity_with_p_above_1024_can_break_the_speed_rule() {
    let mut scene = case_f();
    scene.state.cells[4].parts = Flow { rho: ONE, j: [-196_018, 0] }.equilibrium();
    scene.state.work_out_fills();
    let first = store(&scene.state);
    assert_eq!(check([3, 3], first.lend()), Ok(()));
    assert!(draft(&scene.grid(), &scene.state, 1500, [1048, 0]).is_ok());
    let (mut second, mut marks) = (blank(9), [6; 9]);
    let answer = step([3, 3], 1500, [1048, 0], first.lend(), second.lend_mut(), &mut marks);
    assert_eq!((answer, &second, marks), (Err(refusal(8, 4)), &first, [0; 9]));
}

#[test]
fn excess_leaves_the_wall_alone() {
    let pool = [(5, 591_424), (6, 147_456), (9, 442_368), (10, 294_912)];
    let scene = Scene::of([4, 4], CALM, &pool.map(|(c, mass)| (c, resting(mass))));
    let grid = scene.grid();
    assert_eq!(normal(&grid, &scene.state, 5), [49_152, 16_384]);
    let next = next_state(&grid, &scene.state, 1024, [0; 2]).unwrap();
    assert_eq!((next.cells[5].flag, next.cells[5].mass, next.carry), (FLUID, ONE, 0));
    let gifts: Vec<i128> = pool[1..].iter().map(|&(c, mass)| next.cells[c].mass - mass).collect();
    assert_eq!(gifts, [600, 200, 800]);
}

/// P1's and P6's row of three, in the flume.
#[test]
fn parts_are_rebuilt_along_the_normal() {
    let (grid, old) =
        row([interface_at(600_000, 500_000), interface_at(ONE, 300_000), interface_at(580_000, 100_000)]);
    assert_eq!(old.cells[6..9].iter().map(|cell| cell.fill).collect::<Vec<_>>(), [54_613, 33_333, 11_299]);
    let normals: Vec<_> = (6..9).map(|c| normal(&grid, &old, c)).collect();
    assert_eq!(normals, [[21_280, 0], [43_314, 0], [22_034, 0]]);
    // Each leans along x: part 2 is rebuilt where a liquid cell lies ahead, and comes from the wall at the end.
    let own = |c: usize| old.cells[c].parts;
    for c in [6, 7] {
        let streamed = streamed(&grid, &old, c);
        assert_eq!(streamed[2], 131_072 - own(c)[1]);
        assert_eq!(streamed[1], if c == 6 { own(6)[2] } else { own(6)[1] });
        assert_eq!(streamed[3..], own(c)[3..]);
    }
    assert_eq!(streamed(&grid, &old, 8)[..3], [own(8)[0], own(7)[1], own(8)[1]]);

    let next = next_state(&grid, &old, 1024, [0; 2]).unwrap();
    let told = |c: usize| (next.cells[c].mass, next.cells[c].fill, &next.cells[c].parts[..3]);
    assert_eq!(told(6), (499_242, 54_736, &[265_656, 67_171, 65_665][..]));
    assert_eq!(told(7), (300_387, 33_312, &[262_645, 66_039, 65_286][..]));
    assert_eq!(next.cells[8].mass, 100_371);

    // Without a slope nothing is rebuilt, and of two interface cells only the fuller one rebuilds.
    let (grid, level) = row([resting(300_000); 3]);
    assert_eq!(streamed(&grid, &level, 7), level.cells[7].parts);
    let (grid, two) = row([interface_at(600_000, 400_000), interface_at(ONE, 400_000), Cell::blank(WALL)]);
    assert_eq!((two.cells[6].fill, two.cells[7].fill), (43_690, 44_444));
    assert_eq!(streamed(&grid, &two, 6)[2], two.cells[7].parts[2]);
    assert_eq!(streamed(&grid, &two, 7)[1], 131_072 - two.cells[7].parts[2]);
}

#[test]
fn fluid_cells_never_rebuild_but_fluid_neighbours_count() {
    // Cell 7 is interface, fluid beyond it at 8, empty behind it at 6; it leans towards the empty one.
    let fluid = Cell { flag: FLUID, ..interface_at(600_000, 600_000) };
    let (grid, old) = row([Cell::blank(EMPTY), resting(300_000), fluid]);
    assert_eq!(normal(&grid, &old, 7), [-65_536, 0]);
    assert_eq!(streamed(&grid, &old, 7)[1..3], [131_072 - 65_536, fluid.parts[2]]);
    assert_eq!(streamed(&grid, &old, 8)[1], 65_536);
    // Cell 9 is fluid, in direction 8 of cell 6, which leans there: what it sends does not arrive.
    let mut fluid = Cell { flag: FLUID, ..resting(ONE) };
    fluid.parts[7] += 100;
    fluid.parts[0] -= 100;
    let pool = [(5, resting(100_000)), (6, resting(589_000)), (9, fluid), (10, resting(10_000))];
    let scene = Scene::of([4, 4], CALM, &pool);
    let (grid, old) = (scene.grid(), scene.state);
    assert_eq!(normal(&grid, &old, 6), [-54_333, 64_333]);
    assert_eq!(streamed(&grid, &old, 6)[7], 16_384);
    // Cell 10 leans down, to cell 6: from cell 9, in direction 2, all arrives.
    assert_eq!(normal(&grid, &old, 10), [64_425, 64_333]);
}

#[test]
fn stages_keep_the_slips_out() {
    // The full difference goes to and from fluid; cut, not floor, between interface cells.
    let mut fluid = Cell { flag: FLUID, fill: 65_536, ..resting(ONE) };
    fluid.parts[1] += 1000;
    fluid.parts[0] -= 1000;
    let (grid, old) = row([fluid, resting(294_912), Cell::blank(WALL)]);
    assert_eq!(traded(&grid, &old, 7), 295_912);

    // Emptying waits beside a filled cell; the excess goes to the only target.
    let (grid, old) = row([resting(700_000), resting(-1000), Cell::blank(EMPTY)]);
    let next = next_state(&grid, &old, 1024, [0; 2]).unwrap();
    assert_eq!(next.cells[6..9].iter().map(|cell| cell.flag).collect::<Vec<_>>(), [FLUID, INTERFACE, EMPTY]);
    assert_eq!(next.total(), old.total());

    // A lone excess joins the carry.
    for (mass, flag, excess) in [(700_000, FLUID, 110_176), (-1000, EMPTY, -1000)] {
        let scene = Scene::of([3, 3], CALM, &[(4, resting(mass))]);
        let next = next_state(&scene.grid(), &scene.state, 1024, [0; 2]).unwrap();
        assert_eq!((next.cells[4].flag, next.carry), (flag, excess));
    }

    // A new cell is the mean of cells that were liquid before, also of one that fills as well.
    for far in [300_000, 700_000] {
        let mut last = resting(far);
        last.parts[0] += 11;
        let (grid, old) = row([resting(700_000), Cell::blank(EMPTY), last]);
        let next = next_state(&grid, &old, 1024, [0; 2]).unwrap();
        assert_eq!(next.cells[7].parts, Flow { rho: ONE + 5, j: [0; 2] }.equilibrium());
    }

    // Gravity is cut: 589,824·3 is 1.69 times 1,048,576.
    assert_eq!(pushed(&resting(0).parts, [3, -3]).j, [1, -1]);
}

#[test]
fn run_counts_accepted_steps() {
    let scene = case_f();
    let (mut first, mut second, mut marks) = (store(&scene.state), blank(9), [3; 9]);
    let mut ran = |steps, p, first: &mut Store| {
        let ran = run([3, 3], p, [0, -1024], steps, first.lend_mut(), second.lend_mut(), &mut marks);
        (ran.count, ran.refusal, second == *first && marks == [0; 9])
    };
    assert_eq!(ran(0, 1024, &mut first), (0, None, true));
    assert_eq!(first, store(&scene.state));
    assert_eq!(ran(1000, 1024, &mut first), (1000, None, true));
    let reached = first.clone();
    assert_eq!(ran(1001, 0, &mut first), (0, Some(refusal(9, 0)), true));
    assert_eq!(ran(1000, 0, &mut first), (0, Some(refusal(3, 0)), true));
    assert_eq!(first, reached);
}

#[test]
fn wrong_lengths_are_refused_and_nothing_is_written() {
    let good = store(&case_f().state);
    type Change = fn(&mut Store);
    let changes: [Change; 7] = [
        |s| s.flags.truncate(8),
        |s| s.parts.push(0),
        |s| s.masses.clear(),
        |s| s.fills.push(0),
        |s| s.carry.clear(),
        |s| s.carry.extend([0, 0]),
        |s| s.parts.resize(19 * 9, 0),
    ];
    for change in changes {
        let mut wrong = good.clone();
        change(&mut wrong);
        assert_eq!(check([3, 3], wrong.lend()), Err(refusal(2, 0)));
        let (mut lent, mut second, mut marks) = (good.clone(), wrong.clone(), [9; 9]);
        // Lengths come before the settings, and those of the second set among them.
        let answer = step([3, 3], 0, [0; 2], wrong.lend(), lent.lend_mut(), &mut marks);
        assert_eq!(answer, Err(refusal(2, 0)));
        let answer = step([3, 3], 0, [0; 2], good.lend(), second.lend_mut(), &mut marks);
        assert_eq!(answer, Err(refusal(2, 0)));
        let made = run([3, 3], 0, [0; 2], 5, lent.lend_mut(), second.lend_mut(), &mut marks);
        assert_eq!((made.count, made.refusal), (0, Some(refusal(2, 0))));
        assert_eq!((lent, second, marks), (good.clone(), wrong.clone(), [9; 9]));
        let mut room = [1; 300];
        let answer = write([3, 3], &CALM, [0; 2], wrong.lend(), &mut room);
        assert_eq!((answer, room), (Err(refusal(2, 0)), [1; 300]));
        let bytes = case_f().record();
        if wrong.flags.len() == 9 {
            let set = wrong.lend_mut();
            let answer = read(&bytes[..12], set.parts, set.masses, set.fills, set.carry);
            assert_eq!(answer, Err(refusal(2, 0)));
        }
    }
    for length in [0, 8, 10] {
        let answer = step([3, 3], 1, [0; 2], good.lend(), blank(9).lend_mut(), &mut vec![9; length]);
        assert_eq!(answer, Err(refusal(2, 0)));
    }
}

#[test]
fn tests_come_in_their_order() {
    let mut set = store(&case_f().state);
    let tried =
        |sides, p, set: &Store| step(sides, p, [0; 2], set.lend(), blank(9).lend_mut(), &mut [0; 9]).err();
    (set.flags[0], set.masses[0]) = (9, 5);
    assert_eq!(tried([3, 2], 0, &set), Some(refusal(1, 0)));
    assert_eq!(tried([3, 4], 0, &set), Some(refusal(2, 0)));
    assert_eq!(tried([3, 3], 0, &set), Some(refusal(3, 0)));
    assert_eq!(tried([3, 3], 1, &set), Some(refusal(4, 0)));
    set.flags[0] = 3;
    assert_eq!(tried([3, 3], 1, &set), Some(refusal(6, 0)));

    // Fluid beside empty, at a corner, comes before a broken rule at a lower cell; cells that touch in no direction are not beside.
    let mut open = Store { flags: vec![WALL; 20], ..blank(20) };
    (open.flags[6], open.flags[12], open.masses[1], open.carry[0]) = (EMPTY, FLUID, 7, i64::MAX);
    assert_eq!(check([5, 4], open.lend()), Err(refusal(5, 12)));
    (open.flags[12], open.flags[13]) = (WALL, FLUID);
    assert_eq!(check([5, 4], open.lend()), Err(refusal(6, 1)));
    let whole = store(&case_f().state);
    let carried = |carry| check([3, 3], Store { carry: vec![carry], ..whole.clone() }.lend()).err();
    assert_eq!((carried(1_000_000_000_000), carried(1_000_000_000_001)), (None, Some(refusal(6, 9))));
}

#[test]
fn any_values_are_answered() {
    let random = &mut Random::new(17);
    for seed in 0..600 {
        let scene = good(seed);
        let n = scene.state.cells.len();
        let mut set = store(&scene.state);
        for _ in 0..random.between(1, 3) {
            let c = random.below(n);
            match random.below(5) {
                0 => set.flags[c] = random.bits() as u8,
                1 => set.parts[9 * c + random.below(9)] = random.bits() as i32,
                2 => set.masses[c] = random.bits() as i32,
                3 => set.fills[c] = random.bits() as u32,
                _ => set.carry[0] = random.bits() as i64,
            }
        }
        let kept = set.clone();
        let (mut second, mut marks) = (blank(n), vec![8; n]);
        if let Err(refusal) = check(scene.sides, set.lend()) {
            let stepped = step(scene.sides, 1024, [0, -500], set.lend(), second.lend_mut(), &mut marks);
            assert_eq!(stepped, Err(refusal));
            let made = run(scene.sides, 1024, [0; 2], 3, set.lend_mut(), second.lend_mut(), &mut marks);
            assert_eq!((made.count, made.refusal), (0, Some(refusal)));
            let mut room = vec![4; 76 + 41 * n];
            assert_eq!(write(scene.sides, &CALM, [0; 2], set.lend(), &mut room), Err(refusal));
            assert!(room.iter().all(|&byte| byte == 4));
            assert_eq!((set, second, marks), (kept, blank(n), vec![8; n]));
        }
    }
}

/// What the turbulent mode hardly leaves: a part far off its equilibrium is no longer thrown past it.
const DAMPED: [&str; 2] = ["refusal 8, moving part", "refusal 8, rest part"];

fn hunted(modes: Modes, besides: &[&str]) {
    let (tally, met) = hunt(1000, 12, modes).unwrap();
    let rare = |event: &str| modes == Modes::Turbulent && DAMPED.contains(&event);
    for event in EVENTS.iter().chain(besides).filter(|event| !rare(event)) {
        assert!(tally.count(event) > 0, "never met: {event}");
    }
    for event in tally.met.keys() {
        assert!(EVENTS.contains(event) || TURBULENT_EVENTS.contains(event), "not listed: {event}");
    }
    assert_eq!(met.lines().count(), oracle::flume::bounds::BOUNDS.len());
}

#[test]
fn hunt_finds_nothing_and_is_not_vacuous() {
    hunted(Modes::Plain, &[]);
}

#[test]
fn hunt_finds_nothing_in_the_turbulent_mode() {
    hunted(Modes::Turbulent, TURBULENT_EVENTS);
}

#[test]
fn hunt_finds_nothing_in_modes_that_change() {
    hunted(Modes::Either, TURBULENT_EVENTS);
}

const WEIR: &str = include_str!("../../examples/weir.txt");

#[test]
fn the_weir_is_good_and_drawn_as_it_stands() {
    let scene = drawn(WEIR).unwrap();
    assert_eq!(scene.sides, [400, 40]);
    assert_eq!(check(scene.sides, store(&scene.state).lend()), Ok(()));
    let (_, letters) = WEIR.split_once("section\n").unwrap();
    assert_eq!(section(&scene.grid(), &scene.state.flags()), letters);
    for wrong in ["###\n#?#\n###\n", "###\n#~#\n", "###\n#~\n###\n", ""] {
        assert!(drawn(&format!("section\n{wrong}")).is_err(), "{wrong}");
    }
    for wrong in ["across 3\n", "gravity 1 2 3\n", "p\n"] {
        assert!(drawn(&format!("{wrong}section\n###\n#~#\n###\n")).is_err(), "{wrong}");
    }
    assert!(drawn("p 1500\ngravity 0 -5\nsection\n###\n#~#\n###\n").is_ok());
}

/// P13's figure: a section of 5×4 cells with one surface cell, 6, whose parts all differ.
fn glass() -> Scene {
    let mut cell = resting(100_000);
    for (k, part) in cell.parts.iter_mut().enumerate() {
        *part += k as i128;
    }
    let mut scene = Scene::of([5, 4], CALM, &[(6, cell.filled())]);
    scene.state.carry = 7;
    for c in [7, 8, 11, 12, 13] {
        scene.state.cells[c] = Cell::blank(EMPTY);
    }
    scene
}

#[test]
fn mirrored_in_x_and_in_z() {
    let scene = glass();
    let first = store(&scene.state);
    assert_eq!((first.fills[6], Flow::of(&scene.state.cells[6].parts).rho), (11_110, 589_860));
    for (axis, cell, parts) in [
        (0, 8, [65_538, 65_537, 65_539, 65_540, 16_392, 16_391, 16_390, 16_389]),
        (2, 11, [65_537, 65_538, 65_540, 65_539, 16_391, 16_392, 16_389, 16_390]),
    ] {
        let (mut second, mut back) = (blank(20), blank(20));
        assert_eq!(mirror([5, 4], first.lend(), second.lend_mut(), axis), Ok(()));
        assert_eq!(second.parts[9 * cell + 1..][..8], parts);
        assert_eq!(
            (second.flags[cell], second.masses[cell], second.fills[cell]),
            (INTERFACE, 100_000, 11_110)
        );
        assert_eq!((second.carry[0], check([5, 4], second.lend())), (7, Ok(())));
        assert_eq!(mirror([5, 4], second.lend(), back.lend_mut(), axis), Ok(()));
        assert_eq!(back, first);
    }
    // What is refused, and that it writes nothing.
    let tried = |first: &Store, flags: usize, axis: u64| {
        let mut second = blank(20);
        second.flags.truncate(flags);
        let before = second.clone();
        let answer = mirror([5, 4], first.lend(), second.lend_mut(), axis);
        assert!(answer.is_ok() || second == before);
        answer
    };
    let broken = Store { carry: vec![1_000_000_000_001], ..first.clone() };
    for axis in [1, 3, 1 << 32, u64::MAX] {
        assert_eq!(tried(&first, 20, axis), Err(refusal(3, 0)));
        assert_eq!(tried(&broken, 20, axis), Err(refusal(3, 0)));
        assert_eq!(tried(&first, 19, axis), Err(refusal(2, 0)));
    }
    assert_eq!(tried(&broken, 20, 2), Err(refusal(6, 20)));
}

#[test]
fn mirrored_steps_of_calm_water_are_mirrored() {
    let mut calm = 0;
    for seed in 0..400 {
        let scene = good(seed);
        let (grid, Settings { p, gravity: [gx, gz], .. }) = (scene.grid(), scene.settings);
        for (axis, turned) in [(Axis::X, [-gx, gz]), (Axis::Z, [gx, -gz])] {
            let old = axis.turned_state(&grid, &scene.state);
            assert_eq!(axis.turned_state(&grid, &old), scene.state);
            let Ok(draft) = draft(&grid, &scene.state, p, [gx, gz]) else { continue };
            let Ok(next) = next_state(&grid, &scene.state, p, [gx, gz]) else { continue };
            if draft.fates.iter().all(|&fate| fate == oracle::step::Fate::Stays) {
                calm += 1;
                let beside = next_state(&grid, &old, p, turned);
                assert_eq!(beside.as_ref(), Ok(&axis.turned_state(&grid, &next)), "seed {seed}");
            }
        }
    }
    assert!(calm > 100, "{calm}");
}
