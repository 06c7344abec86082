// The mirror by the wrapper and by skw: there and back, gravity's sign, mirrored water beside water, beside the independent program, and what is said where it
// cannot be done.

use std::io::Write;
use std::process::{Command, Output, Stdio};

use oracle::mirror::turned_state;
use oracle::scenes::good;
use oracle::state::State as Wanted;
use oracle::{Relaxation, Store};
use skwarzyna::{lent, Axis, Grid, HeldMut, IndexMut, Mode, Refusal, Settings, Sides, StateMut, INTERFACE};

const CASE_T: &[u8] = include_bytes!("../../../crates/gridstep/stdin");
const AXES: [Axis; 3] = [Axis::X, Axis::Y, Axis::Z];

fn skw(words: &[&str], record: &[u8]) -> Output {
    let mut command = Command::new(env!("CARGO_BIN_EXE_skw"));
    let piped = command.args(words).stdin(Stdio::piped()).stdout(Stdio::piped()).stderr(Stdio::piped());
    let mut child = piped.spawn().unwrap();
    // It may end before it has read everything.
    let _ = child.stdin.take().unwrap().write_all(record);
    child.wait_with_output().unwrap()
}

fn text(bytes: &[u8]) -> &str {
    std::str::from_utf8(bytes).unwrap()
}

#[test]
fn there_and_back_beside_the_independent_program() {
    for seed in 0..300 {
        let scene = good(seed);
        let record = Grid::read(&scene.record()).unwrap();
        for (number, axis) in AXES.into_iter().enumerate() {
            let mut mirrored = record.grid.mirrored(axis).unwrap();
            let wanted = Store::of(&turned_state(&scene.grid(), number, &scene.state));
            let state = mirrored.state();
            assert_eq!((state.flags, state.parts), (&wanted.flags[..], &wanted.parts[..]));
            assert_eq!((state.masses, state.fills), (&wanted.masses[..], &wanted.fills[..]));
            assert_eq!(state.carry, &wanted.carry[..]);
            let surface = mirrored.counts().interface as u64;
            assert_eq!(mirrored.index().count, [surface]);
            assert_eq!(mirrored.water(), record.grid.water());
            assert_eq!(mirrored.mirrored(axis).unwrap(), record.grid);
        }
    }
}

#[test]
fn mirrored_water_beside_water() {
    let modes = [Mode::Plain, Mode::Turbulent];
    for (seed, mode) in (0..300).flat_map(|seed| modes.map(|mode| (seed, mode))) {
        let scene = good(seed);
        let record = Grid::read(&scene.record()).unwrap();
        let axis = AXES[seed as usize % 3];
        let mut beside = record.grid.mirrored(axis).unwrap();
        let mut grid = record.grid;
        let converted = oracle::step::draft(
            &scene.grid(),
            &Wanted::of(Store::of(&scene.state).lend()),
            Relaxation { p: scene.settings.p, turbulent: mode == Mode::Turbulent },
            scene.settings.gravity,
        )
        .map(|draft| draft.fates.iter().any(|&fate| fate != oracle::step::Fate::Stays));
        if grid.step(record.settings.in_mode(mode)).is_ok() && converted == Ok(false) {
            assert_eq!(beside.step(record.settings.mirrored(axis).in_mode(mode)), Ok(()));
            assert_eq!(beside, grid.mirrored(axis).unwrap());
        }
    }
}

#[test]
fn gravity_changes_one_sign() {
    let settings = Settings { p: 1600, gx: 3, gy: -20, gz: -1000 };
    assert_eq!(settings.mirrored(Axis::X), Settings { gx: -3, ..settings });
    assert_eq!(settings.mirrored(Axis::Y), Settings { gy: 20, ..settings });
    assert_eq!(settings.mirrored(Axis::Z), Settings { gz: 1000, ..settings });
    for axis in AXES {
        assert_eq!(settings.mirrored(axis).mirrored(axis), settings);
    }
    // No call accepts it, and nothing overflows.
    let widest = Settings { gx: i64::MIN, ..settings };
    assert_eq!(widest.mirrored(Axis::X).gx, i64::MAX);
}

#[test]
fn refusals_write_nothing() {
    let sides = Sides::new(3, 3, 3);
    let grid = Grid::read(CASE_T).unwrap().grid;
    let lend = |state, flags: usize, sides| {
        let (mut f, mut p, mut m) = (vec![9; flags], vec![9; 513], vec![9; 27]);
        let (mut l, mut c, mut w, mut n) = (vec![9; 27], vec![9; 3], vec![9; 1], vec![9; 1]);
        let second = HeldMut {
            state: StateMut { flags: &mut f, parts: &mut p, masses: &mut m, fills: &mut l, carry: &mut c },
            index: IndexMut { words: &mut w, count: &mut n },
        };
        let answer = lent::mirror(sides, state, second, Axis::Y);
        let same = f.iter().all(|&x| x == 9) && p.iter().chain(&m).all(|&x| x == 9);
        let same = same && l.iter().all(|&x| x == 9) && c.iter().all(|&x| x == 9) && (w[0], n[0]) == (9, 9);
        (answer, same)
    };
    assert_eq!(lend(grid.state(), 27, sides), (Ok(()), false));
    assert_eq!(lend(grid.state(), 26, sides), (Err(Refusal { number: 2, place: 0 }), true));
    assert_eq!(lend(grid.state(), 27, Sides::new(3, 3, 2)), (Err(Refusal { number: 1, place: 0 }), true));
    let mut broken = grid.clone();
    broken.state_mut().flags[0] = INTERFACE;
    assert_eq!(lend(broken.state(), 27, sides), (Err(Refusal { number: 4, place: 0 }), true));
    assert_eq!(broken.mirrored(Axis::X), Err(Refusal { number: 4, place: 0 }));
    let mut broken = grid.clone();
    broken.state_mut().carry[2] = -1;
    assert_eq!(lend(broken.state(), 27, sides), (Err(Refusal { number: 6, place: 27 }), true));
}

#[test]
fn skw_mirrors_a_record() {
    // Case T is its own reflection, but for gravity; its record is written with poured and taken.
    let told = skw(&["mirror", "z"], CASE_T);
    assert_eq!(told.status.code(), Some(0));
    assert_eq!(text(&told.stderr), "mirrored in z; gravity is 0, 0, 1,024; balance 294,912 units\n");
    let (before, after) = (Grid::read(CASE_T).unwrap(), Grid::read(&told.stdout).unwrap());
    assert_eq!((&after.grid, after.site), (&before.grid, before.site));
    assert_eq!(after.settings, Settings { gz: 1024, ..before.settings });
    for seed in 0..40 {
        let record = good(seed).record();
        let written = skw(&["write"], &record).stdout;
        for axis in ["x", "y", "z"] {
            let once = skw(&["mirror", axis, "-q"], &record);
            assert_eq!((once.status.code(), text(&once.stderr)), (Some(0), ""));
            assert_eq!(skw(&["check", "-q"], &once.stdout).status.code(), Some(0));
            assert_eq!(skw(&["mirror", axis, "-q", "-"], &once.stdout).stdout, written);
        }
    }
}

#[test]
fn skw_says_what_is_wrong() {
    for (words, why) in [
        (&["mirror"][..], "the axis is missing"),
        (&["mirror", "w"], "the axis is to be one of x, y, z, and 'w' is not"),
        (&["mirror", "0"], "the axis is to be one of x, y, z, and '0' is not"),
        (&["mirror", "X"], "the axis is to be one of x, y, z, and 'X' is not"),
        (&["mirror", "x", "-", "more"], "'more' is one word too many"),
        (&["mirror", "x", "--to", "y"], "there is no option --to"),
    ] {
        let told = skw(words, CASE_T);
        assert_eq!((told.status.code(), told.stdout.len()), (Some(2), 0), "{words:?}");
        let said = text(&told.stderr);
        assert!(said.starts_with(&format!("skw mirror: {why}\nusage: skw mirror x|y|z")), "{said}");
    }
    let told = skw(&["mirror", "x"], &CASE_T[..100]);
    assert_eq!((told.status.code(), told.stdout.len()), (Some(1), 0));
    let told = skw(&["mirror", "--help"], &[]);
    assert!(text(&told.stdout).contains("Gravity's component along the axis"));
}
