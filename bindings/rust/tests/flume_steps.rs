// The flume's step and run: the amendment's figures through `Flume`, what every refusal leaves over lent slices, and the independent program's steps and
// runs on its scenes.

use oracle::flume::scenes::{case_f, good, settings};
use oracle::flume::sets::{blank, store};
use oracle::random::Random;
use oracle::{flume as reference, Relaxation, Store};
use skwarzyna::flume::{lent, Point, Settings, Sides, Site, PARTS};
use skwarzyna::{Flume, Mode, Refusal, State, StateMut, Stopped, FLUID, ONE};

const SEEDS: u64 = 250;
const STEPS: usize = 10;
const SITE: Site = Site { edge: 50, origin: Point::new(0, 0) };
const FALLING: Settings = Settings { p: 1024, gx: 0, gz: -1024 };
const LEVEL: Settings = Settings { p: 1024, gx: 0, gz: 0 };
const THREE: Sides = Sides::new(3, 3);
const CENTRE: usize = 4;
const MODES: [Mode; 2] = [Mode::Plain, Mode::Turbulent];

fn refusal(number: u8, place: usize) -> Refusal {
    Refusal { number, place }
}

fn case() -> Flume {
    Flume::from_record(&case_f().record()).unwrap()
}

/// A cell at the equilibrium of a density at rest.
fn rest(flume: &mut Flume, cell: usize, density: i32, mass: i32) {
    flume.set_interface(cell, mass).unwrap();
    let state = flume.state_mut();
    let parts = &mut state.parts[PARTS * cell..][..PARTS];
    for (k, part) in parts.iter_mut().enumerate() {
        *part = if k < 5 { density / 9 } else { density / 36 };
    }
    parts[0] = density - parts[1..].iter().sum::<i32>();
    state.fills[cell] = (65_536 * i64::from(mass) / i64::from(density)).clamp(0, 65_536) as u32;
}

#[test]
fn case_f_falls_by_one_step_in_either_mode() {
    for mode in MODES {
        let mut flume = case();
        assert_eq!(flume.mode, Mode::Plain);
        flume.mode = mode;
        assert_eq!(flume.step(), Ok(()));
        assert_eq!(
            flume.state().parts[PARTS * CENTRE..][..PARTS],
            [262_141, 65_536, 65_536, 65_345, 65_728, 16_337, 16_432, 16_432, 16_337]
        );
        assert_eq!((flume.state().masses[CENTRE], flume.fills()[CENTRE]), (294_912, 32_768));
        let mut run = case();
        run.mode = mode;
        assert_eq!(run.run(1), Ok(()));
        assert_eq!(run, flume);
    }
}

#[test]
fn case_u_has_a_p_of_its_own_in_the_turbulent_mode() {
    let mut sheared = case();
    sheared.settings = Settings { p: 2037, gx: 0, gz: 0 };
    let parts = &mut sheared.state_mut().parts[PARTS * CENTRE..][..PARTS];
    parts[1..5].copy_from_slice(&[66_536, 66_536, 64_536, 64_536]);
    for (mode, along, up) in [(Mode::Plain, 64_547, 66_525), (Mode::Turbulent, 64_563, 66_509)] {
        let mut flume = sheared.clone();
        flume.mode = mode;
        assert_eq!(flume.step(), Ok(()));
        assert_eq!(flume.state().parts[PARTS * CENTRE + 1..][..4], [along, along, up, up]);
        assert_eq!(flume.total(), sheared.total());
        // A record does not tell the mode.
        let read = Flume::from_record(&flume.to_record().unwrap()).unwrap();
        assert_eq!((read.mode, read == flume), (Mode::Plain, mode == Mode::Plain));
        // Test 3 is of the plain p, whatever a cell's own would be.
        flume.settings.p = 2038;
        assert_eq!(flume.step(), Err(refusal(3, 0)));
    }
}

#[test]
fn a_filled_cell_gives_its_excess_along_the_normal() {
    let mut flume = Flume::new(Sides::new(4, 4), LEVEL, SITE).unwrap();
    for (cell, mass) in [(5, 591_424), (6, 147_456), (9, 442_368), (10, 294_912)] {
        flume.set_interface(cell, mass).unwrap();
    }
    let before = flume.total();
    flume.step().unwrap();
    assert_eq!(flume.flags()[5], FLUID);
    let masses = flume.state().masses;
    assert_eq!((masses[5], masses[6], masses[9], masses[10]), (589_824, 148_056, 442_568, 295_712));
    assert_eq!(flume.total(), before);
}

#[test]
fn a_row_rebuilds_along_its_normal() {
    let mut flume = Flume::new(Sides::new(5, 3), LEVEL, SITE).unwrap();
    for (cell, density, mass) in [(6, 600_000, 500_000), (7, 589_824, 300_000), (8, 580_000, 100_000)] {
        rest(&mut flume, cell, density, mass);
    }
    assert_eq!((flume.check(), &flume.fills()[6..9]), (Ok(()), &[54_613, 33_333, 11_299][..]));
    flume.step().unwrap();
    let state = flume.state();
    assert_eq!(state.masses[6..9], [499_242, 300_387, 100_371]);
    assert_eq!((&state.parts[54..57], state.fills[6]), (&[265_656, 67_171, 65_665][..], 54_736));
    assert_eq!((&state.parts[63..66], state.fills[7]), (&[262_645, 66_039, 65_286][..], 33_312));
}

#[test]
fn a_refused_step_or_run_leaves_the_state_before_it() {
    let mut flume = case();
    for (settings, number) in [
        (Settings { p: 0, ..FALLING }, Refusal::SETTING),
        (Settings { gx: 35, gz: -1048, ..FALLING }, Refusal::SETTING),
    ] {
        flume.settings = settings;
        assert_eq!(flume.step(), Err(refusal(number, 0)));
        assert_eq!(flume.run(3), Err(Stopped { count: 0, refusal: refusal(number, 0) }));
    }
    flume.settings = FALLING;
    assert_eq!(flume, case());
    assert_eq!(flume.run(1001), Err(Stopped { count: 0, refusal: refusal(Refusal::STEPS, 0) }));
    assert_eq!(flume.run(0), Ok(()));
    assert_eq!(flume, case());

    // Close to the limit of speed: p above 1024 adds more of gravity than stage 3 saw.
    let fast = Settings { p: 1500, gx: 1048, gz: 0 };
    let mut flume = Flume::new(THREE, fast, SITE).unwrap();
    flume.set_interface(CENTRE, ONE / 2).unwrap();
    let parts = reference::lattice::Flow { rho: 589_824, j: [-196_018, 0] }.equilibrium();
    flume.state_mut().parts[PARTS * CENTRE..][..PARTS].copy_from_slice(&parts.map(|part| part as i32));
    assert_eq!(flume.check(), Ok(()));
    let before = flume.clone();
    assert_eq!(flume.step(), Err(refusal(Refusal::NEXT, CENTRE)));
    assert_eq!(flume, before);
    assert_eq!(flume.run(5), Err(Stopped { count: 0, refusal: refusal(Refusal::NEXT, CENTRE) }));
    assert_eq!(flume, before);
}

/// Buffers to lend, all of them full of something.
fn soiled(lengths: [usize; 5]) -> Store {
    let [flags, parts, masses, fills, carry] = lengths;
    Store {
        flags: vec![7; flags],
        parts: vec![7; parts],
        masses: vec![7; masses],
        fills: vec![7; fills],
        carry: vec![7; carry],
    }
}

fn to_read(store: &Store) -> State<'_> {
    State {
        flags: &store.flags,
        parts: &store.parts,
        masses: &store.masses,
        fills: &store.fills,
        carry: &store.carry,
    }
}

fn to_write(store: &mut Store) -> StateMut<'_> {
    StateMut {
        flags: &mut store.flags,
        parts: &mut store.parts,
        masses: &mut store.masses,
        fills: &mut store.fills,
        carry: &mut store.carry,
    }
}

#[test]
fn lent_slices_have_exact_lengths_and_a_refusal_leaves_them() {
    let good = store(&case_f().state);
    let exact: [usize; 6] = [9, 81, 9, 9, 1, 9];
    for (slice, by) in (0..6).flat_map(|slice| [(slice, -1), (slice, 1)]) {
        let mut lengths = exact;
        lengths[slice] = lengths[slice].saturating_add_signed(by);
        let [flags, parts, masses, fills, carry, marks] = lengths;
        let wrong = soiled([flags, parts, masses, fills, carry]);
        let (mut second, mut marked) = (wrong.clone(), vec![7; marks]);
        let answer = lent::step(THREE, FALLING, to_read(&good), to_write(&mut second), &mut marked);
        assert_eq!(answer, Err(refusal(Refusal::LENGTH, 0)), "{slice} {by}");
        let (mut first, mut third) = (good.clone(), wrong.clone());
        let ran = lent::run(THREE, FALLING, 2, to_write(&mut first), to_write(&mut third), &mut marked);
        assert_eq!(ran, Err(Stopped { count: 0, refusal: refusal(Refusal::LENGTH, 0) }));
        assert!(second == wrong && third == wrong && first == good && marked.iter().all(|mark| *mark == 7));
        if slice < 5 {
            let (mut whole, mut marked) = (soiled([9, 81, 9, 9, 1]), vec![7; 9]);
            let answer = lent::step(THREE, FALLING, to_read(&wrong), to_write(&mut whole), &mut marked);
            assert_eq!(answer, Err(refusal(Refusal::LENGTH, 0)), "{slice} {by}");
            assert!(whole == soiled([9, 81, 9, 9, 1]));
        }
    }
    // Accepted, both sets of a run hold the state, and marks are 0.
    let (mut first, mut second, mut marks) = (good.clone(), soiled([9, 81, 9, 9, 1]), vec![7; 9]);
    lent::run(THREE, FALLING, 1, to_write(&mut first), to_write(&mut second), &mut marks).unwrap();
    let mut stepped = soiled([9, 81, 9, 9, 1]);
    lent::step(THREE, FALLING, to_read(&good), to_write(&mut stepped), &mut [7; 9]).unwrap();
    assert!(first == stepped && second == stepped && marks == [0; 9]);
}

fn flow(theirs: reference::Settings) -> Settings {
    let [gx, gz] = theirs.gravity.map(i64::from);
    Settings { p: theirs.p.into(), gx, gz }
}

fn relaxation(p: i32, mode: Mode) -> Relaxation {
    Relaxation { p, turbulent: mode == Mode::Turbulent }
}

fn ours(theirs: oracle::Refusal) -> Refusal {
    refusal(theirs.number as u8, theirs.place as usize)
}

#[test]
fn steps_are_the_independent_programs() {
    let (mut accepted, mut refused) = ([0, 0], [0, 0]);
    for seed in 0..SEEDS {
        let (scene, random) = (good(seed), &mut Random::new(seed));
        let mut flume = Flume::from_record(&scene.record()).unwrap();
        let (mut theirs, total) = (store(&scene.state), flume.total());
        for _ in 0..STEPS {
            let chosen = settings(random);
            (flume.settings, flume.mode) = (flow(chosen), random.pick(&MODES));
            let n = theirs.flags.len();
            let (mut next, mut marks) = (blank(n), vec![0; n]);
            let wanted = reference::step(
                scene.sides,
                relaxation(chosen.p, flume.mode),
                chosen.gravity,
                theirs.lend(),
                next.lend_mut(),
                &mut marks,
            );
            assert_eq!(flume.step(), wanted.map_err(ours), "seed {seed}");
            let counts = if wanted.is_ok() { &mut accepted } else { &mut refused };
            counts[flume.mode as usize] += 1;
            theirs = next;
            assert!(flume.state() == to_read(&theirs), "seed {seed}");
            assert_eq!(flume.total(), total);
        }
    }
    assert!([accepted, refused].iter().flatten().all(|&count| count > 150), "{accepted:?} {refused:?}");
}

#[test]
fn runs_are_the_independent_programs() {
    for (seed, mode) in (0..SEEDS).flat_map(|seed| MODES.map(|mode| (seed, mode))) {
        let scene = good(seed);
        let mut flume = Flume::from_record(&scene.record()).unwrap();
        flume.mode = mode;
        let (mut first, n) = (store(&scene.state), scene.state.cells.len());
        let (mut second, mut marks) = (blank(n), vec![0; n]);
        let wanted = reference::run(
            scene.sides,
            relaxation(scene.settings.p, mode),
            scene.settings.gravity,
            40,
            first.lend_mut(),
            second.lend_mut(),
            &mut marks,
        );
        let stopped =
            wanted.refusal.map(|refusal| Stopped { count: wanted.count as usize, refusal: ours(refusal) });
        assert_eq!(flume.run(40).err(), stopped, "seed {seed}, {mode:?}");
        assert!(flume.state() == to_read(&first), "seed {seed}");
        assert_eq!(flume.check(), Ok(()));
    }
}
