// The flume's plain steps are the oracle's, bit for bit, refused or not; its f32 step is the same method. A failure names its seed.

use bench::engine::{Answer, ACCEPTED};
use bench::float::FloatStore;
use bench::flume::engine::{Engine, LOOKING, PLAIN};
use bench::flume::identical::{same_run, same_step, Case, ORACLE};
use bench::flume::{float, scenes, Settings};
use oracle::flume;
use oracle::flume::scenes::good;
use oracle::flume::sets::store;
use oracle::random::Random;

/// A step and a run of the engine and of the oracle: answers and every buffer. What the step answered and left.
fn same(engine: Engine, case: &Case, steps: usize, named: &str) -> (Answer, Case) {
    let ran = same_run(engine, ORACLE, case, steps);
    ran.and_then(|_| same_step(engine, ORACLE, case)).unwrap_or_else(|error| panic!("{named}: {error}"))
}

/// Changes a few numbers of a case, anywhere and by little or much.
fn damage(random: &mut Random, case: &mut Case) {
    let n = case.first.flags.len();
    while {
        let c = random.below(n);
        let past = [1, -1, 2, i32::MAX / 40, i32::MIN / 40];
        match random.below(13) {
            0 => case.sides[random.below(2)] = random.pick(&[0, 2, 513, 5, 1 << 20]),
            1 => case.settings.p = random.pick(&[0, 2038, -1, 1]),
            2 => case.settings.gravity = random.pick(&[[35, -1048], [1049, 0], [0, -2_000_000_000]]),
            3 => case.first.flags[c] = random.below(5) as u8,
            4 => {
                // Fluid beside empty, or an interface cell whose mass is not its density.
                let liquid: Vec<usize> = (0..n).filter(|&c| matches!(case.first.flags[c], 1 | 2)).collect();
                if !liquid.is_empty() {
                    case.first.flags[random.pick(&liquid)] = random.pick(&[0, 2]);
                }
            }
            5 | 6 => {
                let part = &mut case.first.parts[9 * c + random.below(9)];
                *part = part.wrapping_add(random.pick(&past));
            }
            7 => case.first.parts[9 * c + random.below(9)] = random.bits() as i32,
            8 => case.first.masses[c] = case.first.masses[c].wrapping_add(random.pick(&past)),
            9 => case.first.fills[c] ^= 1 << random.below(32),
            10 => case.first.carry[0] = random.pick(&[1_000_000_000_001, -1_000_000_000_001, i64::MIN]),
            11 => drop(case.second.parts.pop()),
            _ => case.marks.push(0),
        }
        random.percent(40)
    } {}
}

/// How many steps were accepted, and refused with 1 to 8.
fn hunted(engine: Engine) -> [usize; 9] {
    let mut met = [0; 9];
    for seed in 0..2500 {
        let scene = good(seed);
        let settings = Settings {
            p: scene.settings.p.into(),
            gravity: scene.settings.gravity.map(i64::from),
            turbulent: false,
        };
        let sides = scene.sides.map(|side| side as usize);
        let start = Case::of(sides, settings, &store(&scene.state));
        let mut case = start.clone();
        for step in 0..6 {
            let (answer, after) =
                same(engine, &case, seed as usize % 4, &format!("seed {seed}, step {step}"));
            met[answer.number as usize] += 1;
            if answer != ACCEPTED {
                break;
            }
            case = Case::of(sides, settings, &after.second);
        }
        let mut case = start;
        damage(&mut Random::new(!seed), &mut case);
        let steps = if seed % 7 == 0 { 1001 } else { 2 };
        let (answer, _) = same(engine, &case, steps, &format!("seed {seed}, damaged"));
        met[answer.number as usize] += 1;
    }
    met
}

#[test]
fn plain_is_the_oracle_on_random_states() {
    for engine in [PLAIN, LOOKING] {
        let met = hunted(engine);
        println!("{}: accepted, and refused with 1 to 8: {met:?}", engine.name);
        assert!(met.iter().all(|&times| times >= 20), "{}: {met:?}", engine.name);
    }
}

/// Far enough for the dam to fall, for cells to fill and to empty.
#[test]
fn plain_is_the_oracle_on_the_scenes() {
    for scene in scenes::all([48, 24]).into_iter().chain(scenes::all([24, 48])) {
        let checked = flume::check(scene.sides.map(|side| side as u32), scene.store.lend());
        assert_eq!(checked, Ok(()), "{}", scene.name);
        for engine in [PLAIN, LOOKING] {
            let mut case = Case::of_scene(&scene);
            for step in 0..200 {
                let (answer, after) = same(engine, &case, 0, &format!("{}, step {step}", scene.name));
                assert_eq!(answer, ACCEPTED, "{}, step {step}", scene.name);
                case = Case::of(scene.sides, scene.settings, &after.second);
            }
            same(engine, &Case::of_scene(&scene), 200, scene.name);
        }
    }
}

#[test]
fn every_scene_is_good() {
    for scene in scenes::all([256, 64]).into_iter().chain(scenes::all([512, 512])) {
        let checked = flume::check(scene.sides.map(|side| side as u32), scene.store.lend());
        assert_eq!(checked, Ok(()), "{}", scene.name);
    }
}

/// One step from the same state, all along a run that converts cells: eight cut quotients part the two, no more. But where two fills are all but
/// equal, the sign of their difference is rounding's, and a part is rebuilt in the one and not in the other: few numbers may be further apart.
#[test]
fn float_makes_the_same_step() {
    let rounding = 12.0 / 589_824.0;
    for scene in scenes::all([48, 24]) {
        let mut case = Case::of_scene(&scene);
        let mut marks = vec![0; case.marks.len()];
        let (mut steps, mut apart) = (0, 0);
        for step in 1..=150 {
            let first = FloatStore::of(&case.first);
            let mut second = first.clone();
            let answer = float::step(&scene.grid(), scene.settings, &first, &mut second, &mut marks);
            assert_eq!((answer, case.step(PLAIN)), (ACCEPTED, ACCEPTED), "{}, step {step}", scene.name);
            let whole = FloatStore::of(&case.second);
            assert!(second.flags == whole.flags, "{}, step {step}: flags", scene.name);
            let off =
                |a: &[f32], b: &[f32]| a.iter().zip(b).filter(|(a, b)| (**a - **b).abs() > rounding).count();
            apart += off(&second.masses, &whole.masses) + off(&second.parts, &whole.parts);
            steps += 1;
            std::mem::swap(&mut case.first, &mut case.second);
        }
        println!("{}: {apart} numbers apart in {steps} steps", scene.name);
        assert!(apart < 9 * steps, "{}: {apart} numbers apart in {steps} steps", scene.name);
    }
}
