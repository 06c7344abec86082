// The flume's mirror on raw slices by seed, good and damaged, then mirrored flumes stepped by the library beside the flumes that they mirror, and mirrored
// there and back through their records.

use oracle::flume::mirror::Axis;
use oracle::flume::scenes::good;
use oracle::flume::sets::store;
use oracle::flume::state::State;
use oracle::flume::step::draft;
use oracle::random::Random;
use oracle::step::Fate;
use oracle::{Relaxation, Store};

use super::cases::Case;
use super::{calls, reference};
use crate::library::in_mode;
use crate::report::{Met, Outcome, Total, Wanted, Wish};

/// Cases by seed.
const SEEDS: u64 = 60_000;

/// Flumes by seed, each stepped beside its reflection.
const PAIRS: u64 = 12_000;
const STEPS: usize = 8;

/// All that can be answered, accepted by axis.
const ANSWERS: &Wanted = &[("mirror", &["x", "z", "1", "2", "3", "4", "5", "6"])];

/// By the library's number; a flume has no y.
const NAMES: [&str; 3] = ["x", "", "z"];

/// A case through both.
fn compared(case: &Case, axis: usize, name: &str) -> Outcome {
    let (mut given_case, mut wanted_case) = (case.clone(), case.clone());
    let (given, wanted) = (calls::mirror(&mut given_case, axis), reference::mirror(&mut wanted_case, axis));
    let differs = if given == wanted {
        wanted_case.apart(&given_case)
    } else {
        Some(format!("wanted {wanted}, given {given}"))
    };
    let met = match wanted.number {
        0 => Met::new("mirror", NAMES[axis]),
        number => Met::new("mirror", number),
    };
    Outcome { met, differs: differs.map(|text| format!("flume mirror in {axis}, {name}: {text}")) }
}

/// The library's mirror of a flume.
fn mirrored(case: &Case, axis: usize) -> Store {
    let mut case = case.clone();
    assert_eq!(calls::mirror(&mut case, axis).number, 0, "a good state is mirrored");
    case.second
}

/// The record that the library writes of a case's first set, with room for any.
fn written(case: &Case) -> Vec<u8> {
    let mut case = Case { room: vec![0x5a; 76 + 41 * case.first.flags.len()], ..case.clone() };
    let reply = calls::write(&mut case);
    assert_eq!(reply.number, 0, "a good state is written");
    case.room[..reply.values[0] as usize].to_vec()
}

/// A flume by seed and its reflection, stepped by the library side by side, in either mode. A step that converts no cell leaves the reflected set; one that does leaves
/// flags, parts and carry reflected, and the reflection is made anew.
fn side_by_side(seed: u64) -> Vec<Outcome> {
    let random = &mut Random::new(seed ^ 0x0a11_cef1);
    let number = random.pick(&[0, 2]);
    let axis = Axis::of(number as u64).expect("an axis of the flume");
    let scene = good(seed);
    let grid = scene.grid();
    let mut case = Case::lively(seed);
    let mut beside = Case { first: mirrored(&case, number), ..case.clone() };
    beside.gravity[number / 2] = -case.gravity[number / 2];

    // There and back, record for record.
    let back = Case { first: mirrored(&beside, number), ..case.clone() };
    let turned = store(&axis.turned_state(&grid, &scene.state));
    let same = beside.first == turned && written(&back) == written(&case);
    let differs = (!same).then(|| format!("in {}, good seed {seed}: not there and back", NAMES[number]));
    let mut outcomes = vec![Outcome { met: Met::new("back", NAMES[number]), differs }];

    for step in 0..STEPS {
        let turbulent = random.percent(50);
        (case.turbulent, beside.turbulent) = (turbulent, turbulent);
        let call = in_mode("step", turbulent);
        let name = format!("in {}, good seed {seed}, {call} {step}", NAMES[number]);
        let old = State::of(case.first.lend());
        let converts =
            match draft(&grid, &old, Relaxation { p: scene.settings.p, turbulent }, scene.settings.gravity) {
                Ok(draft) => draft.fates.iter().any(|&fate| fate != Fate::Stays),
                Err(_) => false,
            };
        // Nothing is said of a refused step.
        if calls::step(&mut case).number != 0 {
            outcomes.push(Outcome { met: Met::new(call, "refused"), differs: None });
            break;
        }
        let reply = calls::step(&mut beside);
        let next = State::of(case.second.lend());
        let wanted = store(&axis.turned_state(&grid, &next));
        let seen = &beside.second;
        let differs = if converts {
            // Masses differ by a remainder each, so that one of them may pass a limit.
            let alike = reply.number == 8
                || (&seen.flags, &seen.parts, &seen.carry) == (&wanted.flags, &wanted.parts, &wanted.carry);
            (!alike).then(|| format!("answer {reply}: flags, parts or carry are not reflected"))
        } else {
            (reply.number != 0 || *seen != wanted)
                .then(|| format!("answer {reply}: the set is not reflected"))
        };
        let met = if converts { "converting" } else { "calm" };
        outcomes.push(Outcome {
            met: Met::new(call, met),
            differs: differs.map(|text| format!("{name}: {text}")),
        });
        case.first = case.second.clone();
        beside.first = if converts { mirrored(&case, number) } else { beside.second.clone() };
    }
    outcomes
}

pub fn compare(wish: &Wish, total: &mut Total) {
    let title = format!("the flume's mirror on raw slices, {SEEDS} cases, seeds from {}", wish.from);
    total.compare(&title, wish, SEEDS as usize, ANSWERS, |number| {
        let seed = wish.from + number as u64;
        let random = &mut Random::new(seed ^ 0x3177_00f1);
        let axis = match random.below(8) {
            0 => random.pick(&[1, 1, 3, 4, 255, 256, 258, 1 << 32, (1 << 32) + 2, usize::MAX]),
            _ => random.pick(&[0, 2]),
        };
        vec![compared(&Case::of(seed), axis, &format!("raw seed {seed}"))]
    });

    let title = format!(
        "flumes and their reflections stepped side by side, {PAIRS} of them, up to {STEPS} steps of both modes, seeds from {}",
        wish.from
    );
    let answers: &[&str] = &["calm", "converting", "refused"];
    let wanted: &Wanted = &[("step", answers), ("turbulent step", answers), ("back", &["x", "z"])];
    total.compare(&title, wish, PAIRS as usize, wanted, |number| side_by_side(wish.from + number as u64));
}
