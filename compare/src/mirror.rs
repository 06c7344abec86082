// The mirror on raw slices by seed, good and damaged: after each call the answer and every lent slice, refused or not, are compared with the independent
// program's. Then mirrored grids stepped by the library beside the grids that they mirror.

use oracle::mirror::{turned_state, AXES};
use oracle::random::Random;
use oracle::scenes::good;
use oracle::state::State;
use oracle::step::{draft, Fate};
use oracle::{HeldMut, HeldStore, Relaxation, Settings, Store};

use crate::library::cases::Case;
use crate::library::{calls, in_mode};
use crate::raw;
use crate::report::{Met, Outcome, Total, Wanted, Wish};

/// Cases by seed.
const SEEDS: u64 = 60_000;

/// Grids by seed, each stepped beside its reflection.
const PAIRS: u64 = 12_000;
const STEPS: usize = 8;

/// All that can be answered, accepted by axis.
const ANSWERS: &Wanted = &[("mirror", &["x", "y", "z", "1", "2", "3", "4", "5", "6"])];

const NAMES: [&str; AXES] = ["x", "y", "z"];

/// Number and place of the library's answer; each pointer comes from a slice of the length beside it or from a number of this frame.
fn given(case: &mut Case, axis: usize) -> [u64; 2] {
    let [nx, ny, nz] = case.sides;
    let (first, second, index) = (&case.first, &mut case.second, &mut case.second_index);
    // It holds something else before.
    let mut place = 77;
    let number = unsafe {
        raw::skw_mirror(
            first.flags.as_ptr(),
            first.flags.len(),
            first.parts.as_ptr(),
            first.parts.len(),
            first.masses.as_ptr(),
            first.masses.len(),
            first.fills.as_ptr(),
            first.fills.len(),
            first.carry.as_ptr(),
            first.carry.len(),
            second.flags.as_mut_ptr(),
            second.flags.len(),
            second.parts.as_mut_ptr(),
            second.parts.len(),
            second.masses.as_mut_ptr(),
            second.masses.len(),
            second.fills.as_mut_ptr(),
            second.fills.len(),
            second.carry.as_mut_ptr(),
            second.carry.len(),
            index.words.as_mut_ptr(),
            index.words.len(),
            index.count.as_mut_ptr(),
            index.count.len(),
            nx,
            ny,
            nz,
            axis,
            &mut place,
        )
    };
    [number.into(), place as u64]
}

/// The independent program's.
fn wanted(case: &mut Case, axis: usize) -> [u64; 2] {
    // The widest number of the record's type stands for one beyond it: both are out of every range.
    let sides = case.sides.map(|side| u32::try_from(side).unwrap_or(u32::MAX));
    let second = HeldMut { set: case.second.lend_mut(), index: case.second_index.lend_mut() };
    oracle::mirror(sides, case.first.lend(), second, axis as u64)
        .map_or_else(|refusal| [refusal.number.into(), refusal.place], |()| [0, 0])
}

/// A case through both.
fn compared(case: &Case, axis: usize, name: &str) -> Outcome {
    let (mut given_case, mut wanted_case) = (case.clone(), case.clone());
    let (given, wanted) = (given(&mut given_case, axis), wanted(&mut wanted_case, axis));
    let differs = if given == wanted {
        wanted_case.apart(&given_case)
    } else {
        Some(format!("wanted {wanted:?}, given {given:?}"))
    };
    let met = match wanted[0] {
        0 => Met::new("mirror", NAMES[axis]),
        number => Met::new("mirror", number),
    };
    Outcome { met, differs: differs.map(|text| format!("mirror in {axis}, {name}: {text}")) }
}

/// The library's mirror of a grid, with its index.
fn mirrored(case: &Case, axis: usize) -> HeldStore {
    let mut case = case.clone();
    let answer = given(&mut case, axis);
    assert_eq!(answer, [0, 0], "a good state is mirrored");
    HeldStore { set: case.second, index: case.second_index }
}

/// A grid by seed and its reflection, stepped by the library side by side, in either mode. A step that converts no cell leaves the reflected set; one that does leaves
/// flags, parts and totals reflected, and the reflection is made anew.
fn side_by_side(seed: u64) -> Vec<Outcome> {
    let random = &mut Random::new(seed ^ 0x0a11_ce00);
    let axis = random.below(AXES);
    let scene = good(seed);
    let (grid, Settings { p, gravity, .. }) = (scene.grid(), scene.settings);
    let mut turned = scene.settings;
    turned.gravity[axis] = -gravity[axis];
    let sides = grid.sides;
    let mut case = Case::of_grid(sides, &scene.settings, HeldStore::of(Store::of(&scene.state)));
    let mut beside = Case::of_grid(sides, &turned, mirrored(&case, axis));
    let mut outcomes = Vec::new();
    for step in 0..STEPS {
        let turbulent = random.percent(50);
        (case.turbulent, beside.turbulent) = (turbulent, turbulent);
        let call = in_mode("step", turbulent);
        let name = format!("in {}, good seed {seed}, {call} {step}", NAMES[axis]);
        let old = State::of(case.first.lend());
        let converts = match draft(&grid, &old, Relaxation { p, turbulent }, gravity) {
            Ok(draft) => draft.fates.iter().any(|&fate| fate != Fate::Stays),
            Err(_) => false,
        };
        // Nothing is said of a refused step.
        if calls::step(&mut case).number != 0 {
            outcomes.push(Outcome { met: Met::new(call, "refused"), differs: None });
            break;
        }
        let reply = calls::step(&mut beside);
        let next = State::of(case.second.lend());
        let wanted = Store::of(&turned_state(&grid, axis, &next));
        let seen = &beside.second;
        let differs = if converts {
            // Masses differ by a remainder each, so that one of them may pass a limit.
            let alike = reply.number == 8
                || (&seen.flags, &seen.parts, &seen.carry) == (&wanted.flags, &wanted.parts, &wanted.carry);
            (!alike).then(|| format!("answer {reply}: flags, parts or totals are not reflected"))
        } else {
            (reply.number != 0 || *seen != wanted)
                .then(|| format!("answer {reply}: the set is not reflected"))
        };
        let met = if converts { "converting" } else { "calm" };
        outcomes.push(Outcome {
            met: Met::new(call, met),
            differs: differs.map(|text| format!("{name}: {text}")),
        });
        (case.first, case.first_index) = (case.second.clone(), case.second_index.clone());
        if converts {
            let made = mirrored(&case, axis);
            (beside.first, beside.first_index) = (made.set, made.index);
        } else {
            (beside.first, beside.first_index) = (beside.second.clone(), beside.second_index.clone());
        }
    }
    outcomes
}

pub fn compare(wish: &Wish, total: &mut Total) {
    let title = format!("the library's mirror on raw slices, {SEEDS} cases, seeds from {}", wish.from);
    total.compare(&title, wish, SEEDS as usize, ANSWERS, |number| {
        let seed = wish.from + number as u64;
        let random = &mut Random::new(seed ^ 0x3177_0000);
        let axis = match random.below(12) {
            0 => random.pick(&[3, 4, 255, 256, 1 << 32, 1 << 33, usize::MAX]),
            _ => random.below(AXES),
        };
        vec![compared(&Case::of(seed), axis, &format!("raw seed {seed}"))]
    });

    let title = format!(
        "grids and their reflections stepped side by side, {PAIRS} of them, up to {STEPS} steps of both modes, seeds from {}",
        wish.from
    );
    let answers: &[&str] = &["calm", "converting", "refused"];
    let wanted: &Wanted = &[("step", answers), ("turbulent step", answers)];
    total.compare(&title, wish, PAIRS as usize, wanted, |number| side_by_side(wish.from + number as u64));
}
