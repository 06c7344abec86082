// The f32 step is the same method, four cells at a time or cell by cell: rounding is all that parts it from the whole numbers.

use bench::engine::{Answer, ACCEPTED};
use bench::float::{FloatEngine, FloatStore, FOUR, MARGIN, SINGLE};
use bench::identical::Case;
use bench::plain::PLAIN;
use bench::scenes::{self, Scene};

/// The furthest that a number of the one store lies from the other's.
fn furthest(one: &FloatStore, other: &FloatStore) -> f32 {
    let apart = |a: &[f32], b: &[f32]| a.iter().zip(b).map(|(a, b)| (a - b).abs()).fold(0.0, f32::max);
    apart(&one.parts, &other.parts)
        .max(apart(&one.masses, &other.masses))
        .max(apart(&one.fills, &other.fills))
}

/// One step from the same state, all along a run that converts cells: eighteen cut quotients part the two, no more.
fn makes_the_same_step(float: FloatEngine, scene: &Scene) {
    let rounding = 20.0 / 589_824.0;
    let mut case = Case::of_scene(scene);
    let mut marks = vec![0; case.marks.len()];
    // A step finds the state of an earlier one in its second store.
    let mut second = FloatStore::laid(&scene.grid(), &case.first);
    for step in 1..=150 {
        let first = FloatStore::laid(&scene.grid(), &case.first);
        let answer = (float.step)(&scene.grid(), scene.settings, &first, &mut second, &mut marks);
        let which = format!("{}, {}, step {step}", float.name, scene.name);
        assert_eq!((answer, case.step(PLAIN)), (ACCEPTED, ACCEPTED), "{which}");
        let whole = FloatStore::laid(&scene.grid(), &case.second);
        assert!(second.flags == whole.flags, "{which}: flags");
        let apart = furthest(&second, &whole);
        assert!(apart < rounding, "{which}: {apart} apart");
        assert!(marks.iter().all(|&mark| mark == 0), "{which}: marks");
        std::mem::swap(&mut case.first, &mut case.second);
    }
}

#[test]
fn float_makes_the_same_step() {
    // The cells of a cube of 24 are parted in fours, those of one of 23 are not.
    for scene in [24, 23].into_iter().flat_map(scenes::all) {
        makes_the_same_step(SINGLE, &scene);
        makes_the_same_step(FOUR, &scene);
    }
}

/// What breaks a rule is refused with the same number and place, and nothing else changes.
#[test]
fn float_refuses_the_same() {
    for float in [SINGLE, FOUR] {
        for scene in scenes::all(12) {
            let grid = scene.grid();
            let start = FloatStore::laid(&grid, &scene.store);
            let mut marks = vec![0; start.flags.len()];
            for c in (0..grid.n).filter(|&c| start.flags[c] == 1 || start.flags[c] == 2) {
                // A part too large at every liquid cell, then one that hurries it: test 6 names the cell.
                for part in [2.5, f32::NAN, 0.9] {
                    let mut first = start.clone();
                    first.parts[MARGIN + 19 * c + 1] = part;
                    let mut second = start.clone();
                    let answer = (float.step)(&grid, scene.settings, &first, &mut second, &mut marks);
                    assert_eq!(answer, Answer::refused(6, c), "{}, {}, cell {c}", float.name, scene.name);
                    assert!(second.parts == start.parts, "{}, {}", float.name, scene.name);
                }
            }
        }
    }
}

/// Through hundreds of conversions the f32 total stays within rounding: no stage makes or loses water by itself.
#[test]
fn float_loses_by_rounding_alone() {
    for float in [SINGLE, FOUR] {
        for scene in scenes::all(24) {
            let mut first = FloatStore::laid(&scene.grid(), &scene.store);
            let mut second = first.clone();
            let mut marks = vec![0; first.flags.len()];
            let start = first.total();
            let ran = (float.run)(&scene.grid(), scene.settings, 600, &mut first, &mut second, &mut marks);
            assert_eq!((ran.count, ran.answer), (600, ACCEPTED), "{}", scene.name);
            assert!(
                (first.total() / start - 1.0).abs() < 0.000_1,
                "{}: {}",
                scene.name,
                first.total() / start
            );
        }
    }
}
