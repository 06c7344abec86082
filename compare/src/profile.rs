// The profile on lists by seed: over grids good and damaged, lists good and damaged. After each call the answer and both slices of lines, the depths as
// bits, refused or not, are compared with the independent program's.

mod lists;

use oracle::profile::{profile, Survey};

use crate::raw;
use crate::report::{Met, Outcome, Total, Wanted, Wish};
use lists::List;

/// Lists by seed.
const SEEDS: u64 = 20_000;

/// All that can be answered: a deepest point, among lines of all four kinds too, none, and every refusal.
const ANSWERS: &Wanted = &[("profile", &["deepest", ALL_KINDS, "none", "1", "2", "3", "4", "6", "22", "23"])];
const ALL_KINDS: &str = "deepest of all four kinds";

/// Number, place, whether a point is wet, and the deepest; then the lines.
#[derive(PartialEq)]
struct Told {
    answer: [usize; 4],
    kinds: Vec<u8>,
    depths: Vec<u32>,
}

fn bits(depths: &[f32]) -> Vec<u32> {
    depths.iter().map(|depth| depth.to_bits()).collect()
}

/// The library's: every number that it answers holds something else before.
fn given(list: &List) -> Told {
    let [nx, ny, nz] = list.sides;
    let [ox, oy, oz] = list.origin;
    let (mut kinds, mut depths) = (list.kinds.clone(), list.depths.clone());
    let (mut wet, mut deepest, mut place) = (77, 77, 77);
    // Each pointer comes from a slice of the length beside it or from a number of this frame.
    let number = unsafe {
        raw::skw_profile(
            nx,
            ny,
            nz,
            list.edge,
            ox,
            oy,
            oz,
            list.flags.as_ptr(),
            list.flags.len(),
            list.fills.as_ptr(),
            list.fills.len(),
            list.chainages.as_ptr(),
            list.chainages.len(),
            list.points.as_ptr(),
            list.points.len(),
            kinds.as_mut_ptr(),
            kinds.len(),
            depths.as_mut_ptr(),
            depths.len(),
            &mut wet,
            &mut deepest,
            &mut place,
        )
    };
    Told { answer: [number.into(), place, wet.into(), deepest], kinds, depths: bits(&depths) }
}

/// The independent program's.
fn wanted(list: &List) -> Told {
    let (mut kinds, mut depths) = (list.kinds.clone(), list.depths.clone());
    // The widest number of the record's type stands for one beyond it: both are out of every range.
    let survey = Survey {
        sides: list.sides.map(|side| u32::try_from(side).unwrap_or(u32::MAX)),
        edge: list.edge.clamp(i32::MIN.into(), i32::MAX.into()) as i32,
        origin: list.origin,
        flags: &list.flags,
        fills: &list.fills,
    };
    let answer = match profile(&survey, &list.chainages, &list.points, &mut kinds, &mut depths) {
        Ok(Some(deepest)) => [0, 0, 1, deepest],
        Ok(None) => [0; 4],
        Err(refusal) => [refusal.number as usize, refusal.place as usize, 0, 0],
    };
    Told { answer, kinds, depths: bits(&depths) }
}

fn met(told: &Told) -> Met {
    match told.answer {
        [0, _, 1, _] if (1..=4).all(|kind| told.kinds.contains(&kind)) => Met::new("profile", ALL_KINDS),
        [0, _, 1, _] => Met::new("profile", "deepest"),
        [0, ..] => Met::new("profile", "none"),
        [number, ..] => Met::new("profile", number),
    }
}

/// Where the library's differs.
fn apart(wanted: &Told, given: &Told) -> Option<String> {
    if wanted.answer != given.answer {
        return Some(format!("wanted {:?}, given {:?}", wanted.answer, given.answer));
    }
    let point = (0..wanted.kinds.len().max(wanted.depths.len())).find(|&i| {
        wanted.kinds.get(i) != given.kinds.get(i) || wanted.depths.get(i) != given.depths.get(i)
    })?;
    let line = |told: &Told| {
        format!("{:?} {:?}", told.kinds.get(point), told.depths.get(point).map(|bits| f32::from_bits(*bits)))
    };
    Some(format!("line {point}: wanted {}, given {}", line(wanted), line(given)))
}

/// The list of a seed through both.
fn compared(seed: u64) -> Vec<Outcome> {
    let list = List::of(seed);
    let (wanted, given) = (wanted(&list), given(&list));
    let differs = apart(&wanted, &given).map(|text| format!("profile, list seed {seed}: {text}"));
    vec![Outcome { met: met(&wanted), differs }]
}

pub fn compare(wish: &Wish, total: &mut Total) {
    let title =
        format!("the library's profile on lists of points, {SEEDS} of them, seeds from {}", wish.from);
    total.compare(&title, wish, SEEDS as usize, ANSWERS, |number| compared(wish.from + number as u64));
}
