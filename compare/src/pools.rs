// The pools on sets by seed: good and damaged, pools, films, drops, lone cells and cells strewn, with room that is enough, too small or unequal. After
// each call the answer and the four lent slices, refused or not, are compared with the independent program's.

pub mod lakes;

use oracle::pools::{pools, Room};

use crate::raw;
use crate::report::{Met, Outcome, Total, Wanted, Wish};
use lakes::{Lake, LARGE};

/// Lakes by seed.
const SEEDS: u64 = 30_000;

/// All that can be answered: no pool, one, several, many, and every refusal.
const ANSWERS: &Wanted = &[("pools", &["none", "one", "several", "many", "1", "2", "4", "5", "6", "21"])];

/// Number, place and how many pools; then the slices.
#[derive(PartialEq)]
struct Told {
    answer: [usize; 3],
    counts: Vec<u32>,
    waters: Vec<i64>,
    marks: Vec<u16>,
    work: Vec<u32>,
}

impl Told {
    fn before(lake: &Lake) -> Told {
        Told {
            // Every number that is answered holds something else before.
            answer: [77; 3],
            counts: lake.counts.clone(),
            waters: lake.waters.clone(),
            marks: lake.marks.clone(),
            work: lake.work.clone(),
        }
    }
}

/// The library's.
fn given(lake: &Lake) -> Told {
    let [nx, ny, nz] = lake.sides;
    let set = &lake.set;
    let mut told = Told::before(lake);
    let [_, mut place, mut pools] = told.answer;
    // Each pointer comes from a slice of the length beside it or from a number of this frame.
    let number = unsafe {
        raw::skw_pools(
            set.flags.as_ptr(),
            set.flags.len(),
            set.parts.as_ptr(),
            set.parts.len(),
            set.masses.as_ptr(),
            set.masses.len(),
            set.fills.as_ptr(),
            set.fills.len(),
            set.carry.as_ptr(),
            set.carry.len(),
            told.counts.as_mut_ptr(),
            told.counts.len(),
            told.waters.as_mut_ptr(),
            told.waters.len(),
            told.marks.as_mut_ptr(),
            told.marks.len(),
            told.work.as_mut_ptr(),
            told.work.len(),
            nx,
            ny,
            nz,
            &mut pools,
            &mut place,
        )
    };
    told.answer = [number.into(), place, pools];
    told
}

/// The independent program's.
fn wanted(lake: &Lake) -> Told {
    let mut told = Told::before(lake);
    let room = Room {
        counts: &mut told.counts,
        waters: &mut told.waters,
        marks: &mut told.marks,
        work: &mut told.work,
    };
    // The widest number of the record's type stands for one beyond it: both are out of every range.
    let sides = lake.sides.map(|side| u32::try_from(side).unwrap_or(u32::MAX));
    told.answer = match pools(sides, lake.set.lend(), room) {
        Ok(pools) => [0, 0, pools],
        Err(refusal) => [refusal.number as usize, refusal.place as usize, 0],
    };
    told
}

fn met(told: &Told) -> Met {
    match told.answer {
        [0, _, 0] => Met::new("pools", "none"),
        [0, _, 1] => Met::new("pools", "one"),
        [0, _, 2..20] => Met::new("pools", "several"),
        [0, ..] => Met::new("pools", "many"),
        [number, ..] => Met::new("pools", number),
    }
}

/// Where the library's differs.
fn apart(wanted: &Told, given: &Told) -> Option<String> {
    fn differing<T: PartialEq + std::fmt::Debug>(name: &str, wanted: &[T], given: &[T]) -> Option<String> {
        let i = wanted.iter().zip(given).position(|(wanted, given)| wanted != given)?;
        Some(format!("{name}[{i}]: wanted {:?}, given {:?}", wanted[i], given[i]))
    }
    differing("number, place, pools", &wanted.answer, &given.answer)
        .or_else(|| differing("marks", &wanted.marks, &given.marks))
        .or_else(|| differing("counts", &wanted.counts, &given.counts))
        .or_else(|| differing("waters", &wanted.waters, &given.waters))
        .or_else(|| differing("work", &wanted.work, &given.work))
}

/// A lake through both.
fn compared(lake: &Lake, name: &str) -> Vec<Outcome> {
    let (wanted, given) = (wanted(lake), given(lake));
    let differs = apart(&wanted, &given).map(|text| format!("pools, {name}: {text}"));
    vec![Outcome { met: met(&wanted), differs }]
}

pub fn compare(wish: &Wish, total: &mut Total) {
    let title = format!("the library's pools on sets, {SEEDS} of them, seeds from {}", wish.from);
    total.compare(&title, wish, SEEDS as usize, ANSWERS, |number| {
        let seed = wish.from + number as u64;
        compared(&Lake::of(seed), &format!("lake seed {seed}"))
    });

    let title = "the library's pools in large boxes: lone cells packed densest, a snake through all of it, one pool of all cells";
    let wanted: &Wanted = &[("pools", &["one", "many", "21"])];
    total.compare(title, wish, LARGE, wanted, |number| {
        compared(&Lake::large(number), &format!("large lake, seed {number}"))
    });
}
