// Two schemes over one wall map. Join, part, walls asked for and taken out on raw slices by seed: after each call the answer and every lent slice, refused
// or not, are compared with the independent program's. Then whole histories of both schemes, and the hunt for what one tells of the other, on the library.

mod cases;
mod library;

use oracle::designers::{Asked, Deed, Here, Told, Tunnel};
use oracle::isolation::{hunted, EVENTS};
use oracle::random::Random;
use oracle::schemes::{self, Change};
use oracle::Refusal;

use crate::library::in_mode;
use crate::report::{Met, Outcome, Total, Wanted, Wish};
use cases::{Case, LARGE};
use library::Library;

/// Cases by seed; each is handed to the four functions.
const SEEDS: u64 = 60_000;

/// Histories by seed, in which both schemes ask by turns.
const HISTORIES: u64 = 4_000;
const TURNS: usize = 20;

/// All that the four can be told, by whose scheme is at fault or in the way.
const ANSWERS: &Wanted = &[
    ("join", &["0", "1", "2", "4", "5", "6"]),
    ("part", &["0", "1", "2", "4"]),
    ("add", WALL_ANSWERS),
    ("remove", WALL_ANSWERS),
];
const WALL_ANSWERS: &[&str] = &[
    "0",
    "1",
    "2",
    "4",
    "5",
    "6",
    "other's 2",
    "other's 4",
    "other's 5",
    "other's 6",
    "13",
    "17",
    "18",
    "other's 18",
];

/// Number and place, 0 and 0 if it is accepted.
fn told(outcome: Result<(), Refusal>) -> [u64; 2] {
    outcome.map_or_else(|refusal| [refusal.number.into(), refusal.place], |()| [0, 0])
}

/// A function by its name: the library's, and the independent program's.
type Call = fn(&mut Case) -> [u64; 2];
type Pair = (&'static str, Call, Call);

const PAIRS: [Pair; 4] = [
    (
        "join",
        |case| library::join(case.sides, &case.map, case.asker.lend(), &mut case.room),
        |case| told(schemes::join(case.narrow(), &case.map, case.asker.lend(), &mut case.room)),
    ),
    (
        "part",
        |case| library::part(case.sides, &case.flags, &mut case.room),
        |case| told(schemes::part(case.narrow(), &case.flags, &mut case.room)),
    ),
    ("add", |case| case.changed(Change::Add), |case| wanted_change(case, Change::Add)),
    ("remove", |case| case.changed(Change::Remove), |case| wanted_change(case, Change::Remove)),
];

fn wanted_change(case: &mut Case, change: Change) -> [u64; 2] {
    let (asker, other) = (case.asker.lend(), case.other.lend());
    told(schemes::change(change, case.narrow(), &mut case.map, asker, other, case.cell as u64))
}

/// What was answered; of a wall change whether the fault or the water is the other scheme's alone.
fn met(call: &'static str, case: &Case, number: u64) -> Met {
    let others = match number {
        2 | 4 | 5 | 6 => case.asker_is_good(),
        18 => {
            let mut alone = case.beside_a_dry_scheme();
            let change = if call == "add" { Change::Add } else { Change::Remove };
            wanted_change(&mut alone, change) == [0, 0]
        }
        _ => false,
    };
    if others && ["add", "remove"].contains(&call) {
        Met::new(call, format!("other's {number}"))
    } else {
        Met::new(call, number)
    }
}

/// A case through one function of both.
fn called((call, library, reference): Pair, case: &Case, name: &str) -> Outcome {
    let (mut given_case, mut wanted_case) = (case.clone(), case.clone());
    let (given, wanted) = (library(&mut given_case), reference(&mut wanted_case));
    let differs = if given == wanted {
        wanted_case.apart(&given_case)
    } else {
        Some(format!("wanted {wanted:?}, given {given:?}"))
    };
    Outcome {
        met: met(call, case, wanted[0]),
        differs: differs.map(|text| format!("{call}, {name}: {text}")),
    }
}

/// What a designer asked, and the number that was told.
fn asked_met(asked: Asked, told: &Told) -> Met {
    let call = match asked {
        Asked::Own(Deed::Step { turbulent }) => in_mode("step", turbulent),
        Asked::Own(Deed::Run { turbulent, .. }) => in_mode("run", turbulent),
        Asked::Own(Deed::Act(..)) => "act",
        Asked::Wall(Change::Add, _) => "add",
        Asked::Wall(Change::Remove, _) => "remove",
    };
    Met::new(call, told.refusal.map_or(0, |refusal| refusal.number))
}

/// Where two tunnels part.
fn apart(wanted: &Tunnel, given: &Tunnel) -> Option<String> {
    let parts = [
        ("the map", wanted.map == given.map),
        ("the first scheme", wanted.schemes[0] == given.schemes[0]),
        ("the second scheme", wanted.schemes[1] == given.schemes[1]),
    ];
    parts.iter().find(|(_, same)| !same).map(|(part, _)| format!("{part} is another"))
}

/// Both designers ask by turns, on the library and on the independent program: the same answers, and after each turn the same map, schemes and indexes.
fn lived(seed: u64) -> Vec<Outcome> {
    let random = &mut Random::new(seed ^ 0x7471_5000);
    let mut wanted = Tunnel::of(seed);
    let mut given = wanted.clone();
    let mut outcomes = Vec::new();
    for turn in 0..TURNS {
        let who = random.below(2);
        let asked = wanted.wish(random, who);
        let (wanted_told, given_told) = (wanted.ask::<Here>(who, asked), given.ask::<Library>(who, asked));
        let differs = if wanted_told == given_told {
            apart(&wanted, &given)
        } else {
            Some(format!("wanted {wanted_told:?}, given {given_told:?}"))
        };
        let stop = differs.is_some();
        let differs =
            differs.map(|text| format!("tunnel seed {seed}, turn {turn}, {who} asks {asked:?}: {text}"));
        outcomes.push(Outcome { met: asked_met(asked, &wanted_told), differs });
        if stop {
            break;
        }
    }
    outcomes
}

/// One seed of the hunt, on the library: what it met, and what it found.
fn isolated(seed: u64) -> Vec<Outcome> {
    match hunted::<Library>(seed) {
        Ok(tally) => {
            let met = tally.met.into_iter().flat_map(|(event, count)| vec![event; count]);
            met.map(|event| Outcome { met: Met::new("isolation", event), differs: None }).collect()
        }
        Err(finding) => {
            let met = Met::new("isolation", "broken");
            vec![Outcome { met, differs: Some(format!("isolation, {finding}")) }]
        }
    }
}

pub fn compare(wish: &Wish, total: &mut Total) {
    let title = format!(
        "the library's join, part and wall changes on raw slices, {SEEDS} cases, seeds from {}",
        wish.from
    );
    total.compare(&title, wish, SEEDS as usize, ANSWERS, |number| {
        let seed = wish.from + number as u64;
        let case = Case::of(seed);
        PAIRS.map(|pair| called(pair, &case, &format!("scheme seed {seed}"))).into()
    });

    let title = "the same four in large boxes, up to 262,144 cells";
    let wanted: &Wanted = &[("join", &["0"]), ("part", &["0"]), ("add", &["17"]), ("remove", &["0"])];
    total.compare(title, wish, LARGE, wanted, |number| {
        let case = Case::large(number);
        PAIRS.map(|pair| called(pair, &case, &format!("large scheme, seed {number}"))).into()
    });

    let title = format!(
        "two schemes by turns, steps and runs of both modes, acts and wall changes, {HISTORIES} histories, seeds from {}, whole outcomes",
        wish.from
    );
    let wanted: &Wanted = &[
        ("step", &["0", "7", "8"]),
        ("turbulent step", &["0", "7", "8"]),
        ("run", &["0", "7", "8"]),
        ("turbulent run", &["0", "7", "8"]),
        ("act", &["0", "13", "15", "16"]),
        ("add", &["0", "13", "17", "18"]),
        ("remove", &["0", "13", "17", "18"]),
    ];
    total.compare(&title, wish, HISTORIES as usize, wanted, |number| lived(wish.from + number as u64));

    let title = format!(
        "what one scheme tells of the other: {HISTORIES} histories on the library, both schemes replayed beside others, seeds from {}",
        wish.from
    );
    total.compare(&title, wish, HISTORIES as usize, &[("isolation", &EVENTS)], |number| {
        isolated(wish.from + number as u64)
    });
}
