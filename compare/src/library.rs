// The library's functions themselves, on raw slices that no record can hold: wrong lengths, any flags, parts, masses, fills and settings.
// After each call its answers and every lent slice, refused or not, are compared with the independent program's.

pub mod calls;
pub mod cases;
pub mod reference;

use std::fmt::{Display, Formatter};

use oracle::random::Random;
use oracle::record::read_within;
use oracle::state::State;

use crate::report::{Met, Outcome, Total, Wanted, Wish};
use crate::small::{Small, SMALL};
use crate::source::Source;
use cases::Case;

/// States by seed, each through acts and steps.
const LIVES: u64 = 4_000;

/// Cases by seed; each is handed to all functions.
const SEEDS: u64 = 50_000;

/// What a call answers: number and place of the refusal, 0 0 if there is none, and its other values as bits.
#[derive(Clone, PartialEq, Eq)]
pub struct Reply {
    pub number: u8,
    pub place: usize,
    pub values: Vec<u64>,
}

impl Display for Reply {
    fn fmt(&self, f: &mut Formatter) -> std::fmt::Result {
        write!(f, "{} {}", self.number, self.place)?;
        self.values.iter().try_for_each(|value| write!(f, " {}", *value as i64))
    }
}

type Call = fn(&mut Case) -> Reply;

/// A function by its name: the library's, and the independent program's.
type Pair = (&'static str, Call, Call);

const CHECK: Pair = ("check", calls::check, reference::check);
const POUR: Pair = ("pour", calls::pour, reference::pour);
const TAKE: Pair = ("take", calls::take, reference::take);
const LOAD: Pair = ("load", calls::load, reference::load);
const COUNT: Pair = ("count", calls::surface_count, reference::surface_count);
const NEXT: Pair = ("next", calls::surface_next, reference::surface_next);
const STEP: Pair = ("step", calls::step, reference::step);
const RUN: Pair = ("run", calls::run, reference::run);
const READ: Pair = ("read", calls::read, reference::read);
const WRITE: Pair = ("write", calls::write, reference::write);
const PLACE: Pair = ("place", calls::place, reference::place);
const POINT: Pair = ("point", calls::point, reference::point);
const DEPTH: Pair = ("depth", calls::depth, reference::depth);

const ALL: [Pair; 13] = [CHECK, POUR, TAKE, LOAD, COUNT, NEXT, STEP, RUN, READ, WRITE, PLACE, POINT, DEPTH];

/// All that the functions can answer; accepted depths and cells by their kind.
const ANSWERS: &Wanted = &[
    ("check", &["0", "1", "2", "4", "5", "6"]),
    ("pour", &["0", "1", "2", "4", "5", "6", "13", "15", "16"]),
    ("take", &["0", "1", "2", "4", "5", "6", "13", "15", "16"]),
    ("load", &["0", "1", "2", "4", "5", "6", "14"]),
    ("count", &["0", "1", "2"]),
    ("next", &["found", "none", "1", "2", "13"]),
    ("step", &["0", "1", "2", "3", "4", "5", "6", "7", "8", "14"]),
    ("turbulent step", &["0", "1", "2", "3", "4", "5", "6", "7", "8", "14"]),
    ("run", &["0", "1", "2", "3", "4", "5", "6", "7", "8", "9", "14"]),
    ("turbulent run", &["0", "1", "2", "3", "4", "5", "6", "7", "8", "9", "14"]),
    ("read", &["0", "1", "2", "3", "4", "5", "6", "10", "11"]),
    ("write", &["0", "1", "2", "3", "4", "5", "6", "12"]),
    ("place", &["0", "1", "3", "13"]),
    ("point", &["0", "1", "2", "6", "13"]),
    ("depth", &["solid", "dry", "deep", "1", "2", "4", "6", "13"]),
];

/// The name under which a call is told: step and run by their mode.
pub fn in_mode(call: &'static str, turbulent: bool) -> &'static str {
    match (call, turbulent) {
        ("step", true) => "turbulent step",
        ("run", true) => "turbulent run",
        _ => call,
    }
}

fn met(call: &'static str, reply: &Reply) -> Met {
    match (call, reply.number, reply.values.first()) {
        ("next", 0, Some(1)) => Met::new(call, "found"),
        ("next", 0, Some(2)) => Met::new(call, "none"),
        ("depth", 0, Some(1)) => Met::new(call, "solid"),
        ("depth", 0, Some(2)) => Met::new(call, "dry"),
        ("depth", 0, Some(3)) => Met::new(call, "deep"),
        (_, number, _) => Met::new(call, number),
    }
}

/// One function on one case; what the independent program answers and leaves.
fn called((call, library, reference): Pair, case: &Case, name: &str) -> (Outcome, Reply, Case) {
    let call = in_mode(call, case.turbulent);
    let (mut given_case, mut wanted_case) = (case.clone(), case.clone());
    let (given, wanted) = (library(&mut given_case), reference(&mut wanted_case));
    let differs = if given == wanted {
        wanted_case.apart(&given_case)
    } else {
        Some(format!("wanted {wanted}, given {given}"))
    };
    let differs = differs.map(|text| format!("{call}, {name}: {text}"));
    (Outcome { met: met(call, &wanted), differs }, wanted, wanted_case)
}

/// A record through the reader and, where it is accepted, the set that was read through loading, the step in both modes and the writer.
fn followed(source: Source, small: Small) -> Vec<Outcome> {
    let case = Case::of_record(source.bytes(), small.scene().state.cells.len());
    let (read, reply, after) = called(READ, &case, &source.to_string());
    let mut outcomes = vec![read];
    if let Some(case) = after.read(&reply) {
        let turbulent = Case { turbulent: true, ..case.clone() };
        let calls = [(LOAD, &case), (STEP, &case), (STEP, &turbulent), (WRITE, &case)];
        outcomes.extend(calls.map(|(pair, case)| called(pair, case, &source.to_string()).0));
    }
    outcomes
}

/// A good state through acts and steps of both modes in random order: after each the two agree in every answer and slice, and the balance is what it was. A record now and
/// then goes through writer and reader.
fn lived(seed: u64) -> Vec<Outcome> {
    let random = &mut Random::new(seed ^ 0x0acc_0000);
    let mut case = Case::lively(seed);
    let balance = State::of(case.first.lend()).balance();
    let mut outcomes = Vec::new();
    for turn in 0..10 {
        let name = format!("lived seed {seed}, turn {turn}");
        (case.cell, case.amount) = (cases::cell(random, &case.first.flags), cases::amount(random));
        case.turbulent = random.percent(50);
        let pair = random.pick(&[POUR, TAKE, STEP]);
        let (outcome, reply, after) = called(pair, &case, &name);
        outcomes.push(outcome);
        if pair.0 == STEP.0 {
            if [0, 7, 8].contains(&reply.number) {
                (case.first, case.first_index) = (after.second, after.second_index);
            }
        } else {
            case.first = after.first;
        }
        outcomes.push(called(CHECK, &case, &name).0);
        if turn % 5 == 4 {
            let (outcome, reply, after) = called(WRITE, &case, &name);
            outcomes.push(outcome);
            let record = after.room[..reply.values[0] as usize].to_vec();
            outcomes.push(called(READ, &Case { record, ..case.clone() }, &name).0);
        }
        let now = State::of(case.first.lend()).balance();
        if now != balance {
            let differs = Some(format!("{name}: the balance was {balance} and is {now}"));
            outcomes.push(Outcome { met: Met::new("check", 0), differs });
        }
    }
    outcomes
}

pub fn compare(wish: &Wish, total: &mut Total) {
    let title = format!(
        "the library's thirteen functions on raw slices, {SEEDS} cases, a mode each, seeds from {}",
        wish.from
    );
    total.compare(&title, wish, SEEDS as usize, ANSWERS, |number| {
        let seed = wish.from + number as u64;
        let case = Case::of(seed);
        let name = format!("raw seed {seed}");
        ALL.map(|pair| called(pair, &case, &name).0).into()
    });

    let title = format!(
        "acts, steps in both modes, checks and records in random order, {LIVES} states, seeds from {}, whole outcomes and the balance",
        wish.from
    );
    let wanted: &Wanted = &[
        ("pour", &["0", "13", "15", "16"]),
        ("take", &["0", "13", "15", "16"]),
        ("step", &["0", "7", "8"]),
        ("turbulent step", &["0", "7", "8"]),
        ("check", &["0"]),
        ("write", &["0"]),
        ("read", &["0"]),
    ];
    total.compare(&title, wish, LIVES as usize, wanted, |number| lived(wish.from + number as u64));

    let mut sources = Vec::new();
    for small in SMALL {
        let record = small.record();
        sources.extend((0..=record.len()).map(|length| (Source::Cut(small, length), small)));
        for (at, &byte) in record.iter().enumerate() {
            let others = (0..=u8::MAX).filter(|other| *other != byte);
            sources.extend(others.map(|other| (Source::Changed(small, at, other), small)));
        }
    }
    let title = "the library's reader, then loading, step in both modes and writer, on every prefix of four small records and on each with every \
                 single byte changed to all 255 others";
    let wanted: &Wanted = &[
        ("read", &["0", "1", "2", "3", "4", "6", "10", "11"]),
        ("load", &["0"]),
        ("step", &["0", "7"]),
        ("turbulent step", &["0", "7"]),
        ("write", &["0"]),
    ];
    total.compare(title, wish, sources.len(), wanted, |number| {
        let (source, small) = sources[number];
        followed(source, small)
    });

    let rooms: Vec<(Small, usize)> = SMALL
        .iter()
        .flat_map(|&small| (0..small.record().len() + 20).map(move |room| (small, room)))
        .collect();
    let wanted: &Wanted = &[("write", &["0", "12"])];
    let title =
        "the library's writer on four small records, every size of room up to a little more than enough";
    total.compare(title, wish, rooms.len(), wanted, |number| {
        let (small, room) = rooms[number];
        let record = small.record();
        let (reading, store) = read_within(&record, record.len()).expect("a small record is good");
        let case = Case { room: vec![0xa5; room], ..Case::of_reading(&reading, store) };
        vec![called(WRITE, &case, &format!("{} in room of {room} bytes", small.name())).0]
    });
}
