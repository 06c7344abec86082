// The flume's functions on raw slices by seed, its states through steps and runs, and its records: good, damaged, every prefix and every byte of three small ones, and those of the other
// lattice. After each call its answers and every lent slice, refused or not, are compared with the independent program's.

mod calls;
mod cases;
pub mod mirrored;
// One extern block for all who call the library.
#[path = "../../bindings/rust/src/flume/raw.rs"]
mod raw;
mod reference;
mod small;

use oracle::flume::record::read_whole;
use oracle::flume::scenes::settings;
use oracle::flume::state::State;
use oracle::random::Random;

use crate::library;
use crate::library::{in_mode, Reply};
use crate::report::{Met, Outcome, Total, Wanted, Wish};
use cases::Case;
use small::{Small, Source, SMALL};

/// Cases by seed; each is handed to all functions.
const SEEDS: u64 = 50_000;
/// Good and damaged records by seed.
const RECORDS: u64 = 20_000;
/// Records of each lattice for the other's reader.
const OTHERS: u64 = 2_000;
/// States by seed, each through steps and runs.
const LIVES: u64 = 4_000;

type Call = fn(&mut Case) -> Reply;

/// A function by its name: the library's, and the independent program's.
type Pair = (&'static str, Call, Call);

const CHECK: Pair = ("check", calls::check, reference::check);
const READ: Pair = ("read", calls::read, reference::read);
const WRITE: Pair = ("write", calls::write, reference::write);

const STEP: Pair = ("step", calls::step, reference::step);
const RUN: Pair = ("run", calls::run, reference::run);

const ALL: [Pair; 5] = [CHECK, STEP, RUN, READ, WRITE];

/// All that the functions can answer.
const ANSWERS: &Wanted = &[
    ("check", &["0", "1", "2", "4", "5", "6"]),
    ("step", &["0", "1", "2", "3", "4", "5", "6", "7", "8"]),
    ("turbulent step", &["0", "1", "2", "3", "4", "5", "6", "7", "8"]),
    ("run", &["0", "1", "2", "3", "4", "5", "6", "7", "8", "9"]),
    ("turbulent run", &["0", "1", "2", "3", "4", "5", "6", "7", "8", "9"]),
    ("read", &["0", "1", "2", "3", "4", "5", "6", "10", "11"]),
    ("write", &["0", "1", "2", "3", "4", "5", "6", "12"]),
];

/// One function on one case; what the independent program answers and leaves.
fn called((call, library, reference): Pair, case: &Case, name: &str) -> (Outcome, Reply, Case) {
    let call = in_mode(call, case.turbulent);
    let (mut given_case, mut wanted_case) = (case.clone(), case.clone());
    let (given, wanted) = (library(&mut given_case), reference(&mut wanted_case));
    let differs = if given == wanted {
        wanted_case.apart(&given_case)
    } else {
        Some(format!("wanted {wanted}, given {given}"))
    };
    let differs = differs.map(|text| format!("flume {call}, {name}: {text}"));
    (Outcome { met: Met::new(call, wanted.number), differs }, wanted, wanted_case)
}

/// A record through the reader, with slices for n cells, and where it is accepted what was read through check, step in both modes and writer.
fn followed(source: Source, n: usize) -> Vec<Outcome> {
    let name = source.to_string();
    let (read, reply, after) = called(READ, &Case::of_record(source.bytes(), n), &name);
    let mut outcomes = vec![read];
    if let Some(case) = after.read(&reply) {
        let turbulent = Case { turbulent: true, ..case.clone() };
        let calls = [(CHECK, &case), (STEP, &case), (STEP, &turbulent)];
        outcomes.extend(calls.map(|(pair, case)| called(pair, case, &name).0));
        let (written, reply, after) = called(WRITE, &case, &name);
        outcomes.push(written);
        // What was accepted is written back as the same bytes.
        if after.room.get(..reply.values[0] as usize) != Some(&case.record[..]) {
            let differs = Some(format!("flume write, {name}: other bytes than were read"));
            outcomes.push(Outcome { met: Met::new("write", reply.number), differs });
        }
    }
    outcomes
}

/// A good state through steps and runs of both modes in random order, with other settings now and then: after each the two agree in every answer and slice, the
/// check accepts, and the water is what it was.
fn lived(seed: u64) -> Vec<Outcome> {
    let random = &mut Random::new(seed ^ 0xf10e_0000);
    let mut case = Case::lively(seed);
    let water = State::of(case.first.lend()).total();
    let mut outcomes = Vec::new();
    for turn in 0..8 {
        let name = format!("flume lived seed {seed}, turn {turn}");
        if random.percent(20) {
            let chosen = settings(random);
            (case.p, case.gravity) = (chosen.p.into(), chosen.gravity.map(i64::from));
        }
        (case.steps, case.turbulent) = (random.pick(&[0, 1, 2, 7, 30]), random.percent(50));
        let pair = random.pick(&[STEP, RUN]);
        let (outcome, reply, after) = called(pair, &case, &name);
        outcomes.push(outcome);
        if [0, 7, 8].contains(&reply.number) {
            case.first = after.second;
        }
        outcomes.push(called(CHECK, &case, &name).0);
        let now = State::of(case.first.lend()).total();
        if now != water {
            let differs = Some(format!("{name}: the water was {water} and is {now}"));
            outcomes.push(Outcome { met: Met::new("check", 0), differs });
        }
    }
    let (outcome, reply, after) = called(WRITE, &case, &format!("flume lived seed {seed}"));
    outcomes.push(outcome);
    let record = after.room[..reply.values[0] as usize].to_vec();
    outcomes.push(called(READ, &Case { record, ..case }, &format!("flume lived seed {seed}")).0);
    outcomes
}

/// How many cells the slices for a record by seed are lent for: its own, or none where its sides are out of range.
fn cells_of(source: Source) -> usize {
    let bytes = source.bytes();
    let side = |at: usize| {
        bytes.get(at..at + 4).map(|side| u32::from_le_bytes([side[0], side[1], side[2], side[3]]))
    };
    match (side(4), side(8)) {
        (Some(nx @ 3..=512), Some(nz @ 3..=512)) => (nx * nz) as usize,
        _ => 0,
    }
}

/// A record of the box through the flume's reader, and one of the flume through the box's.
fn exchanged(source: Source) -> Vec<Outcome> {
    let bytes = source.bytes();
    match source {
        Source::Box(_) | Source::DamagedBox(_) => {
            vec![called(READ, &Case::of_record(bytes, 27), &source.to_string()).0]
        }
        _ => {
            let case = library::cases::Case::of_record(bytes, 27);
            let (mut given_case, mut wanted_case) = (case.clone(), case);
            let given = library::calls::read(&mut given_case);
            let wanted = library::reference::read(&mut wanted_case);
            let differs = if given == wanted {
                wanted_case.apart(&given_case)
            } else {
                Some(format!("wanted {wanted}, given {given}"))
            };
            let differs = differs.map(|text| format!("box's read, {source}: {text}"));
            vec![Outcome { met: Met::new("box's read", wanted.number), differs }]
        }
    }
}

pub fn compare(wish: &Wish, total: &mut Total) {
    let title =
        format!("the flume's functions on raw slices, {SEEDS} cases, a mode each, seeds from {}", wish.from);
    total.compare(&title, wish, SEEDS as usize, ANSWERS, |number| {
        let seed = wish.from + number as u64;
        let case = Case::of(seed);
        let name = format!("flume raw seed {seed}");
        ALL.map(|pair| called(pair, &case, &name).0).into()
    });

    let title = format!(
        "the flume's steps and runs in both modes and checks in random order, {LIVES} states, seeds from {}, whole outcomes and the water",
        wish.from
    );
    let wanted: &Wanted = &[
        ("step", &["0", "7", "8"]),
        ("turbulent step", &["0", "7", "8"]),
        ("run", &["0", "7", "8"]),
        ("turbulent run", &["0", "7", "8"]),
        ("check", &["0"]),
        ("write", &["0"]),
        ("read", &["0"]),
    ];
    total.compare(&title, wish, LIVES as usize, wanted, |number| lived(wish.from + number as u64));

    let title = format!(
        "the flume's reader on {RECORDS} good and {RECORDS} damaged records, seeds from {}, then check, step in both modes and writer on what was read",
        wish.from
    );
    let wanted: &Wanted = &[
        ("read", &["0", "1", "3", "4", "5", "6", "10", "11"]),
        ("check", &["0"]),
        ("step", &["0", "7", "8"]),
        ("turbulent step", &["0", "7", "8"]),
        ("write", &["0"]),
    ];
    total.compare(&title, wish, 2 * RECORDS as usize, wanted, |number| {
        let seed = wish.from + number as u64 / 2;
        let source = if number % 2 == 0 { Source::Good(seed) } else { Source::Damaged(seed) };
        followed(source, cells_of(source))
    });

    let mut sources = Vec::new();
    for small in SMALL {
        let record = small.record();
        sources.extend((0..=record.len()).map(|length| (Source::Cut(small, length), small)));
        for (at, &byte) in record.iter().enumerate() {
            let others = (0..=u8::MAX).filter(|other| *other != byte);
            sources.extend(others.map(|other| (Source::Changed(small, at, other), small)));
        }
    }
    let title = "the flume's reader, then check, step in both modes and writer, on every prefix of three small records and on each with every single byte \
                 changed to all 255 others";
    let wanted: &Wanted = &[
        ("read", &["0", "1", "2", "3", "4", "6", "10", "11"]),
        ("check", &["0"]),
        ("step", &["0", "7"]),
        ("turbulent step", &["0", "7"]),
        ("write", &["0"]),
    ];
    total.compare(title, wish, sources.len(), wanted, |number| {
        let (source, small) = sources[number];
        followed(source, small.scene().state.cells.len())
    });

    let rooms: Vec<(Small, usize)> = SMALL
        .iter()
        .flat_map(|&small| (0..small.record().len() + 20).map(move |room| (small, room)))
        .collect();
    let title =
        "the flume's writer on three small records, every size of room up to a little more than enough";
    total.compare(title, wish, rooms.len(), &[("write", &["0", "12"])], |number| {
        let (small, room) = rooms[number];
        let record = small.record();
        let (reading, store) = read_whole(&record).expect("a small record is good");
        let case = Case { room: vec![0xa5; room], ..Case::of_reading(&reading, store) };
        vec![called(WRITE, &case, &format!("{} in room of {room} bytes", small.name())).0]
    });

    let title =
        format!("each lattice's reader on {} records of the other, seeds from {}", 2 * OTHERS, wish.from);
    let wanted: &Wanted = &[("read", &["10", "11"]), ("box's read", &["10", "11"])];
    total.compare(&title, wish, 4 * OTHERS as usize, wanted, |number| {
        let seed = wish.from + number as u64 / 4;
        let source = [Source::Good, Source::Damaged, Source::Box, Source::DamagedBox][number % 4](seed);
        exchanged(source)
    });
}
