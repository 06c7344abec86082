// gridstep: records by seed, and every prefix and changed byte of the small ones. Its whole output is compared. The program that rt built is started,
// some thousands of times; and the program is called as a function for many more records and for all single-byte changes, some 176,000.

use std::ops::Range;

use oracle::text::{gridstep, GRIDSTEP_BYTES};

use super::called;
use super::Starter;
use crate::report::{apart, Met, Outcome, Total, Wanted, Wish};
use crate::small::SMALL;
use crate::source::Source;

/// Good records, and as many damaged ones: by starts of the program, and by calls.
const SEEDS: u64 = 1200;
const CALLED: u64 = 10_000;

/// All that gridstep can answer: to a step, and to a record.
const ANSWERS: &Wanted =
    &[("step", &["0", "7", "8"]), ("record", &["1", "2", "3", "4", "5", "6", "10", "11"])];

/// The step's number, or the record's.
fn met(wanted: &str) -> Met {
    let line = wanted.lines().find(|line| !line.starts_with("before")).unwrap_or_default();
    let mut words = line.split(' ');
    Met::new(words.next().unwrap_or_default(), words.next().unwrap_or_default())
}

fn outcome(run: impl Fn(&[u8]) -> Result<Vec<u8>, String>, source: Source) -> Outcome {
    let bytes = source.bytes();
    let wanted = gridstep(&bytes);
    let differs = match run(&bytes) {
        Ok(given) => apart(wanted.as_bytes(), &given),
        Err(error) => Some(error),
    };
    Outcome { met: met(&wanted), differs: differs.map(|text| format!("gridstep, {source}: {text}")) }
}

pub fn compare(starter: &Starter, wish: &Wish, total: &mut Total) {
    let mut part = |title: &str, sources: Vec<Source>, wanted: &Wanted| {
        let started = |bytes: &[u8]| starter.output("gridstep", &[], bytes);
        total.compare(title, wish, sources.len(), wanted, |number| vec![outcome(started, sources[number])]);
    };

    let mut sources = by_seed(wish.from..wish.from + SEEDS);
    // About the most bytes that it takes, and the most cells: 861 and 864.
    sources.extend((0..3).map(|more| Source::Followed(SMALL[0], GRIDSTEP_BYTES - 1 + more)));
    sources.push(Source::Followed(SMALL[0], 3 * GRIDSTEP_BYTES));
    sources.extend([Source::Solid([3, 41, 7]), Source::Solid([12, 6, 12])]);
    let title = format!(
        "gridstep on {SEEDS} good and {SEEDS} damaged records, seeds from {}, and 6 at the limits of its room",
        wish.from
    );
    part(&title, sources, ANSWERS);

    let lengths: Vec<(_, usize)> = SMALL.iter().map(|&small| (small, small.record().len())).collect();
    let cut = lengths.iter().flat_map(|&(small, length)| (0..=length).map(move |to| Source::Cut(small, to)));
    let wanted: &Wanted = &[("step", &["0"]), ("record", &["10"])];
    part("gridstep on every prefix of four small records", cut.collect(), wanted);

    let turned = changes(|byte| (0..8).map(|bit| byte ^ 1 << bit).collect());
    let title = "gridstep on four small records with each bit of every byte turned";
    part(title, turned, CHANGED);

    called_by_seed(wish, total);
    called_on_changes(wish, total);
}

/// A good and a damaged record of each seed.
fn by_seed(seeds: Range<u64>) -> Vec<Source> {
    seeds.flat_map(|seed| [Source::Good(seed), Source::Damaged(seed)]).collect()
}

/// What a single changed byte of the small records can bring about.
const CHANGED: &Wanted = &[("step", &["0", "7"]), ("record", &["1", "3", "4", "6", "11"])];

/// The small records with each byte made each of its others.
fn changes(others: impl Fn(u8) -> Vec<u8>) -> Vec<Source> {
    let mut sources = Vec::new();
    for small in SMALL {
        for (at, &byte) in small.record().iter().enumerate() {
            sources.extend(others(byte).into_iter().map(|other| Source::Changed(small, at, other)));
        }
    }
    sources
}

fn call(title: &str, wish: &Wish, total: &mut Total, sources: &[Source], wanted: &Wanted) {
    let title = format!("gridstep, called as a function, on {title}");
    total.compare(&title, wish, sources.len(), wanted, |number| {
        vec![outcome(called::gridstep, sources[number])]
    });
}

fn called_by_seed(wish: &Wish, total: &mut Total) {
    let from = wish.from + SEEDS;
    let title = format!("{CALLED} good and {CALLED} damaged records more, seeds from {from}");
    call(&title, wish, total, &by_seed(from..from + CALLED), ANSWERS);
}

fn called_on_changes(wish: &Wish, total: &mut Total) {
    let sources = changes(|byte| (0..=u8::MAX).filter(|&other| other != byte).collect());
    let title = "four small records with every single byte changed to all 255 others";
    call(title, wish, total, &sources, CHANGED);
}
