// gridrun: the line and the record of the state reached, byte for byte, at several numbers of steps.

use oracle::text::{gridrun, steps_asked};

use super::Starter;
use crate::report::{apart, Met, Outcome, Total, Wanted, Wish};
use crate::small::SMALL;
use crate::source::Source;

/// Good records, each run at every number of steps.
const GOOD: u64 = 320;
const DAMAGED: u64 = 120;
const STEPS: [u32; 4] = [1, 2, 7, 60];

/// All that gridrun can answer: to a run, and to a record.
const ANSWERS: &Wanted =
    &[("run", &["0", "7", "8", "9"]), ("record", &["1", "2", "3", "4", "5", "6", "10", "11"])];

/// The run's number without its count, or the record's.
fn met(wanted: &[u8]) -> Met {
    let line = wanted.split(|&byte| byte == b'\n').next().unwrap_or_default();
    let line = String::from_utf8_lossy(line);
    match line.split(' ').collect::<Vec<&str>>()[..] {
        ["run", _, number, _] => Met::new("run", number),
        ["record", number, _] => Met::new("record", number),
        _ => Met::new(&line, ""),
    }
}

/// gridrun with its argument as it is spelled; one that spells no number has no output.
fn outcome(starter: &Starter, source: Source, steps: &str) -> Outcome {
    let bytes = source.bytes();
    let wanted = steps_asked(steps).map(|steps| gridrun(&bytes, steps));
    let differs = match starter.output("gridrun", &[steps.to_string()], &bytes) {
        Ok(given) => apart(wanted.as_deref().unwrap_or_default(), &given),
        Err(error) => Some(error),
    };
    let told = |text: String| format!("gridrun {steps}, {source}: {text}");
    let met = wanted.map_or(Met::new("argument", "unreadable"), |wanted| met(&wanted));
    Outcome { met, differs: differs.map(told) }
}

pub fn compare(starter: &Starter, wish: &Wish, total: &mut Total) {
    let mut runs = Vec::new();
    for seed in wish.from..wish.from + GOOD {
        runs.extend(STEPS.map(|steps| (Source::Good(seed), steps)));
    }
    for seed in wish.from..wish.from + DAMAGED {
        runs.push((Source::Damaged(seed), STEPS[seed as usize % STEPS.len()]));
    }
    // The most cells that it takes, 4,096, and 4,100.
    runs.extend([(Source::Solid([16; 3]), 7), (Source::Solid([10, 41, 10]), 7)]);
    // The ends of the range of steps, and more bytes than there is room for.
    for small in SMALL {
        let whole = Source::Cut(small, small.record().len());
        runs.extend([0, 1000, 1001, u32::MAX].map(|steps| (whole, steps)));
        runs.push((Source::Followed(small, 400_000), 1));
    }
    let title = format!(
        "gridrun on {GOOD} good records at {STEPS:?} steps each and {DAMAGED} damaged ones, seeds from {}; \
         four small ones at 0, 1000, 1001 and 4294967295 steps",
        wish.from
    );
    total.compare(&title, wish, runs.len(), ANSWERS, |number| {
        let (source, steps) = runs[number];
        vec![outcome(starter, source, &steps.to_string())]
    });

    let long = [64, 65].map(|length| format!("{:0length$}", 2));
    let spelled = [
        "",
        "2",
        "+2",
        "-2",
        "-0",
        " 2",
        "2 ",
        "2.0",
        "0x2",
        "two",
        "002",
        "1001",
        "4294967295",
        "4294967296",
    ];
    let spelled: Vec<&str> = spelled.into_iter().chain(long.iter().map(String::as_str)).collect();
    let title = format!("gridrun on case T with {} spellings of its argument", spelled.len());
    let wanted: &Wanted = &[("run", &["0", "9"]), ("argument", &["unreadable"])];
    let whole = Source::Cut(SMALL[0], SMALL[0].record().len());
    total.compare(&title, wish, spelled.len(), wanted, |number| {
        vec![outcome(starter, whole, spelled[number])]
    });
}
