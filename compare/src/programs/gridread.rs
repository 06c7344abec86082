// gridread: placing, cell points and depths of records by seed, and arguments that make no request. Every line is compared.

use oracle::random::Random;
use oracle::scenes::{good, Scene};
use oracle::settings::REACH;
use oracle::text::{gridread, requests, Request};

use super::Starter;
use crate::report::{apart, Met, Outcome, Total, Wanted, Wish};
use crate::source::Source;

/// Good records, and how many requests are made of each.
const GOOD: u64 = 200;
const REQUESTS: usize = 24;
const DAMAGED: u64 = 240;
/// Lists of arguments with one word spoilt.
const SPOILT: u64 = 200;

const ANSWERS: &Wanted = &[
    ("place", &["cell", "3", "13"]),
    ("point", &["point", "13"]),
    ("depth", &["solid", "dry", "deep", "13"]),
    ("record", &["1", "2", "3", "4", "5", "6", "10", "11"]),
];

/// What a line answers: the refusal's number, or the kind of reading.
fn met(line: &str) -> Met {
    match line.split(' ').collect::<Vec<&str>>()[..] {
        ["place", "cell", _] => Met::new("place", "cell"),
        ["point", _, _, _, _] => Met::new("point", "point"),
        ["depth", kind] if kind.contains('/') => Met::new("depth", "deep"),
        [call, answer, ..] => Met::new(call, answer),
        _ => Met::new(line, ""),
    }
}

/// A coordinate about a cell's borders, the grid's ends or those of the range; or anything.
fn coordinate(random: &mut Random, side: u32, edge: i64, origin: i64) -> i64 {
    let cell = random.below(side as usize) as i64;
    match random.below(20) {
        0 => origin - 1,
        1 => origin + i64::from(side) * edge,
        2 => random.pick(&[REACH, REACH + 1, -REACH, -REACH - 1, i64::MIN, i64::MAX]),
        3 => random.bits() as i64,
        4..8 => origin + cell * edge,
        8..12 => origin + cell * edge + edge - 1,
        _ => origin + cell * edge + random.below(edge as usize) as i64,
    }
}

fn request(random: &mut Random, scene: &Scene) -> Request {
    let [nx, ny, _] = scene.sides.map(u64::from);
    let n = scene.state.cells.len() as u64;
    let below = |random: &mut Random, count: u64| match random.below(20) {
        0 => count,
        1 => random.pick(&[u64::MAX, 1 << 32, count + 1]),
        _ => random.below(count as usize) as u64,
    };
    match random.below(3) {
        0 => Request::Place([0, 1, 2].map(|axis| {
            let (side, origin) = (scene.sides[axis], scene.origin[axis]);
            // Two thirds of the points lie inside, which takes all three axes.
            if random.percent(75) {
                origin + random.below(side as usize * scene.settings.edge as usize) as i64
            } else {
                coordinate(random, side, scene.settings.edge.into(), origin)
            }
        })),
        1 => Request::Point(below(random, n)),
        // Of a column inside the outer layer, as a solid one says little; or of any.
        _ if random.percent(60) => {
            let [x, y] = [nx, ny].map(|side| 1 + random.below(side as usize - 2) as u64);
            Request::Depth(x, y)
        }
        _ => Request::Depth(below(random, nx), below(random, ny)),
    }
}

fn some(random: &mut Random, scene: &Scene, count: usize) -> Vec<Request> {
    (0..count).map(|_| request(random, scene)).collect()
}

fn words(requests: &[Request]) -> Vec<String> {
    requests.iter().flat_map(Request::words).collect()
}

/// Arguments of which one is missing, doubled, or spelled otherwise.
fn spoilt(random: &mut Random, scene: &Scene) -> Vec<String> {
    let count = 1 + random.below(3);
    let mut words = words(&some(random, scene, count));
    let at = random.below(words.len());
    let word = words[at].clone();
    words[at] = match random.below(11) {
        0 => format!("+{word}"),
        1 => format!("-{word}"),
        2 => format!("{word}-"),
        3 => format!(" {word}"),
        4 => format!("{word}.0"),
        5 => format!("0{word}"),
        // As many zeros as make it too long, or just not.
        6 => format!("{word:0>64}"),
        7 => format!("{word:0>65}"),
        8 => format!("{word}00000000000000000000"),
        9 => String::new(),
        _ => {
            words.remove(at);
            return words;
        }
    };
    words
}

/// The outcome of each line that is wanted; what is given beyond them counts against the last.
fn outcomes(starter: &Starter, name: &str, arguments: &[String], bytes: &[u8], wanted: &str) -> Vec<Outcome> {
    let told = |text: String| Some(format!("gridread, {name}: {text}"));
    let given = match starter.output("gridread", arguments, bytes) {
        Ok(given) => given,
        Err(error) => return vec![Outcome { met: met("no answer"), differs: told(error) }],
    };
    let text = String::from_utf8_lossy(&given);
    let mut lines = text.split_inclusive('\n');
    let mut outcomes: Vec<Outcome> = wanted
        .split_inclusive('\n')
        .map(|wanted| {
            let given = lines.next().unwrap_or_default();
            let differs = apart(wanted.as_bytes(), given.as_bytes()).and_then(told);
            Outcome { met: met(wanted.trim_end()), differs }
        })
        .collect();
    if outcomes.is_empty() {
        outcomes.push(Outcome { met: Met::new("arguments", "unreadable"), differs: None });
    }
    if let (Some(more), Some(last)) = (lines.next(), outcomes.last_mut()) {
        last.differs = told(format!("a line too many, '{}'", more.trim_end()));
    }
    outcomes
}

pub fn compare(starter: &Starter, wish: &Wish, total: &mut Total) {
    let mut sources: Vec<(Source, u64)> = Vec::new();
    sources.extend((wish.from..wish.from + GOOD).map(|seed| (Source::Good(seed), seed)));
    sources.extend((wish.from..wish.from + DAMAGED).map(|seed| (Source::Damaged(seed), seed)));
    // The most cells that it takes, 4,096, and 4,100.
    sources.extend([(Source::Solid([16; 3]), 0), (Source::Solid([10, 41, 10]), 0)]);
    let title = format!(
        "gridread on {GOOD} good records, {REQUESTS} readings of each, and {DAMAGED} damaged ones, seeds from {}",
        wish.from
    );
    total.compare(&title, wish, sources.len(), ANSWERS, |number| {
        let (source, seed) = sources[number];
        let bytes = source.bytes();
        let asked = some(&mut Random::new(seed), &good(seed), REQUESTS);
        outcomes(starter, &source.to_string(), &words(&asked), &bytes, &gridread(&bytes, &asked))
    });

    let title = format!("gridread on {SPOILT} lists of arguments with one spoilt, seeds from {}", wish.from);
    let wanted: &Wanted = &[("arguments", &["unreadable"]), ("place", &["cell"])];
    total.compare(&title, wish, SPOILT as usize, wanted, |number| {
        let seed = wish.from + number as u64;
        let scene = good(seed);
        let bytes = scene.record();
        let arguments = spoilt(&mut Random::new(!seed), &scene);
        let read = requests(&arguments.iter().map(String::as_str).collect::<Vec<&str>>());
        let wanted = read.map(|requests| gridread(&bytes, &requests)).unwrap_or_default();
        outcomes(starter, &format!("good seed {seed}, {arguments:?}"), &arguments, &bytes, &wanted)
    });
}
