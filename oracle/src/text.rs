// What the programs print: gridstep's text, and the lines of gridrun and gridread.

use std::str::FromStr;

use crate::grid::Refusal;
use crate::readings::{cell_point, depth, place, Depth};
use crate::record::{read_within, write};
use crate::run::run;
use crate::sets::{Set, Store};
use crate::state::{State, EMPTY, FLUID, INTERFACE, WALL};
use crate::step::step;

/// The most bytes gridstep takes, and the most cells it has room for.
pub const GRIDSTEP_BYTES: usize = 65_536;
pub const GRIDSTEP_ROOM: usize = 862;

/// The most cells gridrun and gridread have room for.
pub const ROOM: usize = 4096;

/// The one line of a refused record.
pub fn refused_record(refusal: Refusal) -> String {
    format!("record {} {}\n", refusal.number, refusal.place)
}

/// Number and place, 0 0 if nothing was refused.
fn number_and_place(refusal: Option<Refusal>) -> String {
    refusal.map_or("0 0".to_string(), |refusal| format!("{} {}", refusal.number, refusal.place))
}

fn tally(set: Set) -> String {
    let count = |wanted: u8| set.flags.iter().filter(|&&flag| flag == wanted).count();
    let total = State::of(set).total();
    let [fluid, interface, empty, wall] = [FLUID, INTERFACE, EMPTY, WALL].map(count);
    format!("{fluid} {interface} {empty} {wall} {total} {}", set.carry[0])
}

/// Where a record's water is, in the unit of its masses: in fluid cells, in interface cells, the carry, all together, poured, taken, and the balance.
pub fn water(bytes: &[u8]) -> String {
    let (reading, store) = match read_within(bytes, usize::MAX) {
        Ok(accepted) => accepted,
        Err(refusal) => return refused_record(refusal),
    };
    let within = |wanted: u8| -> i128 {
        let cells = reading.flags.iter().zip(&store.masses).filter(|(flag, _)| **flag == wanted);
        cells.map(|(_, &mass)| i128::from(mass)).sum()
    };
    let [carry, poured, taken] = [0, 1, 2].map(|k| i128::from(store.carry[k]));
    let (fluid, interface) = (within(FLUID), within(INTERFACE));
    let total = fluid + interface + carry;
    format!("{fluid} {interface} {carry} {total} {poured} {taken} {}\n", total + taken - poured)
}

/// gridstep's whole output for the bytes on its standard input.
pub fn gridstep(bytes: &[u8]) -> String {
    if bytes.len() > GRIDSTEP_BYTES {
        return refused_record(Refusal { number: 10, place: GRIDSTEP_BYTES as u64 });
    }
    let (reading, first) = match read_within(bytes, GRIDSTEP_ROOM) {
        Ok(accepted) => accepted,
        Err(refusal) => return refused_record(refusal),
    };
    let n = first.flags.len();
    let (mut second, mut marks) = (Store::blank(n), vec![0; n]);
    let (p, gravity) = (reading.settings.p, reading.settings.gravity);
    let answer = step(reading.sides, p, gravity, first.lend(), second.lend_mut(), &mut marks);
    format!(
        "before {}\nstep {}\nafter {}\n",
        tally(first.lend()),
        number_and_place(answer.err()),
        tally(second.lend())
    )
}

/// A number of digits alone, with a sign before them where one may stand.
fn number<T: FromStr>(word: &str, signed: bool) -> Option<T> {
    let digits = word.strip_prefix('-').filter(|_| signed).unwrap_or(word);
    let spelled = word.len() <= 64 && !digits.is_empty() && digits.bytes().all(|byte| byte.is_ascii_digit());
    word.parse().ok().filter(|_| spelled)
}

/// The number of steps that gridrun's argument asks for.
pub fn steps_asked(word: &str) -> Option<u32> {
    number(word, false)
}

/// gridrun's whole output: a line, then the record of the state reached unless the run was refused.
pub fn gridrun(bytes: &[u8], steps: u32) -> Vec<u8> {
    let (reading, mut first) = match read_within(bytes, ROOM) {
        Ok(accepted) => accepted,
        Err(refusal) => return refused_record(refusal).into_bytes(),
    };
    let n = first.flags.len();
    let (mut second, mut marks) = (Store::blank(n), vec![0; n]);
    let settings = reading.settings;
    let outcome = run(
        reading.sides,
        settings.p,
        settings.gravity,
        steps,
        first.lend_mut(),
        second.lend_mut(),
        &mut marks,
    );
    let mut output = format!("run {} {}\n", outcome.count, number_and_place(outcome.refusal)).into_bytes();
    if outcome.refusal.is_none_or(|refusal| matches!(refusal.number, 7 | 8)) {
        // Enough for n cells that are all interface.
        let mut room = vec![0; 92 + 81 * n];
        if let Ok(length) = write(reading.sides, &settings, reading.origin, first.lend(), &mut room) {
            output.extend(&room[..length]);
        }
    }
    output
}

/// A request to gridread.
#[derive(Clone, Copy, Debug, PartialEq, Eq)]
pub enum Request {
    Place([i64; 3]),
    Point(u64),
    Depth(u64, u64),
}

impl Request {
    /// The arguments that ask for it.
    pub fn words(&self) -> Vec<String> {
        let (name, numbers) = match self {
            Request::Place(point) => ("place", point.map(|number| number.to_string()).to_vec()),
            Request::Point(cell) => ("point", vec![cell.to_string()]),
            Request::Depth(x, y) => ("depth", vec![x.to_string(), y.to_string()]),
        };
        [vec![name.to_string()], numbers].concat()
    }
}

/// The requests that gridread's arguments make; none where one cannot be read, or where there is none.
pub fn requests(mut arguments: &[&str]) -> Option<Vec<Request>> {
    let mut requests = Vec::new();
    while !arguments.is_empty() {
        let (request, rest) = match arguments {
            ["place", x, y, z, rest @ ..] => {
                (Request::Place([number(x, true)?, number(y, true)?, number(z, true)?]), rest)
            }
            ["point", cell, rest @ ..] => (Request::Point(number(cell, false)?), rest),
            ["depth", x, y, rest @ ..] => (Request::Depth(number(x, false)?, number(y, false)?), rest),
            _ => return None,
        };
        requests.push(request);
        arguments = rest;
    }
    (!requests.is_empty()).then_some(requests)
}

/// gridread's whole output, a line for each request.
pub fn gridread(bytes: &[u8], requests: &[Request]) -> String {
    let (reading, store) = match read_within(bytes, ROOM) {
        Ok(accepted) => accepted,
        Err(refusal) => return refused_record(refusal),
    };
    let sides = reading.sides;
    let answer = |request: &Request| match *request {
        Request::Place(point) => {
            place(sides, reading.settings.edge, reading.origin, point).map(|cell| format!("cell {cell}"))
        }
        Request::Point(cell) => cell_point(sides, &store.fills, cell).map(|point| {
            let [x, y, z] = point.halves;
            format!("{x}/2 {y}/2 {z}/2 {}/65536", point.fill)
        }),
        Request::Depth(x, y) => depth(sides, &store.flags, &store.fills, x, y).map(|depth| match depth {
            Depth::Solid => "solid".to_string(),
            Depth::Dry => "dry".to_string(),
            Depth::Deep(sum) => format!("{sum}/65536"),
        }),
    };
    let line = |request: &Request| {
        let told = answer(request).unwrap_or_else(|refusal| number_and_place(Some(refusal)));
        format!("{} {told}\n", request.words()[0])
    };
    requests.iter().map(line).collect()
}
