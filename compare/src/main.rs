// The comparison: the proved programs and the proved library beside the independent program, by seed. Status 1 if anything differs.

mod flume;
mod heights;
mod lengths;
mod library;
mod mirror;
mod pools;
mod profile;
mod programs;
// One extern block for all who call the library.
#[path = "../../bindings/rust/src/raw.rs"]
mod raw;
mod report;
mod schemes;
mod small;
mod source;

use std::process::ExitCode;

use programs::{gridread, gridrun, gridstep, Starter};
use report::{Total, Wish};

const USAGE: &str = "compare [--from SEED] [--first] [PART...], from the top of the repository
  PART      gridstep, gridrun, gridread, library, profile, pools, schemes, heights, mirror, flume or flumemirror; all if not said
  --from    the first seed, 0 if not said
  --first   stop at the first difference";

/// A program or a part of the library, by its name.
#[derive(Clone, Copy)]
enum Part {
    Program(&'static str, fn(&Starter, &Wish, &mut Total)),
    Library(&'static str, fn(&Wish, &mut Total)),
}

const PARTS: [Part; 11] = [
    Part::Program("gridstep", gridstep::compare),
    Part::Program("gridrun", gridrun::compare),
    Part::Program("gridread", gridread::compare),
    Part::Library("library", library::compare),
    Part::Library("profile", profile::compare),
    Part::Library("pools", pools::compare),
    Part::Library("schemes", schemes::compare),
    Part::Library("heights", heights::compare),
    Part::Library("mirror", mirror::compare),
    Part::Library("flume", flume::compare),
    Part::Library("flumemirror", flume::mirrored::compare),
];

impl Part {
    fn name(self) -> &'static str {
        match self {
            Part::Program(name, _) | Part::Library(name, _) => name,
        }
    }
}

fn wish(mut words: impl Iterator<Item = String>) -> Option<(Wish, Vec<Part>)> {
    let mut wish = Wish { from: 0, first: false };
    let mut parts = Vec::new();
    while let Some(word) = words.next() {
        match word.as_str() {
            "--from" => wish.from = words.next()?.parse().ok()?,
            "--first" => wish.first = true,
            name => parts.push(*PARTS.iter().find(|part| part.name() == name)?),
        }
    }
    if parts.is_empty() {
        parts = PARTS.to_vec();
    }
    Some((wish, parts))
}

/// All parts, once everything they need is there.
fn compare(wish: &Wish, parts: &[Part]) -> Result<Total, String> {
    let starter = Starter::find()?;
    for part in parts {
        if let Part::Program(program, _) = part {
            starter.has(program)?;
        }
    }
    let mut total = Total::default();
    for part in parts {
        match part {
            Part::Program(_, compare) => compare(&starter, wish, &mut total),
            Part::Library(_, compare) => compare(wish, &mut total),
        }
    }
    Ok(total)
}

fn main() -> ExitCode {
    let Some((wish, parts)) = wish(std::env::args().skip(1)) else {
        eprintln!("{USAGE}");
        return ExitCode::from(2);
    };
    match compare(&wish, &parts) {
        Ok(total) => total.tell(),
        Err(error) => {
            eprintln!("compare: {error}");
            ExitCode::from(2)
        }
    }
}
