// skw: one command over the proved library, for a person with a grid record.
//
//     skw help

mod arguments;
mod commands;
mod failure;
mod files;
mod flumes;
mod help;
mod interrupt;
mod inverts;
mod progress;
mod records;
mod running;
mod told;

use std::env::args_os;
use std::ffi::OsString;
use std::process::ExitCode;

use arguments::Arguments;
use failure::Failure;

fn main() -> ExitCode {
    let words: Vec<OsString> = args_os().skip(1).collect();
    match obey(&words) {
        Ok(()) => ExitCode::SUCCESS,
        Err(failure) => failure.told(),
    }
}

fn obey(words: &[OsString]) -> Result<(), Failure> {
    let Some((first, rest)) = words.split_first() else {
        return Err(Failure::Usage(help::short()));
    };
    match first.to_str() {
        Some("help") => files::print(&help::asked(rest)?),
        Some("-h" | "--help") => files::print(&help::all()),
        Some("-V" | "--version") => files::print(&help::version()),
        _ => {
            let Some((command, rest)) = commands::found(words) else {
                return help::not_found(words);
            };
            if Arguments::ask_for_help(rest) {
                return files::print(&help::of(command));
            }
            let done = Arguments::parse(command, rest).and_then(command.act);
            done.map_err(|failure| failure.of(command.name))
        }
    }
}
