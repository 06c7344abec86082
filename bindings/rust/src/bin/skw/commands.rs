// Every command, a file each; a new one is a file here and a line in the table.

mod check;
mod depth;
mod depths;
mod draw;
mod flume;
mod invert;
mod mirror;
mod place;
mod point;
mod pools;
mod pour;
mod profile;
mod run;
mod step;
mod surface;
mod take;
mod water;
mod write;

use std::ffi::{OsStr, OsString};

use crate::arguments::{Arguments, Choice};
use crate::failure::Failure;

/// A command as help tells it, and what it does.
pub struct Command {
    /// A word, or for the flume two.
    pub name: &'static str,
    /// What stands behind the name.
    pub usage: &'static str,
    /// A line for the list of all.
    pub summary: &'static str,
    /// What it does and answers, with examples.
    pub help: &'static str,
    pub choices: &'static [Choice],
    pub act: fn(Arguments) -> Result<(), Failure>,
}

/// In the order in which help tells them.
pub const COMMANDS: &[Command] = &[
    check::COMMAND,
    water::COMMAND,
    step::COMMAND,
    run::COMMAND,
    pour::COMMAND,
    take::COMMAND,
    mirror::COMMAND,
    write::COMMAND,
    place::COMMAND,
    point::COMMAND,
    depth::COMMAND,
    profile::COMMAND,
    surface::COMMAND,
    pools::COMMAND,
    draw::COMMAND,
    depths::COMMAND,
    invert::COMMAND,
    flume::check::COMMAND,
    flume::water::COMMAND,
    flume::step::COMMAND,
    flume::run::COMMAND,
    flume::mirror::COMMAND,
    flume::draw::COMMAND,
];

/// The command that these words begin with, and the words behind it.
pub fn found(words: &[OsString]) -> Option<(&'static Command, &[OsString])> {
    let begins = |command: &&Command| {
        let mut given = words.iter();
        command.name.split(' ').all(|word| given.next().is_some_and(|given| given == word))
    };
    let command = COMMANDS.iter().find(begins)?;
    Some((command, &words[command.name.split(' ').count()..]))
}

/// The commands whose name has this word before another.
pub fn under(word: &OsStr) -> Vec<&'static Command> {
    COMMANDS
        .iter()
        .filter(|command| command.name.split_once(' ').is_some_and(|(first, _)| word == first))
        .collect()
}
