// What skw says of itself.

use std::ffi::{OsStr, OsString};

use crate::arguments::{Arguments, Choice};
use crate::commands::{found, under, Command, COMMANDS};
use crate::failure::Failure;
use crate::files::print;

const ABOUT: &str = "skw: water in a grid of cells, by the proved library, to the unit";
const FILES: &str = "\
A record is read from FILE, or from standard input where there is none or a dash.
A record or picture goes to standard output, or with -o to a file, which is then
whole or as it was. What is refused is told on standard error.

status  0 accepted          1 refused, by the library
        2 usage             3 a file cannot be read or written
        130 interrupted: what was reached is written";

pub fn version() -> String {
    format!("skw {}\n", env!("CARGO_PKG_VERSION"))
}

pub fn usage(command: &Command) -> String {
    format!("usage: skw {} {}\nskw {} --help says more", command.name, command.usage, command.name)
}

/// For one who said nothing.
pub fn short() -> String {
    let mut names: Vec<_> = COMMANDS.iter().filter_map(|command| command.name.split(' ').next()).collect();
    names.dedup();
    format!("usage: skw {} ...\nskw help says more", names.join("|"))
}

/// For one who said the first of two words, and no second that is known.
fn shorter(group: &OsStr) -> String {
    let names: Vec<_> = under(group).iter().filter_map(|command| command.name.split(' ').nth(1)).collect();
    let group = group.to_string_lossy();
    format!("usage: skw {group} {} ...\nskw help {group} says more", names.join("|"))
}

/// Words that begin with no command: help, where that is what is wanted of a word that several begin with, else what there is.
pub fn not_found(words: &[OsString]) -> Result<(), Failure> {
    let [group, rest @ ..] = words else { return Err(Failure::Usage(short())) };
    if under(group).is_empty() {
        return Err(Failure::Usage(unknown(group)));
    }
    if Arguments::ask_for_help(rest) {
        return print(&list(group));
    }
    Err(Failure::Usage(match rest {
        [] => shorter(group),
        [word, ..] => {
            let (group_name, word) = (group.to_string_lossy(), word.to_string_lossy());
            format!("skw {group_name}: there is no command '{group_name} {word}'\n{}", shorter(group))
        }
    }))
}

fn unknown(word: &OsStr) -> String {
    format!("skw: there is no command '{}'\n{}", word.to_string_lossy(), short())
}

/// All commands, a line each, with the words that they must have.
pub fn all() -> String {
    let mut text = format!("{ABOUT}\n\n");
    COMMANDS.iter().for_each(|command| text += &line(command));
    text += "\n    skw help COMMAND, skw COMMAND --help, skw --version\n\n";
    text + FILES + "\n"
}

fn line(command: &Command) -> String {
    let needed = command.usage.split('[').next().unwrap_or("").trim_end();
    format!("    skw {:<14} {}\n", format!("{} {needed}", command.name).trim_end(), command.summary)
}

/// The commands that begin with a word, a line each.
fn list(group: &OsStr) -> String {
    let lines: String = under(group).iter().map(|command| line(command)).collect();
    format!("{lines}\n    skw {} COMMAND --help\n\n{FILES}\n", group.to_string_lossy())
}

/// One command.
pub fn of(command: &Command) -> String {
    let mut text = format!("skw {} {}\n\n{}\n", command.name, command.usage, command.help);
    if !command.choices.is_empty() {
        text += "\n";
    }
    for Choice { name, letter, value, help } in command.choices {
        let letter = letter.map(|letter| format!("-{letter}, ")).unwrap_or_default();
        let value = value.map(|value| format!(" {value}")).unwrap_or_default();
        text += &format!("    {:<24} {help}\n", format!("{letter}--{name}{value}"));
    }
    text + "\n" + FILES + "\n"
}

/// `skw help`, with or without a command behind it.
pub fn asked(words: &[OsString]) -> Result<String, Failure> {
    match (words, found(words)) {
        ([], _) => Ok(all()),
        (_, Some((command, []))) => Ok(of(command)),
        ([group], None) if !under(group).is_empty() => Ok(list(group)),
        ([name], None) => Err(Failure::Usage(unknown(name))),
        ([group, _], None) if !under(group).is_empty() => Err(Failure::Usage(shorter(group))),
        _ => Err(Failure::Usage("usage: skw help [COMMAND]".into())),
    }
}
