// The words behind a command: its numbers, its file, and its options.

use std::collections::VecDeque;
use std::ffi::{OsStr, OsString};
use std::fmt::Display;
use std::str::FromStr;

use crate::commands::Command;
use crate::failure::Failure;
use crate::files::{Input, Output};
use crate::help;

/// Something that may be said anywhere behind the command.
pub struct Choice {
    /// Behind two dashes.
    pub name: &'static str,
    /// Behind one.
    pub letter: Option<char>,
    /// What follows it, if something does.
    pub value: Option<&'static str>,
    pub help: &'static str,
}

pub const OUTPUT: Choice = Choice {
    name: "output",
    letter: Some('o'),
    value: Some("FILE"),
    help: "write it there; this may be the file that is read",
};
pub const QUIET: Choice =
    Choice { name: "quiet", letter: Some('q'), value: None, help: "say nothing but what is refused" };
pub const TURBULENT: Choice = Choice {
    name: "turbulent",
    letter: None,
    value: None,
    help: "each cell by its own p, which stress takes off p",
};

/// What was said behind a command, by options and other words.
pub struct Arguments {
    command: &'static Command,
    words: VecDeque<OsString>,
    said: Vec<(&'static str, OsString)>,
}

/// A word that is no option: a number may begin with a dash, and a dash alone is standard input or output.
fn is_word(text: &str) -> bool {
    let mut letters = text.chars();
    letters.next() != Some('-') || letters.next().is_none_or(|second| second.is_ascii_digit())
}

impl Arguments {
    /// Whether help is what is wanted, whatever else is said.
    pub fn ask_for_help(words: &[OsString]) -> bool {
        words.iter().take_while(|word| *word != "--").any(|word| word == "--help" || word == "-h")
    }

    pub fn parse(command: &'static Command, given: &[OsString]) -> Result<Arguments, Failure> {
        let mut arguments = Arguments { command, words: VecDeque::new(), said: Vec::new() };
        let mut given = given.iter();
        while let Some(word) = given.next() {
            match word.to_str() {
                Some("--") => arguments.words.extend(given.by_ref().cloned()),
                Some(text) if !is_word(text) => {
                    arguments.option(text, &mut given)?;
                }
                _ => arguments.words.push_back(word.clone()),
            }
        }
        Ok(arguments)
    }

    /// `--name`, `--name value`, `--name=value`, `-n`, `-n value`.
    fn option<'a>(
        &mut self,
        text: &str,
        rest: &mut impl Iterator<Item = &'a OsString>,
    ) -> Result<(), Failure> {
        let (name, value) = match text.split_once('=') {
            Some((name, value)) => (name, Some(value)),
            None => (text, None),
        };
        let matches = |choice: &&Choice| match name.strip_prefix("--") {
            Some(long) => long == choice.name,
            None => choice.letter.is_some_and(|letter| name.chars().skip(1).eq([letter])),
        };
        let choice = self.command.choices.iter().find(matches);
        let choice = choice.ok_or_else(|| self.wrong(format!("there is no option {name}")))?;
        let value = match (choice.value, value) {
            (None, None) => OsString::new(),
            (None, Some(_)) => return Err(self.wrong(format!("{name} takes nothing behind it"))),
            (Some(_), Some(value)) => value.into(),
            (Some(what), None) => {
                let next = rest.next().cloned();
                next.ok_or_else(|| self.wrong(format!("{name} wants {what} behind it")))?
            }
        };
        if self.said.iter().any(|(said, _)| *said == choice.name) {
            return Err(self.wrong(format!("{name} is said twice")));
        }
        self.said.push((choice.name, value));
        Ok(())
    }

    /// A usage error of this command.
    pub fn wrong(&self, why: impl Display) -> Failure {
        Failure::Usage(format!("{why}\n{}", help::usage(self.command)))
    }

    /// Whether an option without a value was said.
    pub fn has(&self, choice: &Choice) -> bool {
        self.value(choice).is_some()
    }

    /// What was said behind an option.
    pub fn value(&self, choice: &Choice) -> Option<&OsStr> {
        let said = self.said.iter().find(|(name, _)| *name == choice.name);
        said.map(|(_, value)| value.as_os_str())
    }

    /// The next word as a whole number; what it is called is the usage's word for it.
    pub fn number<T: FromStr>(&mut self, called: &str) -> Result<T, Failure> {
        match self.words.pop_front() {
            Some(word) => self.whole(called, &word),
            None => Err(self.wrong(format!("{called} is missing"))),
        }
    }

    /// The next word as one of a few.
    pub fn one_of<T: Copy>(&mut self, called: &str, choices: &[(&str, T)]) -> Result<T, Failure> {
        let Some(word) = self.words.pop_front() else {
            return Err(self.wrong(format!("{called} is missing")));
        };
        let chosen = choices.iter().find(|(name, _)| word == *name);
        chosen.map(|(_, choice)| *choice).ok_or_else(|| {
            let names: Vec<_> = choices.iter().map(|(name, _)| *name).collect();
            let word = word.to_string_lossy();
            self.wrong(format!("{called} is to be one of {}, and '{word}' is not", names.join(", ")))
        })
    }

    /// What was said behind an option, as a whole number.
    pub fn chosen<T: FromStr>(&self, choice: &Choice) -> Result<Option<T>, Failure> {
        let called = choice.value.unwrap_or(choice.name);
        self.value(choice).map(|word| self.whole(called, word)).transpose()
    }

    fn whole<T: FromStr>(&self, called: &str, word: &OsStr) -> Result<T, Failure> {
        let text = word.to_str().unwrap_or("");
        let digits = text.strip_prefix('-').unwrap_or(text);
        let plain = !digits.is_empty() && digits.bytes().all(|byte| byte.is_ascii_digit());
        let number = if plain { text.parse().ok() } else { None };
        number.ok_or_else(|| {
            let word = word.to_string_lossy();
            self.wrong(format!("{called} is to be a whole number in range, and '{word}' is not"))
        })
    }

    /// The next word as a file to read, or a dash as standard input.
    pub fn file(&mut self, called: &str) -> Result<Input, Failure> {
        let Some(word) = self.words.pop_front() else {
            return Err(self.wrong(format!("{called} is missing")));
        };
        Input::of(Some(word))
            .ok_or_else(|| self.wrong(format!("standard input is a terminal: give {called}")))
    }

    /// The last word, if there is one: the file to read, else standard input.
    pub fn input(&mut self) -> Result<Input, Failure> {
        let file = self.words.pop_front();
        if let Some(more) = self.words.front() {
            let more = more.to_string_lossy();
            return Err(self.wrong(format!("'{more}' is one word too many")));
        }
        Input::of(file)
            .ok_or_else(|| self.wrong("standard input is a terminal: give the record's file, or < FILE"))
    }

    /// Where the result goes: a file, else standard output; bytes are not for a terminal.
    pub fn output(&self, bytes: bool) -> Result<Output, Failure> {
        let output = Output::of(self.value(&OUTPUT));
        if bytes && output.is_terminal() {
            return Err(self.wrong("the result is not text, and standard output is a terminal: say -o FILE"));
        }
        Ok(output)
    }
}
