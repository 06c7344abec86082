// Why a command did not do all that it was asked, and the status that it ends with.

use std::io::{stderr, Write};
use std::process::ExitCode;

/// What is told on standard error, or nothing, and a status each.
#[derive(Debug)]
pub enum Failure {
    /// The library refused: 1.
    Refused(String),
    /// The arguments cannot be understood: 2.
    Usage(String),
    /// A file cannot be read or written: 3.
    Trouble(String),
    /// Whoever read standard output has closed it, and knows: 3, without a word.
    Closed,
    /// Ended by a signal, with what was reached written: 128 and the signal's number, as a shell has it.
    Interrupted(String, u8),
}

impl Failure {
    /// With the command's name before it.
    pub fn of(self, command: &str) -> Failure {
        let say = |text: String| format!("skw {command}: {text}");
        match self {
            Failure::Refused(text) => Failure::Refused(say(text)),
            Failure::Usage(text) => Failure::Usage(say(text)),
            Failure::Trouble(text) => Failure::Trouble(say(text)),
            Failure::Closed => Failure::Closed,
            Failure::Interrupted(text, signal) => Failure::Interrupted(say(text), signal),
        }
    }

    /// Tells it and answers the status.
    pub fn told(self) -> ExitCode {
        let (text, status) = match self {
            Failure::Refused(text) => (text, 1),
            Failure::Usage(text) => (text, 2),
            Failure::Trouble(text) => (text, 3),
            Failure::Closed => return ExitCode::from(3),
            Failure::Interrupted(text, signal) => (text, 128 + signal),
        };
        remark(&text);
        ExitCode::from(status)
    }
}

/// A line on standard error; where that is closed there is nobody to tell.
pub fn remark(text: &str) {
    let _ = writeln!(stderr(), "{}", text.trim_end());
}
