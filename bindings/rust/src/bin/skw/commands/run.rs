// skw run: any number of steps.

use skwarzyna::{Mode, Record, Refusal, Stopped};

use super::Command;
use crate::arguments::{Arguments, OUTPUT, QUIET, TURBULENT};
use crate::failure::Failure;
use crate::files::Output;
use crate::running::{self, Runs};
use crate::{records, told};

pub const COMMAND: Command = Command {
    name: "run",
    usage: "K [FILE] [--turbulent] [-o FILE] [-q]",
    summary: "make K steps, any number of them",
    help: "\
Makes K steps with the record's own settings and writes the record of the state
reached. Where a step is refused (7 or 8) that is the state before it: it is
written, count and refusal are told, and the status is 1.

Ctrl-C ends the run after the steps under way: the state reached is written, the
count is told, and the status is 130. A second one ends it at once, and the file
is as it was. On a terminal a line shows the steps made, their rate and the time
left.

With --turbulent each cell is relaxed by a p of its own, which its stress takes
off the record's: water is damped where it is sheared, and kept to the unit as
well. The record does not tell the mode: say it each time.

    skw run 100000 sump.rec -o later.rec
    skw run 100000 sump.rec -o sump.rec     and so on from there
    skw run 600 --turbulent sump.rec -o later.rec
    skw run 500 < sump.rec | skw draw -o later.png",
    choices: &[TURBULENT, OUTPUT, QUIET],
    act,
};

fn act(mut arguments: Arguments) -> Result<(), Failure> {
    let steps = arguments.number("K")?;
    running::steps(arguments, steps, |input| Ok(records::read(input)?.0))
}

impl Runs for Record {
    fn run(&mut self, steps: usize, mode: Mode) -> Result<(), Stopped> {
        self.grid.run(steps, self.settings.in_mode(mode))
    }

    fn total(&self) -> i64 {
        self.grid.total()
    }

    fn write(&self, output: &Output) -> Result<(), Failure> {
        records::write(self, output)
    }

    fn told(&self, refusal: Refusal) -> String {
        told::in_grid(refusal, self.grid.sides())
    }
}
