// skw flume run: any number of steps of a flume.

use skwarzyna::{Flume, Mode, Refusal, Stopped};

use crate::arguments::{Arguments, OUTPUT, QUIET, TURBULENT};
use crate::commands::Command;
use crate::failure::Failure;
use crate::files::Output;
use crate::flumes;
use crate::running::{self, Runs};

pub const COMMAND: Command = Command {
    name: "flume run",
    usage: "K [FILE] [--turbulent] [-o FILE] [-q]",
    summary: "make K steps of it, any number of them",
    help: "\
Makes K steps of a flume with the record's own settings and writes the record of
the state reached. Where a step is refused (7 or 8) that is the state before it:
it is written, count and refusal are told, and the status is 1.

Ctrl-C ends the run after the steps under way: the state reached is written, the
count is told, and the status is 130. A second one ends it at once, and the file
is as it was. On a terminal a line shows the steps made, their rate and the time
left.

With --turbulent each cell is relaxed by a p of its own, which its stress takes
off the record's: water is damped where it is sheared, and kept to the unit as
well. The record does not tell the mode: say it each time.

    skw flume run 3000 weir.rec -o later.rec
    skw flume run 3000 --turbulent weir.rec -o later.rec
    skw flume run 500 < weir.rec | skw flume draw -o later.png",
    choices: &[TURBULENT, OUTPUT, QUIET],
    act,
};

fn act(mut arguments: Arguments) -> Result<(), Failure> {
    let steps = arguments.number("K")?;
    running::steps(arguments, steps, |input| Ok(flumes::read(input)?.0))
}

impl Runs for Flume {
    fn run(&mut self, steps: usize, mode: Mode) -> Result<(), Stopped> {
        self.mode = mode;
        Flume::run(self, steps)
    }

    fn total(&self) -> i64 {
        Flume::total(self)
    }

    fn write(&self, output: &Output) -> Result<(), Failure> {
        output.put(&self.to_record().map_err(|refusal| flumes::refused(self, refusal))?)
    }

    fn told(&self, refusal: Refusal) -> String {
        flumes::in_flume(refusal, self.sides())
    }
}
