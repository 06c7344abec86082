// skw flume step: one step of a flume.

use crate::arguments::{Arguments, OUTPUT, QUIET, TURBULENT};
use crate::commands::Command;
use crate::failure::Failure;
use crate::{flumes, running};

pub const COMMAND: Command = Command {
    name: "flume step",
    usage: "[FILE] [--turbulent] [-o FILE] [-q]",
    summary: "make one step of it with its own settings",
    help: "\
Makes one step of a flume with the record's own settings and writes the record
of the state reached. A refused step (7 or 8) leaves the state as it was: that is
written, the refusal is told, and the status is 1. With --turbulent it is a step
of the turbulent mode, as skw help flume run says.

    skw flume step weir.rec -o next.rec
    skw flume step < weir.rec | skw flume step | skw flume water",
    choices: &[TURBULENT, OUTPUT, QUIET],
    act,
};

fn act(arguments: Arguments) -> Result<(), Failure> {
    running::steps(arguments, 1, |input| Ok(flumes::read(input)?.0))
}
