// skw step: one step.

use super::Command;
use crate::arguments::{Arguments, OUTPUT, QUIET, TURBULENT};
use crate::failure::Failure;
use crate::{records, running};

pub const COMMAND: Command = Command {
    name: "step",
    usage: "[FILE] [--turbulent] [-o FILE] [-q]",
    summary: "make one step with the record's own settings",
    help: "\
Makes one step with the record's own settings and writes the record of the state
reached. A refused step (7 or 8) leaves the state as it was: that is written, the
refusal is told, and the status is 1. With --turbulent it is a step of the
turbulent mode, as skw help run says.

    skw step sump.rec -o next.rec
    skw step < sump.rec | skw step | skw water",
    choices: &[TURBULENT, OUTPUT, QUIET],
    act,
};

fn act(arguments: Arguments) -> Result<(), Failure> {
    running::steps(arguments, 1, |input| Ok(records::read(input)?.0))
}
