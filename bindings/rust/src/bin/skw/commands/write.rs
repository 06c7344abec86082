// skw write: a record read and written back.

use super::Command;
use crate::arguments::{Arguments, OUTPUT};
use crate::failure::Failure;
use crate::records;

pub const COMMAND: Command = Command {
    name: "write",
    usage: "[FILE] [-o FILE]",
    summary: "read a record and write it back",
    help: "\
Reads a record and writes what was read. An accepted record comes back as the
same bytes, or, where it has the carry alone in section 4, with poured and taken
as 0 beside it; a refused one not at all, so that what lies behind this in a pipe
gets whole records only.

    skw write sump.rec | cmp - sump.rec
    skw write arriving.rec -o sump.rec      only if it is accepted",
    choices: &[OUTPUT],
    act,
};

fn act(mut arguments: Arguments) -> Result<(), Failure> {
    let (input, output) = (arguments.input()?, arguments.output(true)?);
    output.ready()?;
    let (record, _) = records::read(&input)?;
    records::write(&record, &output)
}
