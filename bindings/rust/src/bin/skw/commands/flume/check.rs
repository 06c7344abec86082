// skw flume check: whether a record of the flume is accepted, and what it says of its section.

use skwarzyna::spelling::{counted, thousandths};

use crate::arguments::{Arguments, OUTPUT, QUIET};
use crate::commands::Command;
use crate::failure::Failure;
use crate::flumes;

pub const COMMAND: Command = Command {
    name: "flume check",
    usage: "[FILE] [-o FILE] [-q]",
    summary: "whether a record of the flume is accepted",
    help: "\
Reads a record of the flume, a section in two dimensions, which the library
tests to the last byte, and tells its sides and settings. What is refused is
told by number and place.

    skw flume check weir.rec
    skw flume check -q weir.rec && echo good    by the status alone",
    choices: &[OUTPUT, QUIET],
    act,
};

fn act(mut arguments: Arguments) -> Result<(), Failure> {
    let quiet = arguments.has(&QUIET);
    let (input, output) = (arguments.input()?, arguments.output(false)?);
    let (flume, bytes) = flumes::read(&input)?;
    flume.check().map_err(|refusal| flumes::refused(&flume, refusal))?;
    if quiet {
        return Ok(());
    }
    let (sides, settings, origin) = (flume.sides(), flume.settings, flume.origin());
    let [x, z] = [origin.x, origin.z].map(thousandths);
    output.print(&format!(
        "accepted: a good state of a flume in {} bytes\n\
         sides    {} x {}, {} cells\n\
         edge     {} mm\n\
         origin   x {x}, z {z} m\n\
         p        {} of 1,024\n\
         gravity  {}, {} of 1,048,576 cells per step and step\n",
        counted(bytes.len()),
        sides.nx,
        sides.nz,
        counted(flume.flags().len()),
        flume.edge(),
        settings.p,
        settings.gx,
        settings.gz,
    ))
}
