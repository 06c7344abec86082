// skw check: whether a record is accepted, and what it says of its grid.

use skwarzyna::spelling::{counted, thousandths};

use super::Command;
use crate::arguments::{Arguments, OUTPUT, QUIET};
use crate::failure::Failure;
use crate::records;

pub const COMMAND: Command = Command {
    name: "check",
    usage: "[FILE] [-o FILE] [-q]",
    summary: "whether a record is accepted; if so, its sides and settings",
    help: "\
Reads a record, which the library tests to the last byte, and tells its sides
and settings. What is refused is told by number and place.

    skw check sump.rec
    skw check -q sump.rec && echo good      by the status alone",
    choices: &[OUTPUT, QUIET],
    act,
};

fn act(mut arguments: Arguments) -> Result<(), Failure> {
    let quiet = arguments.has(&QUIET);
    let (input, output) = (arguments.input()?, arguments.output(false)?);
    let (record, bytes) = records::read(&input)?;
    let check = record.grid.check();
    check.map_err(|refusal| records::refused(&record, refusal))?;
    if quiet {
        return Ok(());
    }
    let (sides, settings, site) = (record.grid.sides(), record.settings, record.site);
    let [x, y, z] = [site.origin.x, site.origin.y, site.origin.z].map(thousandths);
    output.print(&format!(
        "accepted: a good state in {} bytes\n\
         sides    {} x {} x {}, {} cells\n\
         edge     {} mm\n\
         origin   x {x}, y {y}, z {z} m\n\
         p        {} of 1,024\n\
         gravity  {}, {}, {} of 1,048,576 cells per step and step\n",
        counted(bytes.len()),
        sides.nx,
        sides.ny,
        sides.nz,
        counted(record.grid.state().flags.len()),
        site.edge,
        settings.p,
        settings.gx,
        settings.gy,
        settings.gz,
    ))
}
