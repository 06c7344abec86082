// skw point: a cell's kind, centre and fill.

use skwarzyna::spelling::grouped;
use skwarzyna::FULL;

use super::Command;
use crate::arguments::{Arguments, OUTPUT};
use crate::failure::Failure;
use crate::records;

pub const COMMAND: Command = Command {
    name: "point",
    usage: "C [FILE] [-o FILE]",
    summary: "where cell C lies, its kind, fill and water",
    help: "\
Tells where cell C lies, what it is, its centre in cells from the grid's corner,
its fill and its water.

    skw point 194 sump.rec",
    choices: &[OUTPUT],
    act,
};

/// By flag.
const KINDS: [&str; 4] = ["empty", "interface", "fluid", "wall"];

fn act(mut arguments: Arguments) -> Result<(), Failure> {
    let cell = arguments.number("C")?;
    let (input, output) = (arguments.input()?, arguments.output(false)?);
    let (record, _) = records::read(&input)?;
    let point = record.grid.point(cell).map_err(|refusal| records::refused(&record, refusal))?;
    let (x, y, z) = record.grid.sides().position(cell);
    let state = record.grid.state();
    output.print(&format!(
        "cell {cell}: x {x}, y {y}, z {z}\n\
         kind     {}\n\
         centre   {} {} {} cells from the corner\n\
         fill     {:.6}, {} of {}\n\
         water    {} units\n",
        KINDS[usize::from(state.flags[cell])],
        point.x,
        point.y,
        point.z,
        point.fill,
        grouped(state.fills[cell]),
        grouped(FULL),
        grouped(state.masses[cell]),
    ))
}
