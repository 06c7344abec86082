// skw flume water: the water balance of a record of the flume, to the unit.

use skwarzyna::drawing::{flume_balance, table};

use crate::arguments::{Arguments, OUTPUT};
use crate::commands::Command;
use crate::failure::Failure;
use crate::flumes;

pub const COMMAND: Command = Command {
    name: "flume water",
    usage: "[FILE] [-o FILE]",
    summary: "its water balance, to the unit",
    help: "\
Counts the cells of each kind, and the water in fluid cells, in interface cells
and in the carry: together the total, which no step changes by one unit. Litres
are per metre of the section's width, by the edge of a cell, to the nearest
millilitre.

    skw flume water weir.rec
    skw flume run 1000 weir.rec | skw flume water   the same total",
    choices: &[OUTPUT],
    act,
};

fn act(mut arguments: Arguments) -> Result<(), Failure> {
    let (input, output) = (arguments.input()?, arguments.output(false)?);
    let (flume, _) = flumes::read(&input)?;
    output.print(&table(&flume_balance(&flume)))
}
