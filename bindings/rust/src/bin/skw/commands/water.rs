// skw water: the water balance of a record, to the unit.

use skwarzyna::drawing::{balance, table};
use skwarzyna::spelling::grouped;

use super::Command;
use crate::arguments::{Arguments, OUTPUT};
use crate::failure::Failure;
use crate::records;

pub const COMMAND: Command = Command {
    name: "water",
    usage: "[FILE] [-o FILE]",
    summary: "the water balance, to the unit and in litres",
    help: "\
Counts the cells of each kind, and the water in fluid cells, in interface cells
and in the carry: together the total, which no step changes by one unit; what was
poured and what was taken; and the balance, total + taken - poured, which no step,
no pour and no take changes by one unit. Litres are by the edge of a cell, to the
nearest millilitre.

    skw water sump.rec
    skw run 1000 sump.rec | skw water       the same total",
    choices: &[OUTPUT],
    act,
};

fn act(mut arguments: Arguments) -> Result<(), Failure> {
    let (input, output) = (arguments.input()?, arguments.output(false)?);
    let (record, _) = records::read(&input)?;
    let water = record.grid.water();
    let mut lines = balance(&record.grid, record.site.edge);
    lines.extend([
        ("poured", grouped(water.poured)),
        ("taken", grouped(water.taken)),
        ("balance", grouped(water.balance())),
    ]);
    output.print(&table(&lines))
}
