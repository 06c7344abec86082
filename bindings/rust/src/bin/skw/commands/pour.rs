// skw pour: pour an amount into a cell of the surface.

use skwarzyna::spelling::grouped;

use super::Command;
use crate::arguments::{Arguments, OUTPUT, QUIET};
use crate::failure::{remark, Failure};
use crate::records;

pub const COMMAND: Command = Command {
    name: "pour",
    usage: "CELL AMOUNT [FILE] [-o FILE] [-q]",
    summary: "pour an amount into a cell of the surface",
    help: "\
Pours an amount into interface cell CELL and writes the record of the grid after it.
The amount is in the unit of the masses, 589,824 to a full cell, 1 to 589,824 at a
time. What was poured, the cell's water and the balance are told.

    skw pour 194 5000 sump.rec -o sump.rec",
    choices: &[OUTPUT, QUIET],
    act,
};

fn act(mut arguments: Arguments) -> Result<(), Failure> {
    let (cell, amount) = (arguments.number("CELL")?, arguments.number("AMOUNT")?);
    let (input, output) = (arguments.input()?, arguments.output(true)?);
    output.ready()?;
    let (mut record, _) = records::read(&input)?;
    let moved = record.grid.pour(cell, amount).map_err(|refusal| records::refused(&record, refusal))?;
    records::write(&record, &output)?;
    if !arguments.has(&QUIET) {
        let (left, balance) = (record.grid.state().masses[cell], record.grid.water().balance());
        remark(&format!(
            "{} units poured; cell {cell} holds {}; balance {} units",
            grouped(moved),
            grouped(left),
            grouped(balance)
        ));
    }
    Ok(())
}
