// skw place: the cell that holds a survey point.

use skwarzyna::Point;

use super::Command;
use crate::arguments::{Arguments, OUTPUT};
use crate::failure::Failure;
use crate::records;

pub const COMMAND: Command = Command {
    name: "place",
    usage: "X Y Z [FILE] [-o FILE]",
    summary: "the cell that holds a survey point in millimetres",
    help: "\
Answers the number of the cell that holds the survey point, and where in the
grid that cell lies. Coordinates are whole millimetres.

    skw place 5200000149 5400000000 118050 sump.rec
    cell 194: x 2, y 0, z 1",
    choices: &[OUTPUT],
    act,
};

fn act(mut arguments: Arguments) -> Result<(), Failure> {
    let (x, y, z) = (arguments.number("X")?, arguments.number("Y")?, arguments.number("Z")?);
    let (input, output) = (arguments.input()?, arguments.output(false)?);
    let (record, _) = records::read(&input)?;
    let cell = record.grid.place(record.site, Point::new(x, y, z));
    let cell = cell.map_err(|refusal| records::refused(&record, refusal))?;
    let (x, y, z) = record.grid.sides().position(cell);
    output.print(&format!("cell {cell}: x {x}, y {y}, z {z}\n"))
}
