// skw depths: the depth map of a record, as the text that surveyors hand each other.

use super::Command;
use crate::arguments::{Arguments, OUTPUT};
use crate::failure::Failure;
use crate::records;

pub const COMMAND: Command = Command {
    name: "depths",
    usage: "[FILE] [-o FILE]",
    summary: "the depth map as an ASCII grid, in millimetres",
    help: "\
Writes the depth of every column as an ASCII grid, which GDAL, QGIS and the like
read: six header lines, then a row a line from north to south. Depths are whole
millimetres, rounded down, 0 where it is dry; -9999 is a column that is all wall,
as all around. Corner and cell size are in metres.

    skw depths sump.rec -o sump.asc
    gdalinfo -stats sump.asc",
    choices: &[OUTPUT],
    act,
};

fn act(mut arguments: Arguments) -> Result<(), Failure> {
    let (input, output) = (arguments.input()?, arguments.output(false)?);
    output.ready()?;
    let (record, _) = records::read(&input)?;
    let map = record.grid.depth_map(record.site);
    output.print(&map.map_err(|refusal| records::refused(&record, refusal))?)
}
