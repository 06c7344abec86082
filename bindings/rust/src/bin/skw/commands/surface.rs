// skw surface: the interface cells, by the index of the surface.

use skwarzyna::spelling::counted;

use super::Command;
use crate::arguments::{Arguments, Choice, OUTPUT};
use crate::failure::Failure;
use crate::records;

const FROM: Choice = Choice { name: "from", letter: Some('f'), value: Some("C"), help: "begin at cell C" };
const NUMBER: Choice =
    Choice { name: "number", letter: Some('n'), value: None, help: "say how many there are, and no more" };

pub const COMMAND: Command = Command {
    name: "surface",
    usage: "[FILE] [-f C] [-n] [-o FILE]",
    summary: "the interface cells: how many, and where",
    help: "\
Counts the interface cells, where water meets air, and tells them in rising
order, a line each: cell, x, y, z, and its fill in 65,536ths. The index of the
surface finds them; the grid is not walked.

    skw surface sump.rec
    skw surface -n sump.rec
    skw surface -f 4096 sump.rec            those from cell 4096 on",
    choices: &[FROM, NUMBER, OUTPUT],
    act,
};

/// "1 interface cell", "2 interface cells".
fn told(cells: usize) -> String {
    format!("{} interface cell{}", counted(cells), if cells == 1 { "" } else { "s" })
}

fn act(mut arguments: Arguments) -> Result<(), Failure> {
    let start = arguments.chosen(&FROM)?.unwrap_or(0);
    let (number, input, output) = (arguments.has(&NUMBER), arguments.input()?, arguments.output(false)?);
    let (record, _) = records::read(&input)?;
    let grid = &record.grid;
    let found: Vec<usize> =
        grid.surface(start).map_err(|refusal| records::refused(&record, refusal))?.collect();
    let (flags, fills) = (grid.state().flags, grid.state().fills);
    let all = format!("{} of {} cells", told(grid.surface_count()), counted(flags.len()));
    let mut text = match start {
        0 => format!("{all}\n"),
        _ => format!("{all}, {} from cell {start} on\n", counted(found.len())),
    };
    if !number && !found.is_empty() {
        text += "    cell    x    y    z   fill\n";
        for cell in found {
            let (x, y, z) = grid.sides().position(cell);
            text += &format!("{cell:8} {x:4} {y:4} {z:4} {:6}\n", fills[cell]);
        }
    }
    output.print(&text)
}
