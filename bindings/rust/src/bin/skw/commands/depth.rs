// skw depth: the depth of the water in a column.

use skwarzyna::spelling::grouped;
use skwarzyna::{Depth, FULL};

use super::Command;
use crate::arguments::{Arguments, OUTPUT};
use crate::failure::Failure;
use crate::records;

pub const COMMAND: Command = Command {
    name: "depth",
    usage: "X Y [FILE] [-o FILE]",
    summary: "the depth of the water in column X Y",
    help: "\
Tells whether column X Y is solid or dry or how deep its water is: in cells, as
65,536ths, which is exact, and in millimetres.

    skw depth 20 3 sump.rec
    2.5000 cells, 163840/65536, 125.0 mm",
    choices: &[OUTPUT],
    act,
};

fn act(mut arguments: Arguments) -> Result<(), Failure> {
    let (x, y) = (arguments.number("X")?, arguments.number("Y")?);
    let (input, output) = (arguments.input()?, arguments.output(false)?);
    let (record, _) = records::read(&input)?;
    let depth = record.grid.depth(x, y).map_err(|refusal| records::refused(&record, refusal))?;
    output.print(&match depth {
        Depth::Solid => "solid\n".to_string(),
        Depth::Dry => "dry\n".to_string(),
        Depth::Deep(cells) => {
            // Exact: the library answers whole 65,536ths.
            let parts = (cells * FULL as f32) as u32;
            let millimetres = f64::from(cells) * record.site.edge as f64;
            format!("{cells:.4} cells, {}/{FULL}, {millimetres:.1} mm\n", grouped(parts).replace(',', ""))
        }
    })
}
