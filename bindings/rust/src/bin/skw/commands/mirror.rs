// skw mirror: the grid mirrored in an axis.

use skwarzyna::spelling::grouped;
use skwarzyna::{Axis, Record};

use super::Command;
use crate::arguments::{Arguments, OUTPUT, QUIET};
use crate::failure::{remark, Failure};
use crate::records;

pub const COMMAND: Command = Command {
    name: "mirror",
    usage: "x|y|z [FILE] [-o FILE] [-q]",
    summary: "mirror the grid in an axis, gravity with it",
    help: "\
Mirrors the grid in an axis: what stands in a cell goes to the cell as far from
the other end, its parts with their directions. Gravity's component along the axis
changes its sign; p, edge and origin, the carry, poured and taken stay. Mirrored
once more it is the same record. As long as no cell is filled or emptied, the
mirrored grid does what the grid does, mirrored.

    skw mirror x left.rec -o right.rec
    skw run 100 left.rec | skw mirror x | skw check",
    choices: &[OUTPUT, QUIET],
    act,
};

const AXES: [(&str, Axis); 3] = [("x", Axis::X), ("y", Axis::Y), ("z", Axis::Z)];

fn act(mut arguments: Arguments) -> Result<(), Failure> {
    let axis = arguments.one_of("the axis", &AXES)?;
    let (input, output) = (arguments.input()?, arguments.output(true)?);
    output.ready()?;
    let (record, _) = records::read(&input)?;
    let grid = record.grid.mirrored(axis).map_err(|refusal| records::refused(&record, refusal))?;
    let mirrored = Record { grid, settings: record.settings.mirrored(axis), site: record.site };
    records::write(&mirrored, &output)?;
    if !arguments.has(&QUIET) {
        let settings = mirrored.settings;
        remark(&format!(
            "mirrored in {}; gravity is {}, {}, {}; balance {} units",
            AXES[axis as usize].0,
            grouped(settings.gx),
            grouped(settings.gy),
            grouped(settings.gz),
            grouped(mirrored.grid.water().balance())
        ));
    }
    Ok(())
}
