// skw flume mirror: a flume mirrored in an axis.

use skwarzyna::flume::Axis;
use skwarzyna::spelling::grouped;

use crate::arguments::{Arguments, OUTPUT, QUIET};
use crate::commands::Command;
use crate::failure::{remark, Failure};
use crate::flumes;

pub const COMMAND: Command = Command {
    name: "flume mirror",
    usage: "x|z [FILE] [-o FILE] [-q]",
    summary: "mirror it in an axis, gravity with it",
    help: "\
Mirrors a flume in an axis: what stands in a cell goes to the cell as far from
the other end, its parts with their directions. Gravity's component along the axis
changes its sign; p, edge and origin and the carry stay. Mirrored once more it is
the same record. As long as no cell is filled or emptied, the mirrored flume does
what the flume does, mirrored.

    skw flume mirror x weir.rec -o riew.rec
    skw flume run 100 weir.rec | skw flume mirror x | skw flume draw --text",
    choices: &[OUTPUT, QUIET],
    act,
};

const AXES: [(&str, Axis); 2] = [("x", Axis::X), ("z", Axis::Z)];

fn act(mut arguments: Arguments) -> Result<(), Failure> {
    let axis = arguments.one_of("the axis", &AXES)?;
    let (input, output) = (arguments.input()?, arguments.output(true)?);
    output.ready()?;
    let (flume, _) = flumes::read(&input)?;
    let mirrored = flume.mirrored(axis).map_err(|refusal| flumes::refused(&flume, refusal))?;
    output.put(&mirrored.to_record().map_err(|refusal| flumes::refused(&mirrored, refusal))?)?;
    if !arguments.has(&QUIET) {
        remark(&format!(
            "mirrored in {}; gravity is {}, {}; water {} units",
            if axis == Axis::X { "x" } else { "z" },
            grouped(mirrored.settings.gx),
            grouped(mirrored.settings.gz),
            grouped(mirrored.total())
        ));
    }
    Ok(())
}
