// skw invert: the record of a dry grid from an invert, as an ASCII grid has it.

use skwarzyna::spelling::{counted, thousandths};
use skwarzyna::{Record, Refusal, Settings, EMPTY};

use super::Command;
use crate::arguments::{Arguments, Choice, OUTPUT, QUIET};
use crate::failure::{remark, Failure};
use crate::{inverts, records};

const RELAXATION: Choice = Choice {
    name: "relaxation",
    letter: Some('p'),
    value: Some("P"),
    help: "the relaxation in 1,024ths; 1600 if not said",
};
const GRAVITY: Choice = Choice {
    name: "gravity",
    letter: Some('g'),
    value: Some("X,Y,Z"),
    help: "gravity in 1,048,576ths; 0,0,-105 if not said",
};
const SOURCE: Choice = Choice {
    name: "source",
    letter: Some('s'),
    value: Some("X,Y"),
    help: "make that column's lowest open cell surface",
};
const NEAREST: Choice = Choice {
    name: "nearest",
    letter: None,
    value: None,
    help: "corner and cell size to the nearest millimetre first",
};

const STILL: i64 = 1600;
const DOWNWARDS: [i64; 3] = [0, 0, -105];

pub const COMMAND: Command = Command {
    name: "invert",
    usage: "NZ HEIGHT [FILE] [-o FILE] [-s X,Y] [-p P] [-g X,Y,Z] [-q]",
    summary: "the record of a dry grid from an ASCII grid of heights",
    help: "\
Reads an invert as an ASCII grid and writes the record of the dry grid: NZ cells
high, its origin at HEIGHT, in whole millimetres. A cell whose centre lies below
its column's height is wall, and the outer layer in any case; the rest is empty.

The text has the lines ncols, nrows, xllcorner, yllcorner, cellsize and
NODATA_value, which is -9999, then a row a line from north to south. Heights are
whole millimetres above HEIGHT, -9999 a column that is all wall; corner and cell
size are in metres, of whole millimetres. Line ends may be LF or CRLF, letters
large or small. A line that cannot be read is told by its number.

Water is poured into the surface, and a dry grid has none: -s makes a place for
it, a cell without water. Other programs may write corners as 512339.950000000012,
which is no whole number of millimetres and refused; --nearest rounds it first.

    skw invert 16 118000 gutter.asc -o gutter.rec
    skw invert 16 118000 gutter.asc -s 3,4 -o gutter.rec",
    choices: &[OUTPUT, SOURCE, RELAXATION, GRAVITY, NEAREST, QUIET],
    act,
};

/// Whole numbers parted by commas, as many as are wanted.
fn numbers<const COUNT: usize>(
    arguments: &Arguments,
    choice: &Choice,
) -> Result<Option<[i64; COUNT]>, Failure> {
    let Some(word) = arguments.value(choice) else { return Ok(None) };
    let read: Option<Vec<i64>> =
        word.to_str().unwrap_or("").split(',').map(|part| part.parse().ok()).collect();
    match read.and_then(|numbers| numbers.try_into().ok()) {
        Some(numbers) => Ok(Some(numbers)),
        None => Err(arguments.wrong(format!(
            "{} is to be whole numbers like {}, and '{}' is not",
            choice.name,
            choice.value.unwrap_or_default(),
            word.to_string_lossy()
        ))),
    }
}

/// Makes the lowest open cell of a column surface, and answers it.
fn open(record: &mut Record, [x, y]: [usize; 2]) -> Result<usize, Failure> {
    let sides = record.grid.sides();
    let column = (0..sides.nz).map(|z| sides.cell(x, y, z)).collect::<Result<Vec<usize>, Refusal>>();
    let column = column.map_err(|refusal| records::refused(record, refusal))?;
    let flags = record.grid.state().flags;
    let Some(cell) = column.into_iter().find(|&cell| flags[cell] == EMPTY) else {
        return Err(Failure::Refused(format!("column {x} {y} is all wall: there is no cell to pour into")));
    };
    record.grid.set_interface(cell, 0).map_err(|refusal| records::refused(record, refusal))?;
    Ok(cell)
}

fn told(record: &Record) -> String {
    let (sides, site) = (record.grid.sides(), record.site);
    let inside = (sides.nx - 2) * (sides.ny - 2) * (sides.nz - 2);
    let [x, y, z] = [site.origin.x, site.origin.y, site.origin.z].map(thousandths);
    format!(
        "{} x {} x {} cells of {} mm, origin x {x}, y {y}, z {z} m; of {} cells inside {} are open",
        sides.nx,
        sides.ny,
        sides.nz,
        site.edge,
        counted(inside),
        counted(record.grid.counts().empty),
    )
}

fn act(mut arguments: Arguments) -> Result<(), Failure> {
    let (nz, height) = (arguments.number("NZ")?, arguments.number("HEIGHT")?);
    let p = arguments.chosen(&RELAXATION)?.unwrap_or(STILL);
    let [gx, gy, gz] = numbers(&arguments, &GRAVITY)?.unwrap_or(DOWNWARDS);
    let source = numbers::<2>(&arguments, &SOURCE)?;
    let (input, output) = (arguments.input()?, arguments.output(true)?);
    output.ready()?;
    let mut text = input.bytes()?;
    if arguments.has(&NEAREST) {
        text = inverts::nearest(&text);
    }
    let settings = Settings { p, gx, gy, gz };
    let mut record = inverts::read(&input.name(), &text, nz, height, settings)?;
    let mut said = told(&record);
    if let Some(column) = source {
        // A number below 0 is no column either.
        let cell = open(&mut record, column.map(|number| usize::try_from(number).unwrap_or(usize::MAX)))?;
        said += &format!("; water may be poured into cell {cell}");
    }
    records::write(&record, &output)?;
    if !arguments.has(&QUIET) {
        remark(&said);
    }
    Ok(())
}
