// skw flume draw: a flume from the side, as a picture or as text.

use skwarzyna::drawing::Drawing;

use crate::arguments::{Arguments, Choice, OUTPUT};
use crate::commands::Command;
use crate::failure::Failure;
use crate::files::Input;
use crate::flumes;

const TEXT: Choice =
    Choice { name: "text", letter: Some('t'), value: None, help: "as text, a letter for each cell" };
const WIDTH: Choice = Choice {
    name: "width",
    letter: Some('w'),
    value: Some("LETTERS"),
    help: "of the text; a letter then stands for a block of cells",
};

pub const COMMAND: Command = Command {
    name: "flume draw",
    usage: "[FILE] [-o FILE] [-t] [-w LETTERS]",
    summary: "a picture (PNG) of it from the side",
    help: "\
Draws the cells of the section from the side: walls, and water by its fill, with
legend, scale and the water balance to the unit; as a PNG file, or as text.

    skw flume draw weir.rec -o weir.png
    skw flume draw weir.rec --text --width 100",
    choices: &[OUTPUT, TEXT, WIDTH],
    act,
};

fn act(mut arguments: Arguments) -> Result<(), Failure> {
    let width: Option<usize> = arguments.chosen(&WIDTH)?;
    let text = arguments.has(&TEXT) || width.is_some();
    if width == Some(0) {
        return Err(arguments.wrong("the text is to be 1 letter wide or more"));
    }
    let (input, output) = (arguments.input()?, arguments.output(!text)?);
    output.ready()?;
    let (flume, _) = flumes::read(&input)?;
    let mut drawing = Drawing::of_flume(&flume);
    if let Input::File(path) = &input {
        drawing = drawing.named(&path.file_name().unwrap_or_default().to_string_lossy());
    }
    output.put(&match (text, width) {
        (false, _) => drawing.picture().png(),
        (true, None) => drawing.text().into_bytes(),
        (true, Some(letters)) => drawing.text_within(letters).into_bytes(),
    })
}
