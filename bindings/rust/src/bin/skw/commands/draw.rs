// skw draw: a picture of a record, or its drawing as text.

use skwarzyna::drawing::{Axis, Drawing, View};

use super::Command;
use crate::arguments::{Arguments, Choice, OUTPUT};
use crate::failure::Failure;
use crate::files::Input;
use crate::records;

pub const SECTION: Choice = Choice {
    name: "section",
    letter: Some('s'),
    value: Some("AXIS=N"),
    help: "the cells with number N along x, y or z",
};
const TEXT: Choice = Choice {
    name: "text",
    letter: Some('t'),
    value: None,
    help: "as text, a letter for each cell or column",
};
const DEEPEST: Choice = Choice {
    name: "deepest",
    letter: None,
    value: Some("CELLS"),
    help: "the depth that is darkest, to compare pictures",
};

/// No grid has more cells one upon another.
const DEEPEST_OF_ALL: f32 = 128.0;

pub const COMMAND: Command = Command {
    name: "draw",
    usage: "[FILE] [-o FILE] [-s AXIS=N] [-t]",
    summary: "a picture (PNG): depths from above, or a section",
    help: "\
Draws the depth of every column from above, or the cells of a section by kind
and fill, with legend, scale and the water balance to the unit: as a PNG file, or
as text.

    skw draw sump.rec -o sump.png
    skw draw sump.rec -s y=3 -o section.png
    skw draw sump.rec -s y=3 --text",
    choices: &[OUTPUT, SECTION, TEXT, DEEPEST],
    act,
};

/// A section as it is asked for: `y=12`.
fn section(text: &str) -> Option<View> {
    let (axis, number) = text.split_once('=')?;
    let axis = [Axis::X, Axis::Y, Axis::Z].into_iter().find(|known| known.name() == axis)?;
    let plain = !number.is_empty() && number.bytes().all(|byte| byte.is_ascii_digit());
    Some(View::Section(axis, if plain { number.parse().ok()? } else { return None }))
}

/// From above, or the section that is asked for.
pub fn view(arguments: &Arguments) -> Result<View, Failure> {
    match arguments.value(&SECTION) {
        None => Ok(View::Above),
        Some(asked) => asked.to_str().and_then(section).ok_or_else(|| {
            arguments.wrong(format!("a section is to be like y=12, and '{}' is not", asked.to_string_lossy()))
        }),
    }
}

fn act(mut arguments: Arguments) -> Result<(), Failure> {
    let text = arguments.has(&TEXT);
    let view = view(&arguments)?;
    let deepest = match arguments.value(&DEEPEST) {
        None => None,
        Some(asked) => {
            let cells = asked.to_str().and_then(|text| text.parse::<f32>().ok());
            let cells = cells.filter(|cells| *cells > 0.0 && *cells <= DEEPEST_OF_ALL);
            let wrong = || {
                arguments.wrong(format!("the deepest is to be above 0 and at most {DEEPEST_OF_ALL} cells"))
            };
            Some(cells.ok_or_else(wrong)?)
        }
    };
    let (input, output) = (arguments.input()?, arguments.output(!text)?);
    output.ready()?;
    let (record, _) = records::read(&input)?;
    let drawing = Drawing::new(&record.grid, record.site, view);
    let mut drawing = drawing.map_err(|refusal| records::refused(&record, refusal))?;
    if let Some(cells) = deepest {
        drawing = drawing.darkest_at(cells);
    }
    if let Input::File(path) = &input {
        let name = path.file_name().unwrap_or_default().to_string_lossy();
        drawing = drawing.named(&name);
    }
    output.put(&if text { drawing.text().into_bytes() } else { drawing.picture().png() })
}
