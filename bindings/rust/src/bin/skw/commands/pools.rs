// skw pools: which water hangs together, as lines and as a picture.

use skwarzyna::drawing::pools::PoolMap;

use super::draw::{view, SECTION};
use super::Command;
use crate::arguments::{Arguments, Choice, OUTPUT};
use crate::failure::Failure;
use crate::files::{Input, Output};
use crate::records;

const PICTURE: Choice = Choice {
    name: "picture",
    letter: Some('p'),
    value: Some("FILE"),
    help: "draw them there too, as a PNG file",
};

pub const COMMAND: Command = Command {
    name: "pools",
    usage: "[FILE] [-o FILE] [-p PICTURE] [-s AXIS=N]",
    summary: "one pool or three: each one's cells, water and lowest cell",
    help: "\
Tells which water hangs together: a line for each pool with its number, how many
cells it has, its water to the unit, its share of all pools' water, and its lowest
cell. Cells hang together with the liquid ones among their 18 neighbours. Pools
are numbered in the order of their lowest cells; their water and the carry add
up to the total.

The picture has each pool in a colour of its own: from above by the highest water
of every column, or a section by -s.

    skw pools sump.rec
    skw pools sump.rec -p pools.png -s y=3",
    choices: &[OUTPUT, PICTURE, SECTION],
    act,
};

fn act(mut arguments: Arguments) -> Result<(), Failure> {
    let view = view(&arguments)?;
    let picture = arguments.value(&PICTURE).map(|file| Output::of(Some(file)));
    if picture.is_none() && arguments.has(&SECTION) {
        return Err(arguments.wrong("a section is for the picture: say -p FILE too"));
    }
    let (input, output) = (arguments.input()?, arguments.output(false)?);
    if let Some(picture) = &picture {
        if matches!((&output, picture), (Output::Standard, Output::Standard)) || picture.is_terminal() {
            return Err(arguments.wrong("a picture goes to a file, or with -o for the lines to a pipe"));
        }
        picture.ready()?;
    }
    output.ready()?;
    let (record, _) = records::read(&input)?;
    let map = PoolMap::new(&record.grid, record.site, view);
    let mut map = map.map_err(|refusal| records::refused(&record, refusal))?;
    if let Input::File(path) = &input {
        map = map.named(&path.file_name().unwrap_or_default().to_string_lossy());
    }
    output.print(&map.text())?;
    match picture {
        Some(picture) => picture.put(&map.picture().png()),
        None => Ok(()),
    }
}
