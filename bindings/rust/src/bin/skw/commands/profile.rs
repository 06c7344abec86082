// skw profile: the depth along a list of survey points, as lines and as a picture.

use skwarzyna::drawing::long::LongProfile;
use skwarzyna::{Place, Point, Refusal, Station};

use super::Command;
use crate::arguments::{Arguments, Choice, OUTPUT};
use crate::failure::Failure;
use crate::files::{Input, Output};
use crate::records;

const PICTURE: Choice = Choice {
    name: "picture",
    letter: Some('p'),
    value: Some("FILE"),
    help: "draw it there too, as a PNG file",
};

pub const COMMAND: Command = Command {
    name: "profile",
    usage: "POINTS [FILE] [-o FILE] [-p PICTURE]",
    summary: "the depth along a list of points, and the deepest",
    help: "\
Tells for each survey point of the list POINTS whether it is outside the grid, in
a solid or a dry column, or how deep the water is there: in millimetres, and in
cells as 65,536ths, which is exact. Then the deepest, the first among equals.

A line of the list is a point: chainage, x, y and z in whole millimetres, parted
by blanks. Chainages rise. Blank lines, and what stands behind a #, are passed
over. A line that cannot be read is told by its number, with status 2.

    skw profile gutter.points gutter.rec
    skw profile gutter.points gutter.rec -p gutter.png",
    choices: &[OUTPUT, PICTURE],
    act,
};

/// The list, and the line of each point.
struct List {
    name: String,
    stations: Vec<Station>,
    lines: Vec<usize>,
}

/// A whole number of millimetres: digits, perhaps behind a minus.
fn millimetres(word: &str) -> Result<i64, String> {
    let digits = word.strip_prefix('-').unwrap_or(word);
    if digits.is_empty() || !digits.bytes().all(|byte| byte.is_ascii_digit()) {
        return Err(format!("'{word}' is not a whole number of millimetres"));
    }
    word.parse().map_err(|_| format!("'{word}' has too many digits"))
}

/// The point of a line; none where it says nothing.
fn station(line: &str) -> Result<Option<Station>, String> {
    let said = line.split('#').next().unwrap_or("");
    let words: Vec<&str> = said.split_ascii_whitespace().collect();
    let numbers = words.iter().map(|word| millimetres(word)).collect::<Result<Vec<i64>, String>>()?;
    match numbers[..] {
        [] => Ok(None),
        [chainage, x, y, z] => Ok(Some(Station { chainage, point: Point::new(x, y, z) })),
        _ => {
            let many = if numbers.len() == 1 { "number" } else { "numbers" };
            Err(format!("{} {many}, and a point has four: chainage x y z", numbers.len()))
        }
    }
}

impl List {
    fn read(input: &Input) -> Result<List, Failure> {
        let bytes = input.bytes()?;
        let text = String::from_utf8_lossy(&bytes);
        let mut list = List { name: input.name(), stations: Vec::new(), lines: Vec::new() };
        for (line, text) in (1..).zip(text.lines()) {
            let station =
                station(text).map_err(|why| Failure::Usage(format!("{}, line {line}: {why}", list.name)))?;
            list.stations.extend(station);
            list.lines.extend(station.map(|_| line));
        }
        Ok(list)
    }

    /// What the library refused, by the line of the point where it is one.
    fn refused(&self, refusal: Refusal) -> Option<Failure> {
        let line = |point: usize| format!("{}, line {}: {refusal}", self.name, self.lines[point]);
        match (refusal.at(), refusal.number) {
            (Place::Point(point), _) => Some(Failure::Refused(line(point))),
            (_, Refusal::LIST) => {
                Some(Failure::Refused(format!("{}: {refusal}; it has {}", self.name, self.stations.len())))
            }
            // The record's edge and origin are in range, so that 3 at 0 is the first point.
            (_, Refusal::SETTING) => Some(Failure::Refused(format!("{}, at point 0", line(0)))),
            _ => None,
        }
    }
}

fn act(mut arguments: Arguments) -> Result<(), Failure> {
    let points = arguments.file("POINTS")?;
    let (input, output) = (arguments.input()?, arguments.output(false)?);
    let picture = arguments.value(&PICTURE).map(|file| Output::of(Some(file)));
    if matches!((&points, &input), (Input::Standard, Input::Standard)) {
        return Err(arguments.wrong("points and record cannot both come from standard input"));
    }
    if let Some(picture) = &picture {
        if matches!((&output, picture), (Output::Standard, Output::Standard)) || picture.is_terminal() {
            return Err(arguments.wrong("a picture goes to a file, or with -o for the lines to a pipe"));
        }
        picture.ready()?;
    }
    output.ready()?;
    let list = List::read(&points)?;
    let (record, _) = records::read(&input)?;
    let profile = LongProfile::new(&record.grid, record.site, &list.stations);
    let mut profile = profile
        .map_err(|refusal| list.refused(refusal).unwrap_or_else(|| records::refused(&record, refusal)))?;
    if let Input::File(path) = &input {
        profile = profile.named(&path.file_name().unwrap_or_default().to_string_lossy());
    }
    output.print(&profile.text())?;
    match picture {
        Some(picture) => picture.put(&profile.picture().png()),
        None => Ok(()),
    }
}
