// A scene drawn from the side: settings, and a section of letters that is the same all across the tunnel. And a section drawn of a state.

use crate::grid::Grid;
use crate::lattice::{weight, ONE};
use crate::scenes::Scene;
use crate::settings::Settings;
use crate::state::{Cell, State, EMPTY, FLUID, INTERFACE, WALL};

/// Water at rest at density ONE, in the parts' own unit.
fn at_rest(flag: u8, mass: i128) -> Cell {
    Cell { flag, parts: std::array::from_fn(|k| weight(k) * ONE / 36), mass, fill: 0 }
}

/// The letter of each flag.
pub(crate) const LETTERS: [(char, u8); 4] = [('.', EMPTY), ('~', INTERFACE), ('w', FLUID), ('#', WALL)];

fn cell(letter: char) -> Option<Cell> {
    let (_, flag) = *LETTERS.iter().find(|(known, _)| *known == letter)?;
    Some(match flag {
        INTERFACE => at_rest(flag, ONE / 2),
        FLUID => at_rest(flag, ONE),
        _ => Cell::blank(flag),
    })
}

/// The section through the middle of a state, a line for each layer, the highest first.
pub fn section(grid: &Grid, flags: &[u8]) -> String {
    let [nx, ny, nz] = grid.sides;
    let letter = |x: usize, z: usize| {
        let flag = flags[grid.cell([x, ny / 2, z])];
        LETTERS.iter().find(|(_, known)| *known == flag).map_or('?', |(letter, _)| *letter)
    };
    (0..nz).rev().map(|z| (0..nx).map(|x| letter(x, z)).chain(['\n']).collect::<String>()).collect()
}

/// A drawing's lines of a word and its numbers, and the rows of letters after them, the highest first.
pub(crate) fn parted(text: &str) -> Result<(Vec<(&str, Vec<i64>)>, Vec<Vec<char>>), String> {
    let mut lines = text.lines().filter(|line| !line.starts_with("# ") && !line.is_empty());
    let mut words = Vec::new();
    for line in lines.by_ref().take_while(|line| *line != "section") {
        let wrong = |_| format!("'{line}' has no numbers after its word");
        let (word, numbers) = line.split_once(' ').ok_or(format!("'{line}' has no number"))?;
        let numbers = numbers.split(' ').map(str::parse).collect::<Result<_, _>>().map_err(wrong)?;
        words.push((word, numbers));
    }
    Ok((words, lines.map(|line| line.chars().collect()).collect()))
}

/// The scene that a text draws, as examples/sump.txt explains; or what is wrong with it.
pub fn drawn(text: &str) -> Result<Scene, String> {
    let mut settings = Settings { p: 1024, gravity: [0; 3], edge: 50 };
    let (mut across, mut origin) = (3, [0; 3]);
    let (words, rows) = parted(text)?;
    for (word, numbers) in words {
        match (word, &numbers[..]) {
            ("across", &[cells]) => across = cells as u32,
            ("p", &[p]) => settings.p = p as i32,
            ("edge", &[edge]) => settings.edge = edge as i32,
            ("gravity", &[x, y, z]) => settings.gravity = [x, y, z].map(|number| number as i32),
            ("origin", &[x, y, z]) => origin = [x, y, z],
            _ => return Err(format!("'{word}' with {numbers:?} is not understood")),
        }
    }
    let sides = [rows.first().map_or(0, Vec::len) as u32, across, rows.len() as u32];
    let grid = Grid::new(sides).map_err(|_| format!("sides {sides:?} are out of range"))?;
    let mut cells = vec![Cell::blank(WALL); grid.n];
    for c in 0..grid.n {
        let [x, y, z] = grid.position(c);
        // The lowest row of the drawing is the grid's floor.
        let letter = rows[rows.len() - 1 - z].get(x).copied().unwrap_or(' ');
        let drawn = cell(letter).ok_or(format!("'{letter}' stands for nothing"))?;
        if y > 0 && y < grid.sides[1] - 1 {
            cells[c] = drawn;
        }
    }
    let mut state = State::new(cells, 0);
    state.work_out_fills();
    Ok(Scene { sides, settings, origin, state, numbers: 1 })
}
