// A scene of the flume drawn from the side, and a state drawn as letters.

use crate::drawing::{parted, LETTERS};
use crate::flume::grid::Grid;
use crate::flume::scenes::{resting, Scene};
use crate::flume::settings::Settings;
use crate::flume::state::{Cell, State};
use crate::lattice::ONE;
use crate::state::{FLUID, INTERFACE};

/// Water at rest at density ONE, an interface cell half full.
fn cell(letter: char) -> Option<Cell> {
    let (_, flag) = *LETTERS.iter().find(|(known, _)| *known == letter)?;
    Some(match flag {
        INTERFACE => resting(ONE / 2),
        FLUID => Cell { flag, ..resting(ONE) },
        _ => Cell::blank(flag),
    })
}

/// A line of letters for each layer, the highest first.
pub fn section(grid: &Grid, flags: &[u8]) -> String {
    let letter =
        |flag: &u8| LETTERS.iter().find(|(_, known)| known == flag).map_or('?', |(letter, _)| *letter);
    let rows = flags.chunks_exact(grid.nx).rev();
    rows.map(|row| row.iter().map(letter).chain(['\n']).collect::<String>()).collect()
}

/// The scene that a text draws, as examples/weir.txt explains; or what is wrong with it.
pub fn drawn(text: &str) -> Result<Scene, String> {
    let mut settings = Settings { p: 1024, gravity: [0; 2], edge: 50 };
    let mut origin = [0; 2];
    let (words, rows) = parted(text)?;
    for (word, numbers) in words {
        match (word, &numbers[..]) {
            ("p", &[p]) => settings.p = p as i32,
            ("edge", &[edge]) => settings.edge = edge as i32,
            ("gravity", &[x, z]) => settings.gravity = [x as i32, z as i32],
            ("origin", &[x, z]) => origin = [x, z],
            _ => return Err(format!("'{word}' with {numbers:?} is not understood")),
        }
    }
    let nx = rows.first().map_or(0, Vec::len);
    if let Some(row) = rows.iter().find(|row| row.len() != nx) {
        return Err(format!("a row of {} letters among rows of {nx}", row.len()));
    }
    let sides = [nx as u32, rows.len() as u32];
    Grid::new(sides).map_err(|_| format!("sides {sides:?} are out of range"))?;
    // The lowest row of the drawing is the floor.
    let letters = rows.iter().rev().flatten();
    let drawn = letters.map(|&letter| cell(letter).ok_or(format!("'{letter}' stands for nothing")));
    let mut state = State { cells: drawn.collect::<Result<_, _>>()?, carry: 0 };
    state.work_out_fills();
    Ok(Scene { sides, settings, origin, state })
}
