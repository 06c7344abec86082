// Reading an invert, as docs/AMENDMENTS.md has it under P8: a height grid's text becomes a dry grid and its index.

use crate::grid::{refuse, Grid, Refusal};
use crate::index::{HeldMut, IndexStore};
use crate::sets::Store;
use crate::settings::{test_all, Settings};
use crate::state::{EMPTY, WALL};

/// The height that makes a column all wall, and the only one that NODATA_value may say.
pub const NO_HEIGHT: i128 = -9999;

/// The keywords in the order of their lines, in small letters.
const KEYWORDS: [&str; 6] = ["ncols", "nrows", "xllcorner", "yllcorner", "cellsize", "nodata_value"];

/// The most digits before the point.
const DIGITS: usize = 12;

/// What the host gives beside the text.
#[derive(Clone, Copy, Debug, PartialEq, Eq)]
pub struct Wish {
    pub nz: u32,
    /// The height of the origin, in millimetres.
    pub oz: i64,
    pub p: i32,
    pub gravity: [i32; 3],
}

/// What the reader answers beside the slices that it wrote.
#[derive(Clone, Copy, Debug, PartialEq, Eq)]
pub struct Head {
    pub sides: [u32; 3],
    pub settings: Settings,
    pub origin: [i64; 3],
}

/// The words of a line: what spaces, tabs and CR part.
fn words(line: &[u8]) -> Vec<&[u8]> {
    line.split(|byte| [b' ', b'\t', b'\r'].contains(byte)).filter(|word| !word.is_empty()).collect()
}

fn digits(text: &[u8]) -> bool {
    !text.is_empty() && text.iter().all(u8::is_ascii_digit)
}

/// A whole number of digits alone.
fn spelled(text: &[u8]) -> i128 {
    text.iter().fold(0, |number, digit| 10 * number + i128::from(digit - b'0'))
}

/// A number in thousandths.
pub fn number(word: &[u8]) -> Option<i128> {
    let (sign, rest) = match word.strip_prefix(b"-") {
        Some(rest) => (-1, rest),
        None => (1, word),
    };
    let (whole, decimals) = match rest.iter().position(|&byte| byte == b'.') {
        Some(point) => (&rest[..point], Some(&rest[point + 1..])),
        None => (rest, None),
    };
    if !digits(whole) || whole.len() > DIGITS {
        return None;
    }
    let mut thousandths = 1000 * spelled(whole);
    if let Some(decimals) = decimals {
        let (kept, behind) = decimals.split_at(decimals.len().min(3));
        if !digits(kept) || behind.iter().any(|&digit| digit != b'0') {
            return None;
        }
        thousandths += spelled(kept) * [1000, 100, 10, 1][kept.len()];
    }
    Some(sign * thousandths)
}

/// A number without thousandths.
pub fn whole(word: &[u8]) -> Option<i128> {
    number(word).filter(|thousandths| thousandths % 1000 == 0).map(|thousandths| thousandths / 1000)
}

/// A text by its lines, counted from 1; one past the end is empty.
struct Lines<'a>(Vec<&'a [u8]>);

impl<'a> Lines<'a> {
    fn of(text: &'a [u8]) -> Lines<'a> {
        Lines(text.split(|&byte| byte == b'\n').collect())
    }

    fn words(&self, line: usize) -> Vec<&'a [u8]> {
        self.0.get(line - 1).map_or(Vec::new(), |line| words(line))
    }

    /// The number behind its keyword.
    fn header(&self, line: usize, read: fn(&[u8]) -> Option<i128>) -> Result<i128, Refusal> {
        let value = match self.words(line)[..] {
            [keyword, value] if keyword.eq_ignore_ascii_case(KEYWORDS[line - 1].as_bytes()) => read(value),
            _ => None,
        };
        value.map_or(refuse(19, line), Ok)
    }

    /// Exactly so many whole numbers.
    fn row(&self, line: usize, columns: usize) -> Result<Vec<i128>, Refusal> {
        let values: Option<Vec<i128>> = self.words(line).into_iter().map(whole).collect();
        values.filter(|values| values.len() == columns).map_or(refuse(20, line), Ok)
    }
}

/// The number as the record's type has it; the widest stands for one beyond it, as both are out of every range.
fn held(number: i128) -> i32 {
    number.clamp(i32::MIN.into(), i32::MAX.into()) as i32
}

/// A side; one beyond its type is out of range in any case.
fn side(number: i128) -> u32 {
    u32::try_from(number).unwrap_or(u32::MAX)
}

/// Whether a cell of a column with this height is wall, were it not outer.
fn covered(height: i128, z: usize, edge: i128) -> bool {
    height == NO_HEIGHT || (2 * z as i128 + 1) * edge < 2 * height
}

/// The reader: 19, 1, 2, 3, 20. The lent slices are written only when the whole text is accepted.
pub fn read(text: &[u8], wish: &Wish, lent: HeldMut) -> Result<Head, Refusal> {
    let lines = Lines::of(text);
    let (columns, rows) = (lines.header(1, whole)?, lines.header(2, whole)?);
    let (x, y, edge) = (lines.header(3, number)?, lines.header(4, number)?, lines.header(5, number)?);
    lines.header(6, |word| number(word).filter(|value| *value == 1000 * NO_HEIGHT))?;

    let sides = [side(columns), side(rows), wish.nz];
    let grid = Grid::new(sides)?;
    if !lent.as_held().fits(grid.n) {
        return refuse(2, 0);
    }
    let settings = Settings { p: wish.p, gravity: wish.gravity, edge: held(edge) };
    // Thousandths of a metre are millimetres, below 10^15 by their digits.
    let origin = [x as i64, y as i64, wish.oz];
    test_all(&settings, origin)?;

    let [nx, ny, _] = grid.sides;
    let heights: Vec<Vec<i128>> =
        (0..ny).map(|row| lines.row(7 + row, nx)).collect::<Result<_, Refusal>>()?;
    for line in 7 + ny..=lines.0.len() {
        lines.row(line, 0)?;
    }

    let flag = |c: usize| {
        let [x, y, z] = grid.position(c);
        // The first row is the northernmost.
        let height = heights[ny - 1 - y][x];
        if grid.outer(c) || covered(height, z, edge) {
            WALL
        } else {
            EMPTY
        }
    };
    let set = Store { flags: (0..grid.n).map(flag).collect(), ..Store::blank(grid.n) };
    let index = IndexStore::blank(grid.n);
    lent.set.flags.copy_from_slice(&set.flags);
    lent.set.parts.copy_from_slice(&set.parts);
    lent.set.masses.copy_from_slice(&set.masses);
    lent.set.fills.copy_from_slice(&set.fills);
    lent.set.carry.copy_from_slice(&set.carry);
    lent.index.words.copy_from_slice(&index.words);
    lent.index.count.copy_from_slice(&index.count);
    Ok(Head { sides, settings, origin })
}
