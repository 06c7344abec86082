// The invert of examples/tunnel.asc: the rule that made it, and what the library reads in it.

use skwarzyna::{Grid, Settings, Sides};

const INVERT: &str = include_str!("../../../examples/tunnel.asc");
const HEADER: &str =
    "ncols 120\nnrows 19\nxllcorner 4468233.750\nyllcorner 5333118.400\ncellsize 0.050\nNODATA_value -9999\n";
const COLUMNS: i64 = 120;
const ROWS: i64 = 19;
const MIDDLE: i64 = 9;

/// How deep a sump is dug here: from both its ends 35 mm a column, down to its depth.
fn dug(x: i64, aside: i64, (first, last): (i64, i64), wide: i64, deep: i64) -> i64 {
    let along = (x - first).min(last - x) + 1;
    if along > 0 && aside <= wide {
        deep.min(35 * along)
    } else {
        0
    }
}

/// The height in millimetres that a scan without noise has: the gutter, five columns wide, falls by 4 mm a column; beside it the bored invert lies 200 mm
/// higher and rises as a circle of 800 mm does; a sump of seven columns' width is dug from column 36 to 45 and one of nine from column 97 to 115.
fn height(x: i64, y: i64) -> i64 {
    let (aside, gutter) = ((y - MIDDLE).abs(), 360 + 4 * (97 - x));
    let dug = dug(x, aside, (36, 45), 3, 250) + dug(x, aside, (97, 115), 4, 300);
    match aside {
        _ if dug > 0 => (gutter - dug).max(60),
        0..=2 => gutter,
        _ => gutter + 200 + 25 * aside * aside / 16,
    }
}

/// The rule: rows from north to south; a number drawn for each value, which lifts it by -4 to 4 mm; around the scan nothing was seen.
#[test]
fn the_invert_is_what_its_rule_makes() {
    let mut drawn: i64 = 20_261_116;
    let mut text = HEADER.to_string();
    for y in (0..ROWS).rev() {
        let mut row = Vec::new();
        for x in 0..COLUMNS {
            drawn = (1_103_515_245 * drawn + 12_345) % (1 << 31);
            let inside = (1..COLUMNS - 1).contains(&x) && (1..ROWS - 1).contains(&y);
            let value = if inside { height(x, y) + (drawn >> 16) % 9 - 4 } else { -9999 };
            row.push(value.to_string());
        }
        text += &(row.join(" ") + "\n");
    }
    assert!(text == INVERT, "examples/tunnel.asc is not what its rule makes");
}

#[test]
fn the_invert_is_read() {
    let settings = Settings { p: 1800, gx: 0, gy: 0, gz: -1000 };
    let record = Grid::from_invert(INVERT.as_bytes(), 24, 512_000, settings).unwrap();
    assert_eq!(record.grid.sides(), Sides::new(120, 19, 24));
    assert_eq!((record.site.edge, record.site.origin.y), (50, 5_333_118_400));
    assert_eq!(record.grid.counts().empty, 19_716);
}
