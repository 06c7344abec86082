// A surveyed channel: its invert is read from an ASCII grid, water is poured into it and runs over a sill, around a pillar and into a sump, and its depths
// are written as an ASCII grid again; where a third file is named, the record of the end too, for skw. The balance is told to the unit on the way.
//
//     cargo run --release --offline --example channel ../../examples/channel.asc depths.asc [channel.rec]

use std::env::args;
use std::error::Error;
use std::fs;

use skwarzyna::spelling::{grouped, litres, thousandths};
use skwarzyna::{Grid, Record, Settings, EMPTY};

/// Cells in height, and the height of the origin in millimetres.
const NZ: usize = 10;
const HEIGHT: i64 = 118_000;
/// So viscous that the thin film behind the sill is not refused on the way, and nearly the strongest gravity that there is.
const SETTINGS: Settings = Settings { p: 1400, gx: 0, gy: 0, gz: -1000 };
/// The column under the hose, and how far around it the water falls, in cells.
const HOSE: (usize, usize) = (18, 9);
const REACH: usize = 2;
/// What is poured at a time, how many steps lie between, and how often; then the hose is shut, and the water comes to rest.
const AMOUNT: i64 = 60_000;
const BETWEEN: usize = 2;
const POURS: usize = 5000;
const AFTER: usize = 1000;
/// Pours between two lines of the table.
const TOLD: usize = 500;

/// The cell that the hose pours into: of the surface under it the lowest cell, and of these the emptiest; where all is dry, the lowest
/// open cell of the middle, made surface.
fn under_the_hose(grid: &mut Grid) -> Result<usize, Box<dyn Error>> {
    let sides = grid.sides();
    let state = grid.state();
    let under = |cell: usize| {
        let (x, y, _) = sides.position(cell);
        x.abs_diff(HOSE.0) <= REACH && y.abs_diff(HOSE.1) <= REACH
    };
    let height = |cell: usize| sides.position(cell).2;
    let surface = grid.surface(0)?.filter(|&cell| under(cell));
    if let Some(cell) = surface.min_by_key(|&cell| (height(cell), state.masses[cell])) {
        return Ok(cell);
    }
    let column: Vec<usize> =
        (0..sides.nz).map(|z| sides.cell(HOSE.0, HOSE.1, z)).collect::<Result<_, _>>()?;
    let dry = column.into_iter().find(|&cell| state.flags[cell] == EMPTY);
    let cell = dry.ok_or("the hose stands on a wall, or under water")?;
    grid.set_interface(cell, 0)?;
    Ok(cell)
}

fn tell(steps: usize, grid: &Grid, edge: i64) {
    let water = grid.water();
    println!(
        "{steps:>6} {:>14} {:>14} {:>14} {:>8} {:>14} {:>6} {:>10}",
        grouped(water.poured),
        grouped(water.fluid),
        grouped(water.interface),
        grouped(water.carry),
        grouped(water.total()),
        grouped(water.balance()),
        litres(water.total(), edge),
    );
}

fn main() -> Result<(), Box<dyn Error>> {
    let words: Vec<String> = args().skip(1).collect();
    let [invert, depths, record @ ..] = &words[..] else {
        return Err("usage: channel INVERT DEPTHS [RECORD]: the ASCII grid to read, and what to write".into());
    };
    let read = Grid::from_invert(&fs::read(invert)?, NZ, HEIGHT, SETTINGS);
    let Record { mut grid, site, .. } = read.map_err(|refusal| format!("{invert}: {refusal}"))?;
    let ([x, y, z], counts) = ([site.origin.x, site.origin.y, site.origin.z].map(thousandths), grid.counts());
    println!("{invert}: cells of {} mm from x {x}, y {y}, z {z} m, {} of them open", site.edge, counts.empty);
    println!(
        "{:>6} {:>14} {:>14} {:>14} {:>8} {:>14} {:>6} {:>10}",
        "step", "poured", "fluid", "interface", "carry", "total", "lost", "litres"
    );
    for pour in 0..POURS {
        if pour % TOLD == 0 {
            tell(BETWEEN * pour, &grid, site.edge);
        }
        let cell = under_the_hose(&mut grid)?;
        grid.pour(cell, AMOUNT)?;
        grid.run(BETWEEN, SETTINGS)?;
    }
    tell(BETWEEN * POURS, &grid, site.edge);
    for rest in 1..=2 {
        grid.run(AFTER, SETTINGS)?;
        tell(BETWEEN * POURS + rest * AFTER, &grid, site.edge);
    }
    fs::write(depths, grid.depth_map(site)?)?;
    if let [record] = record {
        fs::write(record, grid.write(SETTINGS, site)?)?;
    }
    Ok(())
}
