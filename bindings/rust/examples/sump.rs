// A gutter that runs into a sump: water at its upper end leaks through a slot, trickles down the sloping invert and falls into the pit.
// Steps the scene, counts its water to the unit, and writes the depths before and after, and a section along the gutter, as pictures
// and as text into FOLDER, or into the current folder; and the record of the end, for skw.
//
//     cargo run --release --offline --example sump [FOLDER]

use std::error::Error;
use std::fs;
use std::io::{stdout, IsTerminal, Write};
use std::ops::RangeInclusive;
use std::path::{Path, PathBuf};
use std::process::ExitCode;
use std::time::Instant;

use skwarzyna::drawing::{Axis, Drawing, View};
use skwarzyna::spelling::grouped;
use skwarzyna::{Depth, Grid, Point, Refusal, Settings, Sides, Site, Water, ONE};

const SIDES: Sides = Sides::new(40, 20, 24);
/// Cells of 50 millimetres, from the survey's own origin.
const SITE: Site = Site { edge: 50, origin: Point::new(0, 0, 0) };
/// So viscous that the thin film on the invert is not refused on the way, and gravity of about two ten-thousandths of a cell per step and
/// step.
const SETTINGS: Settings = Settings { p: 1500, gx: 0, gy: 0, gz: -200 };
const STEPS: usize = 8000;
/// Steps of one run, after which the line of progress is drawn anew; and of one line that stays.
const STRIDE: usize = 100;
const ROW: usize = 1000;

/// Along x: the water at the upper end, the wall with the slot that it leaks through, the gutter, and the sump.
const POOL: RangeInclusive<usize> = 1..=8;
const SLOT: usize = 9;
const SUMP: RangeInclusive<usize> = 28..=38;
/// The invert at the upper end, and the top of the water there.
const INVERT: usize = 14;
const TOP: usize = 21;

/// Whether a cell inside the outer layer is open.
fn open(x: usize, y: usize, z: usize) -> bool {
    // How many columns lie between this one and the middle, which is between y 9 and y 10.
    let aside = if y < 10 { 9 - y } else { y - 10 };
    if SUMP.contains(&x) {
        return aside <= 6;
    }
    // The invert falls by one in three, and rises to both banks.
    let invert = INVERT - (x - 1) / 3;
    if x == SLOT {
        return aside <= 2 && (invert..invert + 4).contains(&z);
    }
    aside <= 4 && z >= invert + [0, 0, 0, 1, 3][aside]
}

/// Walls where it is not open, and water at rest at the upper end.
fn scene() -> Result<Grid, Refusal> {
    let mut grid = Grid::new(SIDES)?;
    for cell in 0..SIDES.cells()? {
        let (x, y, z) = SIDES.position(cell);
        if SIDES.is_outer(cell) {
            continue;
        }
        if !open(x, y, z) {
            grid.set_wall(cell)?;
        } else if POOL.contains(&x) && z <= TOP {
            // What the water above presses out: at rest, density grows by 3 g from cell to cell downwards.
            let above = (TOP - z) as i64;
            let mass = i64::from(ONE) - 3 * i64::from(ONE) * SETTINGS.gz * above / 1_048_576;
            grid.set_fluid(cell, mass as i32)?;
        }
    }
    Ok(grid)
}

/// One line of the table.
fn line(step: usize, water: Water, start: i64) -> String {
    let [fluid, interface, carry, total, lost] =
        [water.fluid, water.interface, water.carry, water.total(), start - water.total()].map(grouped);
    format!("{step:>6} {fluid:>14} {interface:>14} {carry:>8} {total:>14} {lost:>6}")
}

/// Makes the steps and tells how the water stands; on a terminal in place, between the lines that stay.
fn advance(grid: &mut Grid, start: i64) -> Result<(), Box<dyn Error>> {
    let in_place = stdout().is_terminal();
    println!("  step          fluid    + interface  + carry        = total   lost");
    println!("{}", line(0, grid.water(), start));
    for step in (STRIDE..=STEPS).step_by(STRIDE) {
        grid.run(STRIDE, SETTINGS)?;
        let stays = step % ROW == 0;
        if in_place {
            print!("\r{}{}", line(step, grid.water(), start), if stays { "\n" } else { "" });
            stdout().flush()?;
        } else if stays {
            println!("{}", line(step, grid.water(), start));
        }
    }
    Ok(())
}

/// From above, and along the middle of the gutter.
const ABOVE: View = View::Above;
const ALONG: View = View::Section(Axis::Y, 10);

/// Writes each drawing as picture and as text, with one scale of depths.
fn write_drawings(folder: &Path, drawings: [(&str, Drawing); 4]) -> Result<(), Box<dyn Error>> {
    let darkest = drawings.iter().map(|(_, drawing)| drawing.deepest()).fold(0.0, f32::max);
    for (name, drawing) in drawings {
        let drawing = drawing.darkest_at(darkest).named(name);
        put(folder, &format!("{name}.png"), &drawing.picture().png())?;
        put(folder, &format!("{name}.txt"), drawing.text().as_bytes())?;
    }
    Ok(())
}

fn put(folder: &Path, name: &str, bytes: &[u8]) -> Result<(), Box<dyn Error>> {
    let file = folder.join(name);
    fs::write(&file, bytes).map_err(|error| format!("{}: {error}", file.display()))?;
    println!("written: {}", file.display());
    Ok(())
}

/// What the sump holds, as those ask for it who order its pump.
fn tell_sump(grid: &Grid) -> Result<(), Refusal> {
    let (mut sum, mut deepest) = (0.0, 0.0f64);
    for (x, y) in SUMP.flat_map(|x| (0..SIDES.ny).map(move |y| (x, y))) {
        if let Depth::Deep(cells) = grid.depth(x, y)? {
            sum += f64::from(cells);
            deepest = deepest.max(cells.into());
        }
    }
    let edge = SITE.edge as f64;
    println!(
        "the sump holds {:.1} litres and is {:.0} mm deep at most",
        sum * edge.powi(3) / 1e6,
        deepest * edge
    );
    Ok(())
}

fn play(folder: &Path) -> Result<(), Box<dyn Error>> {
    fs::create_dir_all(folder).map_err(|error| format!("{}: {error}", folder.display()))?;
    let mut grid = scene()?;
    let draw = |grid: &Grid, view: View| Drawing::new(grid, SITE, view);
    let (before, before_along) = (draw(&grid, ABOVE)?, draw(&grid, ALONG)?);
    let (start, counts) = (grid.total(), grid.counts());
    println!(
        "{} x {} x {} cells of {} mm, {} of them open; {} units fill a cell",
        SIDES.nx,
        SIDES.ny,
        SIDES.nz,
        SITE.edge,
        counts.empty + counts.liquid(),
        grouped(ONE)
    );

    let clock = Instant::now();
    let made = advance(&mut grid, start);
    println!("{:.1} seconds", clock.elapsed().as_secs_f64());
    let Water { fluid, interface, carry, .. } = grid.water();
    let [fluid, interface, carry, total] = [fluid, interface, carry, grid.total()].map(grouped);
    println!(
        "water: {fluid} fluid + {interface} interface + {carry} carry = {total}; {} at the start",
        grouped(start)
    );

    // A refused step leaves the state before it, which can be looked at as well.
    tell_sump(&grid)?;
    let (after, after_along) = (draw(&grid, ABOVE)?, draw(&grid, ALONG)?);
    let drawings = [
        ("sump-before", before),
        ("sump-after", after),
        ("section-before", before_along),
        ("section-after", after_along),
    ];
    write_drawings(folder, drawings)?;
    put(folder, "sump-after.rec", &grid.write(SETTINGS, SITE)?)?;
    made?;
    match start - grid.total() {
        0 => Ok(()),
        lost => Err(format!("{lost} units of water are lost").into()),
    }
}

fn main() -> ExitCode {
    let folder = PathBuf::from(std::env::args_os().nth(1).unwrap_or(".".into()));
    match play(&folder) {
        Ok(()) => ExitCode::SUCCESS,
        Err(error) => {
            eprintln!("sump: {error}");
            ExitCode::FAILURE
        }
    }
}
