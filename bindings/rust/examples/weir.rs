// A dam break and a weir along a channel of 400 by 40 cells, seen from the side: the dam has just gone, its water runs over the weir into a pool that a sill
// holds. It is the channel of examples/weir.txt. Steps it, counts its water to the unit, and writes it every 500 steps as a picture into FOLDER, or into the
// current folder; and the record of the end, for skw.
//
//     cargo run --release --offline --example weir [FOLDER]

use std::error::Error;
use std::fs;
use std::io::{stdout, IsTerminal, Write};
use std::ops::RangeInclusive;
use std::path::{Path, PathBuf};
use std::process::ExitCode;
use std::time::Instant;

use skwarzyna::drawing::Drawing;
use skwarzyna::flume::{Point, Settings, Sides, Site};
use skwarzyna::spelling::{counted, grouped};
use skwarzyna::{Flume, Refusal, ONE};

const SIDES: Sides = Sides::new(400, 40);
/// Cells of 25 millimetres, from the survey's own origin: ten metres of channel, one high.
const SITE: Site = Site { edge: 25, origin: Point::new(0, 0) };
/// Little gravity: a lone cell that the falling surface leaves behind gains speed by it in every step, and ends the run at the limit.
const SETTINGS: Settings = Settings { p: 1700, gx: 0, gz: -40 };
const STEPS: usize = 6000;
/// Steps of one run, after which the line of progress is drawn anew; and of one line that stays, with its picture.
const STRIDE: usize = 50;
const ROW: usize = 500;

/// The water behind the dam: how high it stands, and the foot of its slope.
const TOP: usize = 28;
const FOOT: usize = 134;
/// The weir's middle, half its foot and its height; the pool behind it with its level, and the sill that ends it.
const WEIR: usize = 163;
const HALF: usize = 7;
const CREST: usize = 8;
const POOL: RangeInclusive<usize> = 171..=384;
const LEVEL: usize = 4;

fn is_wall(x: usize, z: usize) -> bool {
    let weir = z <= CREST && x.abs_diff(WEIR) <= HALF - (z - 1) / 2;
    let sill = z <= LEVEL && x > *POOL.end();
    weir || sill
}

fn is_wet(x: usize, z: usize) -> bool {
    z <= TOP && x + z <= FOOT || z <= LEVEL && POOL.contains(&x)
}

/// Walls, and water at rest whose outermost cells are interface, half full.
fn scene() -> Result<Flume, Refusal> {
    let mut flume = Flume::new(SIDES, SETTINGS, SITE)?;
    let inner: Vec<usize> = (0..SIDES.cells()?).filter(|&cell| !SIDES.is_outer(cell)).collect();
    let outer = |x: usize, z: usize| x == 0 || z == 0 || x + 1 == SIDES.nx || z + 1 == SIDES.nz;
    let is_dry = |x: usize, z: usize| !outer(x, z) && !is_wall(x, z) && !is_wet(x, z);
    for cell in inner {
        let (x, z) = SIDES.position(cell);
        let beside_air = (x - 1..=x + 1).any(|x| (z - 1..=z + 1).any(|z| is_dry(x, z)));
        if is_wall(x, z) {
            flume.set_wall(cell)?;
        } else if is_wet(x, z) && beside_air {
            flume.set_interface(cell, ONE / 2)?;
        } else if is_wet(x, z) {
            flume.set_fluid(cell, ONE)?;
        }
    }
    Ok(flume)
}

/// One line of the table.
fn line(step: usize, flume: &Flume, start: i64) -> String {
    let water = flume.water();
    let [fluid, interface, carry, total, lost] =
        [water.fluid, water.interface, water.carry, water.total(), start - water.total()].map(grouped);
    format!("{step:>6} {fluid:>14} {interface:>14} {carry:>8} {total:>14} {lost:>6}")
}

fn put(folder: &Path, name: &str, bytes: &[u8]) -> Result<(), Box<dyn Error>> {
    let file = folder.join(name);
    fs::write(&file, bytes).map_err(|error| format!("{}: {error}", file.display()))?;
    Ok(())
}

fn draw(folder: &Path, step: usize, flume: &Flume) -> Result<(), Box<dyn Error>> {
    let drawing = Drawing::of_flume(flume).named(&format!("step {step}"));
    put(folder, &format!("weir-{step:04}.png"), &drawing.picture().png())
}

/// Makes the steps, tells how the water stands and draws it; on a terminal a line moves between the lines that stay.
fn advance(flume: &mut Flume, start: i64, folder: &Path) -> Result<(), Box<dyn Error>> {
    let in_place = stdout().is_terminal();
    println!("  step          fluid    + interface  + carry        = total   lost");
    println!("{}", line(0, flume, start));
    draw(folder, 0, flume)?;
    let clock = Instant::now();
    for step in (STRIDE..=STEPS).step_by(STRIDE) {
        flume.run(STRIDE)?;
        let (stays, told) = (step % ROW == 0, line(step, flume, start));
        if in_place {
            let rate = step as f64 / clock.elapsed().as_secs_f64();
            print!("\r{told}  {:<18}", format!("{} steps/s", counted(rate as usize)));
            stdout().flush()?;
        }
        if stays {
            println!("{}", if in_place { format!("\r{told}  {:<18}", "") } else { told });
            draw(folder, step, flume)?;
        }
    }
    Ok(())
}

fn play(folder: &Path) -> Result<(), Box<dyn Error>> {
    fs::create_dir_all(folder).map_err(|error| format!("{}: {error}", folder.display()))?;
    let mut flume = scene()?;
    let (start, counts) = (flume.total(), flume.counts());
    println!(
        "{} x {} cells of {} mm, {} of them open; {} units fill a cell",
        SIDES.nx,
        SIDES.nz,
        SITE.edge,
        counted(counts.empty + counts.liquid()),
        grouped(ONE)
    );
    put(folder, "weir-before.rec", &flume.to_record()?)?;

    let clock = Instant::now();
    let made = advance(&mut flume, start, folder);
    println!(
        "{:.1} seconds with the pictures, which are in {}",
        clock.elapsed().as_secs_f64(),
        folder.display()
    );
    // A refused step leaves the state before it, which can be looked at as well.
    put(folder, "weir-after.rec", &flume.to_record()?)?;
    print!("{}", Drawing::of_flume(&flume).named("the end").text_within(100));
    made?;
    match start - flume.total() {
        0 => Ok(()),
        lost => Err(format!("{lost} units of water are lost").into()),
    }
}

fn main() -> ExitCode {
    let folder = PathBuf::from(std::env::args_os().nth(1).unwrap_or(".".into()));
    match play(&folder) {
        Ok(()) => ExitCode::SUCCESS,
        Err(error) => {
            eprintln!("weir: {error}");
            ExitCode::FAILURE
        }
    }
}
