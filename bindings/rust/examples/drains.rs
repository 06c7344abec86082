// Two designers' drains on one scan of a tunnel. The first lets water run down the invert to a weir, with a spring at its upper end; the second
// keeps a sump at the lower end and pumps it. They share the walls, and each has water of its own that the other never sees. Steps both schemes, asks
// for walls on the way, tells both balances to the unit, and writes a section of each as picture and text into FOLDER, or into the current folder;
// and their records, for skw.
//
//     cargo run --release --offline --example drains [FOLDER]

use std::error::Error;
use std::fs;
use std::ops::RangeInclusive;
use std::path::{Path, PathBuf};
use std::process::ExitCode;
use std::time::Instant;

use skwarzyna::drawing::{Axis, Drawing, View};
use skwarzyna::spelling::grouped;
use skwarzyna::{Designer, Grid, Point, Refusal, Scan, Scheme, Settings, Sides, Site, ONE};

const SIDES: Sides = Sides::new(32, 11, 14);
/// Cells of 50 millimetres, from the survey's own origin.
const SITE: Site = Site { edge: 50, origin: Point::new(0, 0, 0) };
/// As viscous as the sump's, and gravity of about two ten-thousandths of a cell per step and step.
const SETTINGS: Settings = Settings { p: 1500, gx: 0, gy: 0, gz: -200 };
const STEPS: usize = 8000;
/// Steps between two strokes of pump and spring, and between two lines of the table.
const STROKE: usize = 100;
const ROW: usize = 1000;

/// Along x: the water at the upper end, the wall with the slot that it leaks through, where the weir will stand, and the sump.
const POOL: RangeInclusive<usize> = 1..=6;
const SLOT: usize = 7;
const WEIR: usize = 13;
const SUMP: RangeInclusive<usize> = 21..=30;
const MIDDLE: usize = 5;
/// The top of the first designer's water at the upper end, and of the second's in the sump.
const TOP: usize = 11;
const FLOOD: usize = 3;
/// Where the first asks for a wall in the sump, at the surface of the second's water.
const BEAM: (usize, usize, usize) = (25, MIDDLE, FLOOD + 1);
/// What the spring gives at a stroke, and what the pump lifts at most.
const SPRING: i64 = 150_000;
const PUMP: i64 = 400_000;

const BOTH: [(Designer, &str); 2] = [(Designer::First, "first"), (Designer::Second, "second")];

/// The lowest open cell of the invert in this column.
fn invert(x: usize) -> usize {
    if SUMP.contains(&x) {
        1
    } else {
        8 - (x - 1) / 4
    }
}

/// Whether the scan has a cell inside the outer layer open.
fn open(x: usize, y: usize, z: usize) -> bool {
    let slot = y.abs_diff(MIDDLE) <= 2 && z < invert(x) + 3;
    z >= invert(x) && (x != SLOT || slot)
}

/// The scan: the walls, and no water in either scheme.
fn scanned() -> Result<Scan, Refusal> {
    let mut survey = Grid::new(SIDES)?;
    for cell in 0..SIDES.cells()? {
        let (x, y, z) = SIDES.position(cell);
        if !SIDES.is_outer(cell) && !open(x, y, z) {
            survey.set_wall(cell)?;
        }
    }
    Scan::around(&survey)
}

/// Water at rest in these columns up to a height.
fn lay(scheme: &mut Scheme, columns: RangeInclusive<usize>, top: usize) -> Result<(), Refusal> {
    for cell in 0..SIDES.cells()? {
        let (x, y, z) = SIDES.position(cell);
        if !SIDES.is_outer(cell) && columns.contains(&x) && z <= top && open(x, y, z) {
            // What the water above presses out: at rest, density grows by 3 g from cell to cell downwards.
            let above = (top - z) as i64;
            let mass = i64::from(ONE) - 3 * i64::from(ONE) * SETTINGS.gz * above / 1_048_576;
            scheme.set_fluid(cell, mass as i32)?;
        }
    }
    Ok(())
}

/// The interface cell with most water in these columns.
fn wettest(grid: &Grid, columns: RangeInclusive<usize>) -> Result<Option<usize>, Refusal> {
    let here = |cell: &usize| columns.contains(&SIDES.position(*cell).0);
    Ok(grid.surface(0)?.filter(here).max_by_key(|&cell| grid.state().masses[cell]))
}

/// What a designer asks for a cell, and what is told.
fn ask(
    scan: &mut Scan,
    (designer, name): (Designer, &str),
    wall: bool,
    at: (usize, usize, usize),
) -> Result<(), Refusal> {
    let cell = SIDES.cell(at.0, at.1, at.2)?;
    let mut scheme = scan.scheme(designer);
    let told = if wall { scheme.ask_wall(cell) } else { scheme.remove_wall(cell) };
    let asked = if wall { "asks for a wall at" } else { "asks for the wall to be taken out at" };
    let answer = told.map_or_else(|refusal| refusal.to_string(), |()| "it is so, for both".to_string());
    println!("        the {name} {asked} {at:?}: {answer}");
    Ok(())
}

/// The line of a designer's balance: what is in the cells and the carry, less what was poured and with what was taken, is the start.
fn line(step: usize, name: &str, grid: &Grid, start: i64) -> String {
    let water = grid.water();
    let numbers = [
        water.fluid + water.interface,
        water.carry,
        water.poured,
        water.taken,
        water.balance(),
        start - water.balance(),
    ];
    let [cells, carry, poured, taken, balance, lost] = numbers.map(grouped);
    format!("{step:>6} {name:<6} {cells:>13} {carry:>7} {poured:>11} {taken:>11} {balance:>13} {lost:>5}")
}

/// A stroke of the spring, or of the pump, each into its own scheme's water, and steps of both.
fn stroke(scan: &mut Scan) -> Result<(), Box<dyn Error>> {
    let mut first = scan.scheme(Designer::First);
    if let Some(cell) = wettest(first.grid(), POOL)? {
        first.pour(cell, SPRING)?;
    }
    first.run(STROKE, SETTINGS)?;
    let mut second = scan.scheme(Designer::Second);
    if let Some(cell) = wettest(second.grid(), SUMP)? {
        second.take(cell, PUMP)?;
    }
    second.run(STROKE, SETTINGS)?;
    Ok(())
}

/// Walls asked for before the first step, at half time and at the end.
fn asked(scan: &mut Scan, step: usize) -> Result<(), Refusal> {
    let [first, second] = BOTH;
    let foot = invert(WEIR);
    if step == 0 {
        for (y, z) in (1..SIDES.ny - 1).flat_map(|y| (foot..foot + 2).map(move |z| (y, z))) {
            scan.scheme(first.0).ask_wall(SIDES.cell(WEIR, y, z)?)?;
        }
        println!("        the first has a weir across the invert, two cells high");
        ask(scan, first, true, BEAM)?;
        ask(scan, second, true, (3, MIDDLE, 9))?;
    }
    if step == STEPS / 2 {
        ask(scan, second, true, (25, MIDDLE, 1))?;
        ask(scan, second, true, (WEIR, MIDDLE, foot))?;
    }
    if step == STEPS {
        // The first's water now stands behind the weir, and the pump has drawn the second's down.
        ask(scan, second, false, (WEIR, MIDDLE, foot))?;
        ask(scan, first, true, BEAM)?;
    }
    Ok(())
}

fn put(folder: &Path, name: &str, bytes: &[u8]) -> Result<(), Box<dyn Error>> {
    let file = folder.join(name);
    fs::write(&file, bytes).map_err(|error| format!("{}: {error}", file.display()))?;
    println!("written: {}", file.display());
    Ok(())
}

/// Both schemes' sections along the middle, and their records.
fn write(folder: &Path, scan: &Scan) -> Result<(), Box<dyn Error>> {
    for (designer, name) in BOTH {
        let (grid, title) = (scan.grid(designer), format!("drains-{name}"));
        let drawing = Drawing::new(grid, SITE, View::Section(Axis::Y, MIDDLE))?.named(&title);
        put(folder, &format!("{title}.png"), &drawing.picture().png())?;
        put(folder, &format!("{title}.txt"), drawing.text().as_bytes())?;
        put(folder, &format!("{title}.rec"), &grid.write(SETTINGS, SITE)?)?;
    }
    Ok(())
}

fn play(folder: &Path) -> Result<(), Box<dyn Error>> {
    fs::create_dir_all(folder).map_err(|error| format!("{}: {error}", folder.display()))?;
    let mut scan = scanned()?;
    lay(&mut scan.scheme(Designer::First), POOL, TOP)?;
    lay(&mut scan.scheme(Designer::Second), SUMP, FLOOD)?;
    let starts = BOTH.map(|(designer, _)| scan.grid(designer).total());
    let walls = scan.map().iter().filter(|&&byte| byte == 1).count();
    println!(
        "{} x {} x {} cells of {} mm, {walls} of them wall; {} units fill a cell",
        SIDES.nx,
        SIDES.ny,
        SIDES.nz,
        SITE.edge,
        grouped(ONE)
    );

    println!("  step whose          cells + carry    - poured     + taken       = start  lost");
    let clock = Instant::now();
    for step in 0..=STEPS {
        if step % ROW == 0 {
            for ((designer, name), start) in BOTH.into_iter().zip(starts) {
                println!("{}", line(step, name, scan.grid(designer), start));
            }
            asked(&mut scan, step)?;
        }
        if step % STROKE == 0 && step < STEPS {
            stroke(&mut scan)?;
        }
    }
    println!("{:.1} seconds", clock.elapsed().as_secs_f64());
    write(folder, &scan)?;

    for ((designer, name), start) in BOTH.into_iter().zip(starts) {
        let lost = start - scan.grid(designer).water().balance();
        if lost != 0 {
            return Err(format!("{lost} units of the {name}'s water are lost").into());
        }
    }
    Ok(())
}

fn main() -> ExitCode {
    let folder = PathBuf::from(std::env::args_os().nth(1).unwrap_or(".".into()));
    match play(&folder) {
        Ok(()) => ExitCode::SUCCESS,
        Err(error) => {
            eprintln!("drains: {error}");
            ExitCode::FAILURE
        }
    }
}
