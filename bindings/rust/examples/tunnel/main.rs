// From a scan to a pump. The invert of a bored tunnel, a gutter with two sumps in it, is read from an ASCII grid of heights. A hose at its upper end wets
// it, a joint above the lower sump seeps, and the water runs down the gutter into the sumps, in the turbulent mode; then a pump is switched on in the
// lower, deeper sump, and at last the hose is shut. Told on the way and at the end: where the water is, the pools one by one, the long profile, the depth
// map, that mirrored water does the mirrored thing, and the balance to the unit. All of it is written into FOLDER, which is made if need be.
//
//     cargo run --release --offline --example tunnel ../../examples/tunnel.asc FOLDER [STEPS]
//
// Here: the run. tunnel.rs has hose, seep, pump and drops, told.rs what is printed and written, progress.rs the line on a terminal.

mod progress;
mod told;
mod tunnel;

use std::error::Error;
use std::fs;
use std::path::Path;
use std::process::ExitCode;

use skwarzyna::spelling::counted;
use skwarzyna::{InMode, Mode, Settings};

use progress::Progress;
use tunnel::{Source, Tunnel};

type Outcome<T> = Result<T, Box<dyn Error>>;

/// Cells in height, and the height of the origin in millimetres.
const NZ: usize = 24;
const HEIGHT: i64 = 512_000;
/// Nearly the strongest gravity that there is, and a p with which no step of this run is refused; with some others one is (docs/DECISIONS.md).
const SETTINGS: Settings = Settings { p: 1800, gx: 0, gy: 0, gz: -1000 };
const FLOWING: InMode<Settings> = SETTINGS.in_mode(Mode::Turbulent);
/// Steps if none are said. For six ninths of them the hose runs alone, for two beside the pump, and in the last it is shut.
const STEPS: usize = 18_000;
const PARTS: usize = 9;
const PUMP_ON: usize = 6;
const HOSE_OFF: usize = 8;
/// Steps between two strokes of hose, seep and pump; and strokes between two looks for drops.
const STROKE: usize = 2;
const LOOK: usize = 25;
/// At so many strokes from the start there is a look into the mirror, and then at one in as many.
const MIRRORED: usize = 100;
/// Lines of the table.
const LINES: usize = 18;

/// Across, the middle of the gutter.
const MIDDLE: usize = 9;
const HOSE: Source = Source { at: (4, MIDDLE), reach: 2, amount: 150_000 };
const SEEP: Source = Source { at: (109, MIDDLE), reach: 1, amount: 20_000 };
/// What the pump lifts at a stroke, at most.
const LIFTED: i64 = 200_000;

/// Makes the steps. Refused, with 7 or 8, the tunnel is as it was before that step.
fn advance(tunnel: &mut Tunnel, steps: usize, folder: &Path) -> Outcome<()> {
    // In strokes.
    let part = |ninths: usize| steps * ninths / PARTS / STROKE;
    let (halfway, pump_on, hose_off) = (part(PUMP_ON) / 2, part(PUMP_ON), part(HOSE_OFF));
    let told = (steps / STROKE / LINES).max(1);
    let mut progress = Progress::new(steps);
    told::heading();
    for stroke in 0..steps.div_ceil(STROKE) {
        let step = stroke * STROKE;
        if stroke % told == 0 {
            progress.clear();
            println!("{}", told::line(tunnel, step)?);
        }
        if stroke == halfway {
            progress.clear();
            println!("        the pools by now:");
            told::pools(tunnel)?;
            told::apart(tunnel)?;
        }
        if stroke == pump_on {
            progress.clear();
            told::put(folder, "pump-on.rec", &tunnel.grid.write(SETTINGS, tunnel.site)?)?;
            told::put(folder, "pump-on.png", &told::profile(tunnel, 1)?.picture().png())?;
            println!("        the pump is switched on");
        }
        if stroke == hose_off {
            progress.clear();
            println!("        the hose is shut");
        }

        if stroke < hose_off {
            tunnel.account.hose += HOSE.pour(&mut tunnel.grid)?;
        }
        tunnel.account.seep += SEEP.pour(&mut tunnel.grid)?;
        if stroke >= pump_on {
            tunnel.lift(LIFTED)?;
        }
        if stroke % LOOK == 0 {
            tunnel.gather_drops(&[HOSE, SEEP])?;
            progress.show(step);
        }
        if stroke < MIRRORED || stroke % MIRRORED == 0 {
            tunnel.look_in_the_mirror(SETTINGS, Mode::Turbulent)?;
        }
        let run = tunnel.grid.run(STROKE.min(steps - step), FLOWING);
        run.map_err(|stopped| format!("step {}: {}", step + stopped.count, stopped.refusal))?;
    }
    progress.clear();
    println!("{}", told::line(tunnel, steps)?);
    println!("{} steps took {:.1} seconds", counted(steps), progress.seconds());
    Ok(())
}

fn play(invert: &Path, folder: &Path, steps: usize) -> Outcome<()> {
    let mut tunnel = Tunnel::read(invert, NZ, HEIGHT, SETTINGS)?;
    fs::create_dir_all(folder).map_err(|error| format!("{}: {error}", folder.display()))?;
    told::beginning(invert, &tunnel);
    let made = advance(&mut tunnel, steps, folder);
    // A refused step leaves the state before it, which is told as well.
    told::end(&tunnel, folder)?;
    told::mirrored(&tunnel);
    told::balance(&tunnel)?;
    made
}

fn main() -> ExitCode {
    let words: Vec<String> = std::env::args().skip(1).collect();
    let steps = match &words[..] {
        [_, _] => Some(STEPS),
        [_, _, steps] => steps.parse().ok().filter(|&steps| steps >= PARTS * STROKE),
        _ => None,
    };
    let Some(steps) = steps else {
        eprintln!(
            "usage: tunnel INVERT FOLDER [STEPS]: the ASCII grid to read, the folder to write into, and {} steps or more, {} if not said",
            PARTS * STROKE,
            counted(STEPS)
        );
        return ExitCode::FAILURE;
    };
    match play(Path::new(&words[0]), Path::new(&words[1]), steps) {
        Ok(()) => ExitCode::SUCCESS,
        Err(error) => {
            eprintln!("tunnel: {error}");
            ExitCode::FAILURE
        }
    }
}
