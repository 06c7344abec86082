// What step and run have in common, in the box and in the flume: lots that the library makes at a time, the line of progress, being asked to end, and
// what is told at the end.

use std::time::{Duration, Instant};

use skwarzyna::spelling::grouped;
use skwarzyna::{Mode, Refusal, Stopped};

use crate::arguments::{Arguments, QUIET, TURBULENT};
use crate::failure::{remark, Failure};
use crate::files::{Input, Output};
use crate::interrupt;
use crate::progress::{lasting, Progress};

/// The library's limit to the steps of one run.
const LOT: u64 = 1000;
/// A lot is to take about this long, so that a run can be watched and ended.
const SHORT: Duration = Duration::from_millis(50);
const LONG: Duration = Duration::from_millis(200);

/// What a record holds, with its own settings.
pub trait Runs {
    fn run(&mut self, steps: usize, mode: Mode) -> Result<(), Stopped>;
    fn total(&self) -> i64;
    fn write(&self, output: &Output) -> Result<(), Failure>;
    /// A refusal as a person can find its place.
    fn told(&self, refusal: Refusal) -> String;
}

/// How a run ended.
struct Ended {
    made: u64,
    refusal: Option<Refusal>,
    signal: Option<u8>,
}

/// Reads what is to run, makes the steps, and writes the state reached.
pub fn steps<R: Runs>(
    mut arguments: Arguments,
    steps: u64,
    read: impl FnOnce(&Input) -> Result<R, Failure>,
) -> Result<(), Failure> {
    let quiet = arguments.has(&QUIET);
    let mode = if arguments.has(&TURBULENT) { Mode::Turbulent } else { Mode::Plain };
    let (input, output) = (arguments.input()?, arguments.output(true)?);
    // Before the work, so that hours of it are not lost to a name that cannot be written.
    output.ready()?;
    let mut runs = read(&input)?;
    let before = runs.total();

    interrupt::listen();
    let mut progress = Progress::new(steps, quiet);
    let ended = advance(&mut runs, steps, mode, &mut progress);
    progress.end();
    runs.write(&output)?;

    let named = if mode.is_turbulent() { "turbulent steps" } else { "steps" };
    let made = format!("{} of {} {named} made", grouped(ended.made), grouped(steps));
    let kept = format!("the state reached is in {}", output.name());
    if let Some(refusal) = ended.refusal {
        let why = runs.told(refusal);
        return Err(Failure::Refused(format!("{}: {why}; {made}; {kept}", input.name())));
    }
    if let Some(signal) = ended.signal {
        return Err(Failure::Interrupted(format!("interrupted: {made}; {kept}"), signal));
    }
    if !quiet {
        let [before, after] = [before, runs.total()].map(grouped);
        remark(&format!(
            "{made} in {}; total {before} units before, {after} after",
            lasting(progress.seconds())
        ));
    }
    Ok(())
}

/// Makes the steps until all are made, one is refused, or somebody asks to end.
fn advance(runs: &mut impl Runs, steps: u64, mode: Mode, progress: &mut Progress) -> Ended {
    let (mut made, mut lot) = (0, 1);
    while made < steps {
        if let Some(signal) = interrupt::asked() {
            return Ended { made, refusal: None, signal: Some(signal) };
        }
        let count = lot.min(steps - made);
        let start = Instant::now();
        if let Err(stopped) = runs.run(count as usize, mode) {
            made += stopped.count as u64;
            return Ended { made, refusal: Some(stopped.refusal), signal: None };
        }
        made += count;
        match start.elapsed() {
            took if took < SHORT => lot = (2 * lot).min(LOT),
            took if took > LONG => lot = (lot / 2).max(1),
            _ => (),
        }
        progress.show(made);
    }
    Ended { made, refusal: None, signal: None }
}
