// How the cost of a step grows: over the number of cells at one liquid share, and over the share at one number of cells.

use crate::engine::Engine;
use crate::measure::{steps_in, Bench, Effort, Way};
use crate::scenes::{liquid_cells, tank_at_rest};

/// One tank's cost, in seconds per step of a run.
pub struct Point {
    pub side: usize,
    pub cells: usize,
    pub liquid: usize,
    pub seconds: Vec<f64>,
}

/// Sixteenths of the height that the tanks of the second table are filled to: each has one layer of interface cells.
const SHARES: [usize; 7] = [1, 2, 4, 6, 8, 12, 15];

/// Tanks of these sides, two fifths of all their cells liquid: the walls take more of a small one.
pub fn over_cells(engines: &[Engine], sides: &[usize], effort: Effort) -> Vec<Point> {
    let depth = |side: usize| {
        let layer = (side - 2) * (side - 2);
        (2 * side.pow(3) + 5 * layer / 2) / (5 * layer)
    };
    sides.iter().map(|&side| point(engines, side, depth(side), effort)).collect()
}

/// Tanks of one side, filled to different heights.
pub fn over_share(engines: &[Engine], side: usize, effort: Effort) -> Vec<Point> {
    SHARES.iter().map(|&share| point(engines, side, (side - 2) * share / 16, effort)).collect()
}

/// The tank rests from the start, so it is timed without steps before.
fn point(engines: &[Engine], side: usize, depth: usize, effort: Effort) -> Point {
    let scene = tank_at_rest(side, depth);
    let mut bench = Bench::new(&scene, 0);
    let steps = steps_in(effort.seconds, &mut bench);
    let mut seconds = vec![f64::INFINITY; engines.len()];
    for _ in 0..effort.rounds {
        for (engine, best) in engines.iter().zip(&mut seconds) {
            *best = best.min(bench.time(*engine, Way::Run, steps));
        }
    }
    let flags = &scene.store.flags;
    Point { side, cells: flags.len(), liquid: liquid_cells(flags), seconds }
}

/// The line of least squares through points: its value at 0, and its slope.
pub fn line(points: &[(f64, f64)]) -> (f64, f64) {
    let count = points.len() as f64;
    let mean = |of: fn(&(f64, f64)) -> f64| points.iter().map(of).sum::<f64>() / count;
    let (x, y) = (mean(|point| point.0), mean(|point| point.1));
    let spread: f64 = points.iter().map(|point| (point.0 - x).powi(2)).sum();
    let together: f64 = points.iter().map(|point| (point.0 - x) * (point.1 - y)).sum();
    let slope = together / spread;
    (y - slope * x, slope)
}

/// The power of the number of cells that the time follows: 1 where the cost is linear.
pub fn power(points: &[Point], engine: usize) -> f64 {
    let logs: Vec<(f64, f64)> =
        points.iter().map(|point| ((point.cells as f64).ln(), point.seconds[engine].ln())).collect();
    line(&logs).1
}

/// The line over liquid cells at one number of cells: what the box costs, what a liquid cell adds, and how far, as a
/// share of its time, the furthest point lies from the line.
pub fn linear(points: &[Point], engine: usize) -> (f64, f64, f64) {
    let points: Vec<(f64, f64)> =
        points.iter().map(|point| (point.liquid as f64, point.seconds[engine])).collect();
    let (start, slope) = line(&points);
    let apart = |&(x, y): &(f64, f64)| ((start + slope * x) / y - 1.0).abs();
    (start, slope, points.iter().map(apart).fold(0.0, f64::max))
}
