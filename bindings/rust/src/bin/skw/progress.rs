// A line in place on standard error, where that is a terminal: how far a long run is, how fast, and how long it will take.

use std::io::{stderr, IsTerminal, Write};
use std::time::{Duration, Instant};

use skwarzyna::spelling::grouped;

/// Runs that are shorter than the first show nothing; the line is written anew after the second.
const FIRST: Duration = Duration::from_millis(500);
const NEXT: Duration = Duration::from_millis(200);

pub struct Progress {
    steps: u64,
    start: Instant,
    shown: Option<Instant>,
    wanted: bool,
    length: usize,
}

impl Progress {
    pub fn new(steps: u64, quiet: bool) -> Progress {
        let wanted = !quiet && stderr().is_terminal();
        Progress { steps, start: Instant::now(), shown: None, wanted, length: 0 }
    }

    pub fn seconds(&self) -> f64 {
        self.start.elapsed().as_secs_f64()
    }

    /// So many steps are made.
    pub fn show(&mut self, made: u64) {
        let due = match self.shown {
            None => self.start.elapsed() >= FIRST,
            Some(last) => last.elapsed() >= NEXT,
        };
        if self.wanted && due {
            self.shown = Some(Instant::now());
            self.line(&line(made, self.steps, self.seconds()));
        }
    }

    /// Takes the line away.
    pub fn end(&mut self) {
        if self.length > 0 {
            self.line("");
            let _ = write!(stderr(), "\r");
        }
    }

    fn line(&mut self, text: &str) {
        let _ = write!(stderr(), "\r{text:<width$}", width = self.length);
        let _ = stderr().flush();
        self.length = text.len();
    }
}

fn line(made: u64, steps: u64, seconds: f64) -> String {
    let rate = made as f64 / seconds;
    let percent = made as f64 / steps.max(1) as f64 * 100.0;
    let rated = if rate < 10.0 { format!("{rate:.1}") } else { grouped(rate as u64) };
    let left = lasting((steps - made) as f64 / rate);
    format!("{} of {} steps ({percent:.0} %), {rated} steps/s, {left} left", grouped(made), grouped(steps))
}

/// A time in its two largest units.
pub fn lasting(seconds: f64) -> String {
    const UNITS: [(&str, u64); 4] = [("s", 1), ("min", 60), ("h", 3600), ("days", 86_400)];
    if seconds < 10.0 {
        return format!("{seconds:.1} s");
    }
    let whole = seconds as u64;
    let largest = UNITS.iter().rposition(|(_, unit)| whole >= *unit).unwrap_or(0);
    let (name, unit) = UNITS[largest];
    let text = format!("{} {name}", grouped(whole / unit));
    match largest {
        0 => text,
        3 if whole / unit > 99 => text,
        _ => {
            let (below, smaller) = UNITS[largest - 1];
            format!("{text} {} {below}", whole % unit / smaller)
        }
    }
}

#[cfg(test)]
mod tests {
    use super::*;

    #[test]
    fn times_are_told() {
        for (seconds, text) in [
            (0.0, "0.0 s"),
            (9.94, "9.9 s"),
            (59.9, "59 s"),
            (61.0, "1 min 1 s"),
            (7265.0, "2 h 1 min"),
            (200_000.0, "2 days 7 h"),
            (8_640_000.0, "100 days"),
        ] {
            assert_eq!(lasting(seconds), text);
        }
        assert_eq!(line(500, 2000, 10.0), "500 of 2,000 steps (25 %), 50 steps/s, 30 s left");
        // As many steps as can be asked for, at a rate that is not much.
        assert!(line(1, u64::MAX, 1.0).ends_with("days left"));
    }
}
