// A line in place on standard error, where that is a terminal: how far the run is, how fast, and how long it will take.

use std::io::{stderr, IsTerminal, Write};
use std::time::Instant;

use skwarzyna::spelling::counted;

pub struct Progress {
    steps: usize,
    start: Instant,
    wanted: bool,
    length: usize,
}

impl Progress {
    pub fn new(steps: usize) -> Progress {
        Progress { steps, start: Instant::now(), wanted: stderr().is_terminal(), length: 0 }
    }

    pub fn seconds(&self) -> f64 {
        self.start.elapsed().as_secs_f64()
    }

    /// So many steps are made.
    pub fn show(&mut self, made: usize) {
        if made > 0 {
            let rate = made as f64 / self.seconds();
            let (percent, left) = (100 * made / self.steps, (self.steps - made) as f64 / rate);
            let (made, steps, rate) = (counted(made), counted(self.steps), counted(rate as usize));
            self.line(&format!("{made} of {steps} steps ({percent} %), {rate} steps/s, {left:.0} s left"));
        }
    }

    /// Takes the line away, so that another can stay.
    pub fn clear(&mut self) {
        if self.length > 0 {
            self.line("");
        }
    }

    fn line(&mut self, text: &str) {
        if self.wanted {
            eprint!("\r{text:<width$}{}", if text.is_empty() { "\r" } else { "" }, width = self.length);
            let _ = stderr().flush();
            self.length = text.len();
        }
    }
}
