// The flume's run: steps until the number asked is made or one is refused.

use crate::flume::sets::put;
use crate::flume::step::{next_state, tested};
use crate::grid::Refusal;
use crate::run::{Run, MOST_STEPS};
use crate::sets::SetMut;
use crate::turbulence::Relaxation;

pub fn run(
    sides: [u32; 2],
    relaxation: impl Into<Relaxation>,
    gravity: [i32; 2],
    steps: u32,
    mut first: SetMut,
    mut second: SetMut,
    marks: &mut [u8],
) -> Run {
    if steps > MOST_STEPS {
        return Run { count: 0, refusal: Some(Refusal { number: 9, place: 0 }) };
    }
    let relaxation = relaxation.into();
    let tested = tested(sides, relaxation.p, gravity, first.as_set(), second.as_set(), marks);
    let (grid, mut state) = match tested {
        Ok(accepted) => accepted,
        Err(refusal) => return Run { count: 0, refusal: Some(refusal) },
    };
    let mut outcome = Run { count: 0, refusal: None };
    while outcome.count < steps && outcome.refusal.is_none() {
        match next_state(&grid, &state, relaxation, gravity) {
            Ok(next) => (state, outcome.count) = (next, outcome.count + 1),
            Err(refusal) => outcome.refusal = Some(refusal),
        }
    }
    put(&mut first, &state);
    put(&mut second, &state);
    marks.fill(0);
    outcome
}
