// The run: steps until the number asked is made or one is refused.

use crate::grid::{Grid, Refusal};
use crate::sets::SetMut;
use crate::state::State;
use crate::step::{next_state, tested};
use crate::turbulence::Relaxation;

pub const MOST_STEPS: u32 = 1000;

/// How many steps were accepted, and what stopped the run before its end.
#[derive(Clone, Copy, Debug, PartialEq, Eq)]
pub struct Run {
    pub count: u32,
    pub refusal: Option<Refusal>,
}

/// Step after step from a good state, until one is refused or so many are made.
pub(crate) fn advance(
    grid: &Grid,
    state: &mut State,
    relaxation: Relaxation,
    gravity: [i32; 3],
    steps: u32,
) -> Run {
    let mut outcome = Run { count: 0, refusal: None };
    while outcome.count < steps && outcome.refusal.is_none() {
        match next_state(grid, state, relaxation, gravity) {
            Ok(next) => {
                *state = next;
                outcome.count += 1;
            }
            Err(refusal) => outcome.refusal = Some(refusal),
        }
    }
    outcome
}

pub fn run(
    sides: [u32; 3],
    relaxation: impl Into<Relaxation>,
    gravity: [i32; 3],
    steps: u32,
    mut first: SetMut,
    mut second: SetMut,
    marks: &mut [u8],
) -> Run {
    if steps > MOST_STEPS {
        return Run { count: 0, refusal: Some(Refusal { number: 9, place: 0 }) };
    }
    let relaxation = relaxation.into();
    let tested = tested(sides, relaxation.p, gravity, first.as_set(), second.as_set(), marks);
    let (grid, mut state) = match tested {
        Ok(accepted) => accepted,
        Err(refusal) => return Run { count: 0, refusal: Some(refusal) },
    };
    let outcome = advance(&grid, &mut state, relaxation, gravity, steps);
    first.put(&state);
    second.put(&state);
    marks.fill(0);
    outcome
}
