// What every step of the flume in whole numbers offers here, and the proved one, called as a host calls it.

use oracle::{Set, SetMut};

use super::Settings;
use crate::engine::{Answer, Ran};
use crate::plain;

pub type Step = fn([usize; 2], Settings, Set, SetMut, &mut [u8]) -> Answer;
pub type Run = fn([usize; 2], Settings, usize, SetMut, SetMut, &mut [u8]) -> Ran;

/// One implementation of the flume's step and run.
#[derive(Clone, Copy)]
pub struct Engine {
    pub name: &'static str,
    pub step: Step,
    pub run: Run,
    /// Whether it has the turbulent mode too.
    pub turbulent: bool,
}

pub const PLAIN: Engine = Engine {
    name: plain::PLAIN.name,
    step: plain::step::<9, 2, false>,
    run: |sides, settings, steps, first, second, marks| {
        plain::run::<9, 2, false>(sides, settings, steps, first, second, marks)
    },
    turbulent: false,
};

/// The same, but that a dry cell's zeros are looked for before they are written.
pub const LOOKING: Engine = Engine {
    name: plain::LOOKING.name,
    step: plain::step::<9, 2, true>,
    run: |sides, settings, steps, first, second, marks| {
        plain::run::<9, 2, true>(sides, settings, steps, first, second, marks)
    },
    turbulent: false,
};

/// The proved step and run, if bench/run linked the library.
#[cfg(feature = "library")]
pub fn proved() -> Option<Engine> {
    Some(Engine { name: "proved", step: linked::step, run: linked::run, turbulent: true })
}

#[cfg(not(feature = "library"))]
pub fn proved() -> Option<Engine> {
    None
}

#[cfg(feature = "library")]
mod linked {
    use oracle::{Set, SetMut};
    use skwarzyna::flume::{lent, Settings, Sides};
    use skwarzyna::{InMode, Refusal, State, StateMut};

    use crate::engine::{Answer, Ran, ACCEPTED};
    use crate::flume;
    use crate::native::linked::mode;

    fn sides([nx, nz]: [usize; 2]) -> Sides {
        Sides { nx, nz }
    }

    fn settings(wish: flume::Settings) -> InMode<Settings> {
        let flume::Settings { p, gravity: [gx, gz], turbulent } = wish;
        Settings { p, gx, gz }.in_mode(mode(turbulent))
    }

    fn state(set: Set) -> State {
        State { flags: set.flags, parts: set.parts, masses: set.masses, fills: set.fills, carry: set.carry }
    }

    fn state_mut(set: SetMut) -> StateMut {
        StateMut {
            flags: set.flags,
            parts: set.parts,
            masses: set.masses,
            fills: set.fills,
            carry: set.carry,
        }
    }

    fn refused(refusal: Refusal) -> Answer {
        Answer { number: refusal.number, place: refusal.place }
    }

    pub fn step(
        size: [usize; 2],
        wish: flume::Settings,
        first: Set,
        second: SetMut,
        marks: &mut [u8],
    ) -> Answer {
        lent::step(sides(size), settings(wish), state(first), state_mut(second), marks)
            .map_or_else(refused, |()| ACCEPTED)
    }

    pub fn run(
        size: [usize; 2],
        wish: flume::Settings,
        steps: usize,
        first: SetMut,
        second: SetMut,
        marks: &mut [u8],
    ) -> Ran {
        match lent::run(sides(size), settings(wish), steps, state_mut(first), state_mut(second), marks) {
            Ok(()) => Ran { count: steps, answer: ACCEPTED },
            Err(stopped) => Ran { count: stopped.count, answer: refused(stopped.refusal) },
        }
    }
}
