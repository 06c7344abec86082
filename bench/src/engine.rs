// What every step in whole numbers offers here: the step and the run of document 01 over the same lent sets, each with its index.

use oracle::{Held, HeldMut, SetMut};

/// The settings that a step takes, the box's unless it is said.
#[derive(Clone, Copy, Debug, PartialEq, Eq)]
pub struct Settings<const AXES: usize = 3> {
    pub p: i64,
    pub gravity: [i64; AXES],
    /// The mode. What is written by hand has the plain one alone, and is not asked for the other.
    pub turbulent: bool,
}

/// Number and place of a refusal, 0 0 where there is none.
#[derive(Clone, Copy, Debug, PartialEq, Eq)]
pub struct Answer {
    pub number: u8,
    pub place: usize,
}

pub const ACCEPTED: Answer = Answer { number: 0, place: 0 };

impl Answer {
    pub fn refused(number: u8, place: usize) -> Answer {
        Answer { number, place }
    }
}

/// What a run answers: how many steps were accepted, and what stopped it.
#[derive(Clone, Copy, Debug, PartialEq, Eq)]
pub struct Ran {
    pub count: usize,
    pub answer: Answer,
}

pub type Step = fn([usize; 3], Settings, Held, HeldMut, &mut [u8]) -> Answer;
pub type Run = fn([usize; 3], Settings, usize, HeldMut, HeldMut, &mut [u8]) -> Ran;

/// One implementation of document 01's step and run. Only the proved one looks at the index, and keeps it.
#[derive(Clone, Copy)]
pub struct Engine {
    pub name: &'static str,
    pub step: Step,
    pub run: Run,
    /// Whether it has the turbulent mode too.
    pub turbulent: bool,
}

/// Lends a set once more, for a call that takes it by value.
pub fn lend_again<'a>(set: &'a mut SetMut) -> SetMut<'a> {
    SetMut { flags: set.flags, parts: set.parts, masses: set.masses, fills: set.fills, carry: set.carry }
}
