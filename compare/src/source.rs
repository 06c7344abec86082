// Where a record comes from; its name says how to make it again.

use std::fmt::{Display, Formatter, Result};

use oracle::damage::bad;
use oracle::scenes::{case_t, good, Scene};
use oracle::state::{Cell, State, WALL};

use crate::small::Small;

#[derive(Clone, Copy)]
pub enum Source {
    Good(u64),
    Damaged(u64),
    /// A small record's first bytes.
    Cut(Small, usize),
    /// A small record with another byte at a place.
    Changed(Small, usize, u8),
    /// A small record, and zeros up to a length.
    Followed(Small, usize),
    /// A box of these sides, all wall.
    Solid([u32; 3]),
}

impl Source {
    pub fn bytes(self) -> Vec<u8> {
        match self {
            Source::Good(seed) => good(seed).record(),
            Source::Damaged(seed) => bad(seed).bytes,
            Source::Cut(small, length) => small.record()[..length].to_vec(),
            Source::Changed(small, at, byte) => {
                let mut bytes = small.record();
                bytes[at] = byte;
                bytes
            }
            Source::Followed(small, length) => {
                let mut bytes = small.record();
                bytes.resize(length, 0);
                bytes
            }
            Source::Solid(sides) => {
                let cells = sides.iter().product::<u32>() as usize;
                let state = State::new(vec![Cell::blank(WALL); cells], 0);
                Scene { sides, state, ..case_t() }.record()
            }
        }
    }
}

impl Display for Source {
    fn fmt(&self, f: &mut Formatter) -> Result {
        match self {
            Source::Good(seed) => write!(f, "good seed {seed}"),
            Source::Damaged(seed) => write!(f, "bad seed {seed}"),
            Source::Cut(small, length) => write!(f, "{}, its first {length} bytes", small.name()),
            Source::Changed(small, at, byte) => write!(f, "{}, byte {at} made {byte}", small.name()),
            Source::Followed(small, length) => write!(f, "{}, zeros up to {length} bytes", small.name()),
            Source::Solid(sides) => write!(f, "a solid box of sides {sides:?}"),
        }
    }
}
