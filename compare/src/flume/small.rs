// Three small records of the flume, whose every prefix and every changed byte is tried, and where any of its records comes from.

use std::fmt::{Display, Formatter, Result};

use oracle::flume::damage::bad;
use oracle::flume::scenes::{case_f, good, parts_at, Scene};
use oracle::flume::state::Cell;
use oracle::flume::Settings;
use oracle::lattice::ONE;
use oracle::state::{EMPTY, FLUID, INTERFACE};

#[derive(Clone, Copy, PartialEq, Eq)]
pub enum Small {
    /// Case F of the amendment.
    CaseF,
    /// An interface cell that fills towards an empty one.
    Filling,
    /// Fluid, and beside it an interface cell that empties.
    Emptying,
}

pub const SMALL: [Small; 3] = [Small::CaseF, Small::Filling, Small::Emptying];

impl Small {
    pub fn name(self) -> &'static str {
        match self {
            Small::CaseF => "case F",
            Small::Filling => "the filling cell",
            Small::Emptying => "the emptying cell",
        }
    }

    pub fn scene(self) -> Scene {
        let still = |flag: u8, mass: i128| Cell { flag, parts: parts_at(ONE, [100, -7]), mass, fill: 0 };
        match self {
            Small::CaseF => case_f(),
            Small::Filling => pair([still(INTERFACE, ONE + 2000), Cell::blank(EMPTY)]),
            Small::Emptying => pair([still(FLUID, ONE), still(INTERFACE, -3000)]),
        }
    }

    pub fn record(self) -> Vec<u8> {
        self.scene().record()
    }
}

/// Two cells along x with walls around them.
fn pair([first, second]: [Cell; 2]) -> Scene {
    let settings = Settings { p: 1600, gravity: [3, -1000], edge: 25 };
    let mut scene = Scene::of([4, 3], settings, &[(5, first), (6, second)]);
    scene.origin = [5_200_000_000, -4];
    scene.state.carry = -5;
    scene
}

/// Where a record comes from; its name says how to make it again.
#[derive(Clone, Copy)]
pub enum Source {
    Good(u64),
    Damaged(u64),
    /// A small record's first bytes.
    Cut(Small, usize),
    /// A small record with another byte at a place.
    Changed(Small, usize, u8),
    /// Records of the box.
    Box(u64),
    DamagedBox(u64),
}

impl Source {
    pub fn bytes(self) -> Vec<u8> {
        match self {
            Source::Good(seed) => good(seed).record(),
            Source::Damaged(seed) => bad(seed).bytes,
            Source::Cut(small, length) => small.record()[..length].to_vec(),
            Source::Changed(small, at, byte) => {
                let mut bytes = small.record();
                bytes[at] = byte;
                bytes
            }
            Source::Box(seed) => oracle::scenes::good(seed).record(),
            Source::DamagedBox(seed) => oracle::damage::bad(seed).bytes,
        }
    }
}

impl Display for Source {
    fn fmt(&self, f: &mut Formatter) -> Result {
        match self {
            Source::Good(seed) => write!(f, "flume good seed {seed}"),
            Source::Damaged(seed) => write!(f, "flume bad seed {seed}"),
            Source::Cut(small, length) => write!(f, "{}, its first {length} bytes", small.name()),
            Source::Changed(small, at, byte) => write!(f, "{}, byte {at} made {byte}", small.name()),
            Source::Box(seed) => write!(f, "box good seed {seed}"),
            Source::DamagedBox(seed) => write!(f, "box bad seed {seed}"),
        }
    }
}
