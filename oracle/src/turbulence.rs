// P10, the turbulent mode of stage 4: a relaxation of the cell's own, from the stress of its streamed parts against stage 5's equilibrium.

use crate::lattice::floor;
use crate::random::Random;

/// What step and run take for stage 4: p, and whether each cell takes its own from it.
#[derive(Clone, Copy, Debug, PartialEq, Eq)]
pub struct Relaxation {
    pub p: i32,
    pub turbulent: bool,
}

/// A number alone is the plain mode.
impl From<i32> for Relaxation {
    fn from(p: i32) -> Relaxation {
        Relaxation { p, turbulent: false }
    }
}

pub fn turbulent(p: i32) -> Relaxation {
    Relaxation { p, turbulent: true }
}

/// The modes that a hunt steps in.
#[derive(Clone, Copy, Debug, PartialEq, Eq)]
pub enum Modes {
    Plain,
    Turbulent,
    /// Chosen anew with the settings.
    Either,
}

impl Modes {
    /// The modes that a word asks for.
    pub fn asked(word: &str) -> Option<Modes> {
        match word {
            "plain" => Some(Modes::Plain),
            "turbulent" => Some(Modes::Turbulent),
            "either" => Some(Modes::Either),
            _ => None,
        }
    }

    /// Whether the next steps are turbulent.
    pub(crate) fn chosen(self, random: &mut Random) -> bool {
        match self {
            Modes::Plain => false,
            Modes::Turbulent => true,
            Modes::Either => random.percent(50),
        }
    }
}

/// The largest number whose square is not above n.
pub fn root(n: i128) -> i128 {
    let (mut low, mut high) = (0, 1 << 60);
    while low + 1 < high {
        let middle = (low + high) / 2;
        if middle * middle <= n {
            low = middle;
        } else {
            high = middle;
        }
    }
    low
}

/// Π of f − eq: for every two axes the sum over directions of both components times what the part has beyond eq.
pub fn stress<const AXES: usize>(
    beyond: impl Iterator<Item = ([i128; AXES], i128)> + Clone,
) -> [[i128; AXES]; AXES] {
    let entry = |a: usize, b: usize| beyond.clone().map(|(e, more)| e[a] * e[b] * more).sum();
    std::array::from_fn(|a| std::array::from_fn(|b| entry(a, b)))
}

/// T: the squares of all entries, so that those off the diagonal count twice.
pub fn tension<const AXES: usize>(stress: &[[i128; AXES]; AXES]) -> i128 {
    stress.iter().flatten().map(|entry| entry * entry).sum()
}

/// The numbers between T and own p.
#[derive(Clone, Copy, Debug, PartialEq, Eq)]
pub struct Own {
    pub first: i128,
    pub under: i128,
    pub second: i128,
    pub divisor: i128,
    pub numerator: i128,
    pub p: i32,
}

/// Own p of a cell with plain relaxation p and tension T.
pub fn own(p: i32, tension: i128) -> Own {
    let plain = i128::from(p);
    let first = root(tension);
    let still = 12_800 * (2048 - plain);
    let under = still * still + 162 * plain * plain * first;
    let second = root(under);
    let divisor = 12_800 * (10_240 + plain) + second;
    let numerator = 314_572_800 * plain + divisor;
    let p = floor(numerator, 2 * divisor).clamp(1, 2037) as i32;
    Own { first, under, second, divisor, numerator, p }
}
