// The proved library's step and run, called as a host calls them: through the Rust wrapper of bindings/rust, over lent slices.

use oracle::{HeldMut, Set};

use crate::engine::Engine;

/// How many pools a set with three totals has; none where it is refused.
pub type Pools = fn([usize; 3], Set, &mut [u32], &mut [i64], &mut [u16], &mut [u32]) -> Option<usize>;

/// The proved question, if bench/run linked the library.
#[cfg(feature = "library")]
pub fn pools() -> Option<Pools> {
    Some(linked::pools)
}

#[cfg(not(feature = "library"))]
pub fn pools() -> Option<Pools> {
    None
}

/// Height grids: an invert read into a set, with so many cells in height; a depth map written; and the check alone.
#[derive(Clone, Copy)]
pub struct Heights {
    pub read: fn(&[u8], usize, HeldMut) -> Option<()>,
    pub write: fn([usize; 3], i64, [i64; 2], Set, &mut [u8]) -> Option<usize>,
    pub check: fn([usize; 3], Set) -> Option<()>,
}

#[cfg(feature = "library")]
pub fn heights() -> Option<Heights> {
    Some(Heights { read: linked::invert_read, write: linked::depths_write, check: linked::check })
}

#[cfg(not(feature = "library"))]
pub fn heights() -> Option<Heights> {
    None
}

/// The proved step and run, if bench/run linked the library.
#[cfg(feature = "library")]
pub fn proved() -> Option<Engine> {
    Some(Engine { name: "proved", step: linked::step, run: linked::run, turbulent: true })
}

#[cfg(not(feature = "library"))]
pub fn proved() -> Option<Engine> {
    None
}

/// A sweep of the surface: hands on each interface cell, and answers the words read.
pub type Sweep = fn([usize; 3], &[u64], &mut dyn FnMut(usize)) -> usize;

#[cfg(feature = "library")]
pub fn sweep() -> Option<Sweep> {
    Some(linked::sweep)
}

#[cfg(not(feature = "library"))]
pub fn sweep() -> Option<Sweep> {
    None
}

#[cfg(feature = "library")]
pub(crate) mod linked {
    use oracle::{Held, HeldMut, Set};
    use skwarzyna::{lent, InMode, Index, IndexMut, Mode, Point, Refusal, Site, State, StateMut};

    use crate::engine::{Answer, Ran, Settings, ACCEPTED};

    fn sides([nx, ny, nz]: [usize; 3]) -> skwarzyna::Sides {
        skwarzyna::Sides { nx, ny, nz }
    }

    fn settings(wish: Settings) -> InMode<skwarzyna::Settings> {
        let Settings { p, gravity: [gx, gy, gz], turbulent } = wish;
        skwarzyna::Settings { p, gx, gy, gz }.in_mode(mode(turbulent))
    }

    pub fn mode(turbulent: bool) -> Mode {
        if turbulent {
            Mode::Turbulent
        } else {
            Mode::Plain
        }
    }

    fn state(set: Set) -> State {
        State { flags: set.flags, parts: set.parts, masses: set.masses, fills: set.fills, carry: set.carry }
    }

    fn held(Held { set, index }: Held) -> skwarzyna::Held {
        skwarzyna::Held { state: state(set), index: Index { words: index.words, count: index.count } }
    }

    fn held_mut(HeldMut { set, index }: HeldMut) -> skwarzyna::HeldMut {
        skwarzyna::HeldMut {
            state: StateMut {
                flags: set.flags,
                parts: set.parts,
                masses: set.masses,
                fills: set.fills,
                carry: set.carry,
            },
            index: IndexMut { words: index.words, count: index.count },
        }
    }

    fn refused(refusal: Refusal) -> Answer {
        Answer { number: refusal.number, place: refusal.place }
    }

    pub fn step(size: [usize; 3], wish: Settings, first: Held, second: HeldMut, marks: &mut [u8]) -> Answer {
        lent::step(sides(size), settings(wish), held(first), held_mut(second), marks)
            .map_or_else(refused, |()| ACCEPTED)
    }

    pub fn run(
        size: [usize; 3],
        wish: Settings,
        steps: usize,
        first: HeldMut,
        second: HeldMut,
        marks: &mut [u8],
    ) -> Ran {
        match lent::run(sides(size), settings(wish), steps, held_mut(first), held_mut(second), marks) {
            Ok(()) => Ran { count: steps, answer: ACCEPTED },
            Err(stopped) => Ran { count: stopped.count, answer: refused(stopped.refusal) },
        }
    }

    pub fn sweep(size: [usize; 3], words: &[u64], found: &mut dyn FnMut(usize)) -> usize {
        let (mut start, mut read) = (0, 0);
        loop {
            let next = lent::surface_next(sides(size), words, start).expect("a scene's words and sides fit");
            read += next.words;
            match next.cell {
                Some(cell) => {
                    found(cell);
                    start = cell + 1;
                }
                None => return read,
            }
        }
    }

    pub fn invert_read(text: &[u8], nz: usize, into: HeldMut) -> Option<()> {
        let falling = skwarzyna::Settings { p: 1600, gx: 0, gy: 0, gz: -105 };
        lent::invert_read(text, nz, 118_000, falling, held_mut(into)).ok().map(|_| ())
    }

    pub fn depths_write(
        size: [usize; 3],
        edge: i64,
        [x, y]: [i64; 2],
        set: Set,
        room: &mut [u8],
    ) -> Option<usize> {
        let site = Site { edge, origin: Point::new(x, y, 0) };
        lent::depths_write(sides(size), site, state(set), room).ok()
    }

    pub fn check(size: [usize; 3], set: Set) -> Option<()> {
        lent::check(sides(size), state(set)).ok()
    }

    pub fn pools(
        size: [usize; 3],
        set: Set,
        counts: &mut [u32],
        waters: &mut [i64],
        marks: &mut [u16],
        work: &mut [u32],
    ) -> Option<usize> {
        lent::pools(sides(size), state(set), counts, waters, marks, work).ok()
    }
}
