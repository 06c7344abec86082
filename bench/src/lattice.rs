// The grid of cells for the steps written by hand, the box's and the flume's: what each lattice has of its own, neighbours, and all that flags alone decide.

pub use oracle::state::{EMPTY, FLUID, INTERFACE, WALL};
use oracle::{flume, Set};

/// The marks of a cell during a step.
pub const NOTHING: u8 = 0;
pub const FILLED: u8 = 1;
pub const EMPTIED: u8 = 2;
/// A fluid cell with no wall beside it: every part streams straight in.
pub const OPEN: u8 = 1;

#[inline(always)]
pub const fn opposite(k: usize) -> usize {
    if k % 2 == 1 {
        k + 1
    } else {
        k - 1
    }
}

/// A slice's element that is known to be there.
///
/// # Safety
/// `i` lies inside the slice.
#[inline(always)]
pub unsafe fn at<T: Copy>(slice: &[T], i: usize) -> T {
    debug_assert!(i < slice.len());
    *slice.get_unchecked(i)
}

/// Writes a slice's element that is known to be there.
///
/// # Safety
/// `i` lies inside the slice.
#[inline(always)]
pub unsafe fn put<T>(slice: &mut [T], i: usize, value: T) {
    debug_assert!(i < slice.len());
    *slice.get_unchecked_mut(i) = value;
}

/// Adds to a slice's element that is known to be there.
///
/// # Safety
/// `i` lies inside the slice.
#[inline(always)]
pub unsafe fn add<T: std::ops::AddAssign>(slice: &mut [T], i: usize, value: T) {
    debug_assert!(i < slice.len());
    *slice.get_unchecked_mut(i) += value;
}

/// A grid of K directions, rest among them; the box unless it is said.
pub struct Grid<const K: usize = 19> {
    /// The flume has no second side: it is 1.
    pub sides: [usize; 3],
    /// N, the number of cells.
    pub n: usize,
    /// The furthest neighbour's distance: cells from here to n − low have all theirs in the slice.
    low: usize,
    /// A neighbour's cell number less the cell's own, by direction.
    distance: [isize; K],
    /// Where the part lies that streams straight into part k, counted from part 0 of the cell.
    source: [isize; K],
}

/// What a lattice of Q directions over so many axes has of its own, by its grid. Direction 0 is rest, the others follow in pairs, along each axis
/// first; the second of a pair points back.
pub trait Lattice<const Q: usize, const AXES: usize>: Sized {
    const DIRECTIONS: [[i128; AXES]; Q];

    /// In 36ths, of any direction but rest.
    fn weight(&self, i: usize) -> i64;

    /// Test 1.
    fn new(sides: [usize; AXES]) -> Option<Self>;

    /// Test 2 of one set.
    fn fits(&self, set: &Set) -> bool;

    /// Test 4.
    fn wrong_flag(&self, flags: &[u8]) -> Option<usize>;

    /// e·v of every direction.
    #[inline(always)]
    fn along(&self, v: [i64; AXES]) -> [i64; Q] {
        let mut dots = [0; Q];
        for i in (1..Q).step_by(2) {
            dots[i] = (0..AXES).map(|axis| Self::DIRECTIONS[i][axis] as i64 * v[axis]).sum();
            dots[i + 1] = -dots[i];
        }
        dots
    }

    /// The momentum of a cell's parts.
    #[inline(always)]
    fn momentum(&self, f: &[i64; Q]) -> [i64; AXES] {
        let mut j = [0; AXES];
        for i in (1..Q).step_by(2) {
            let apart = f[i] - f[i + 1];
            j = std::array::from_fn(|axis| j[axis] + Self::DIRECTIONS[i][axis] as i64 * apart);
        }
        j
    }
}

/// The box.
impl Lattice<19, 3> for Grid<19> {
    const DIRECTIONS: [[i128; 3]; 19] = oracle::lattice::DIRECTIONS;

    #[inline(always)]
    fn weight(&self, i: usize) -> i64 {
        if i < 7 {
            2
        } else {
            1
        }
    }

    fn new(sides: [usize; 3]) -> Option<Grid> {
        let n = sides.iter().try_fold(1, |n, &side| (3..=128).contains(&side).then_some(n * side))?;
        let [nx, ny, _] = sides.map(|side| side as i128);
        let distance = Self::DIRECTIONS.map(|[x, y, z]| (x + nx * (y + ny * z)) as isize);
        (n <= 262_144).then(|| Grid::laid(sides, distance))
    }

    fn fits(&self, set: &Set) -> bool {
        set.fits(self.n)
    }

    fn wrong_flag(&self, flags: &[u8]) -> Option<usize> {
        let [_, ny, nz] = self.sides;
        self.wrong_in_rows(flags, |row| {
            row % ny == 0 || row % ny == ny - 1 || row < ny || row >= ny * (nz - 1)
        })
    }
}

/// The flume.
impl Lattice<9, 2> for Grid<9> {
    const DIRECTIONS: [[i128; 2]; 9] = flume::lattice::DIRECTIONS;

    #[inline(always)]
    fn weight(&self, i: usize) -> i64 {
        if i < 5 {
            4
        } else {
            1
        }
    }

    fn new([nx, nz]: [usize; 2]) -> Option<Grid<9>> {
        let good = [nx, nz].iter().all(|side| (3..=512).contains(side));
        let distance = Self::DIRECTIONS.map(|[x, z]| (x + nx as i128 * z) as isize);
        good.then(|| Grid::laid([nx, 1, nz], distance))
    }

    fn fits(&self, set: &Set) -> bool {
        flume::sets::fits(set, self.n)
    }

    fn wrong_flag(&self, flags: &[u8]) -> Option<usize> {
        let nz = self.sides[2];
        self.wrong_in_rows(flags, |row| row == 0 || row == nz - 1)
    }
}

impl<const K: usize> Grid<K> {
    fn laid(sides: [usize; 3], distance: [isize; K]) -> Grid<K> {
        let source = std::array::from_fn(|k| k as isize - K as isize * distance[k]);
        let low = distance.iter().map(|distance| distance.unsigned_abs()).max().unwrap_or(0);
        Grid { sides, n: sides.iter().product(), low, distance, source }
    }

    /// The neighbour of a cell inside the outer layer.
    #[inline(always)]
    pub fn near(&self, c: usize, i: usize) -> usize {
        c.wrapping_add_signed(self.distance[i])
    }

    /// What streams into part k of an open cell lies here among the parts.
    #[inline(always)]
    pub fn source(&self, c: usize, k: usize) -> usize {
        (K * c).wrapping_add_signed(self.source[k])
    }

    /// Is a neighbour's byte this one? Without a way out of the loop, so that the passes below take many cells at a time.
    ///
    /// # Safety
    /// `c` has all its neighbours in the slice.
    #[inline(always)]
    unsafe fn beside(&self, bytes: &[u8], c: usize, byte: u8) -> bool {
        let mut found = false;
        for i in 1..K {
            found |= at(bytes, self.near(c, i)) == byte;
        }
        found
    }

    /// Test 4, row by row of cells along x; of some rows every cell is an outer one.
    fn wrong_in_rows(&self, flags: &[u8], outer: impl Fn(usize) -> bool) -> Option<usize> {
        let nx = self.sides[0];
        for (number, row) in flags.chunks_exact(nx).enumerate() {
            let wrong = if outer(number) {
                row.iter().position(|&flag| flag != WALL)
            } else if row[0] != WALL {
                Some(0)
            } else {
                let wrong = row.iter().position(|&flag| flag > WALL);
                wrong.or((row[nx - 1] != WALL).then_some(nx - 1))
            };
            if let Some(x) = wrong {
                return Some(nx * number + x);
            }
        }
        None
    }

    /// Test 5, after test 4.
    ///
    /// # Safety
    /// There are n flags.
    pub unsafe fn open_fluid(&self, flags: &[u8]) -> Option<usize> {
        let open = |c: usize| unsafe { (at(flags, c) == FLUID) & self.beside(flags, c, EMPTY) };
        let mut cells = self.low..self.n - self.low;
        // The place is looked for only where there is one.
        let any = cells.clone().fold(false, |any, c| any | open(c));
        if any {
            cells.find(|&c| open(c))
        } else {
            None
        }
    }

    /// Marks the open cells and clears all other marks but those of the outer layer's ends.
    ///
    /// # Safety
    /// There are n flags and marks.
    pub unsafe fn mark_open(&self, flags: &[u8], marks: &mut [u8]) {
        for c in self.low..self.n - self.low {
            let open = (at(flags, c) == FLUID) & !self.beside(flags, c, WALL);
            put(marks, c, if open { OPEN } else { NOTHING });
        }
    }

    /// Of each cell but those of the outer layer's ends the directions in which a wall lies, as bits.
    ///
    /// # Safety
    /// There are n flags and numbers.
    pub unsafe fn walls_beside(&self, flags: &[u8], walls: &mut [u32]) {
        for c in self.low..self.n - self.low {
            let wall = |i: usize| unsafe { u32::from(at(flags, self.near(c, i)) == WALL) << i };
            put(walls, c, (1..K).fold(0, |walls, i| walls | wall(i)));
        }
    }

    /// Stage 5 but for parts and masses: those of the cells marked emptied that stay so, and the new flags.
    ///
    /// # Safety
    /// There are n flags, new flags (a copy of them) and marks; the lists hold the cells so marked, none of the outer layer.
    pub unsafe fn convert(&self, flags: &[u8], flags2: &mut [u8], marks: &mut [u8], changes: &mut Changes) {
        changes.emptied.retain(|&c| {
            let let_off = self.beside(marks, c, FILLED);
            if let_off {
                put(marks, c, NOTHING);
            }
            !let_off
        });
        for &c in &changes.filled {
            put(flags2, c, FLUID);
            for i in 1..K {
                let b = self.near(c, i);
                // In the new flags, so that a cell beside two filled ones is born once.
                if at(flags2, b) == EMPTY {
                    put(flags2, b, INTERFACE);
                    changes.born.push(b);
                }
            }
        }
        for &c in &changes.emptied {
            put(flags2, c, EMPTY);
            for i in 1..K {
                let b = self.near(c, i);
                if at(flags, b) == FLUID {
                    put(flags2, b, INTERFACE);
                }
            }
        }
    }
}

/// The cells that convert in a step, each list in any order.
#[derive(Default)]
pub struct Changes {
    pub filled: Vec<usize>,
    pub emptied: Vec<usize>,
    /// Empty cells that become interface.
    pub born: Vec<usize>,
}

impl Changes {
    pub fn clear(&mut self) {
        self.filled.clear();
        self.emptied.clear();
        self.born.clear();
    }

    pub fn none(&self) -> bool {
        self.filled.is_empty() && self.emptied.is_empty()
    }
}
