// Lent slices: every refusal number that each call can give, and what a refusal leaves in the buffers.

use oracle::record::written_back;
use skwarzyna::lent::{
    check, depth, load, place, point, read, run, step, surface_count, surface_next, write,
};
use skwarzyna::{
    Depth, Grid, Held, HeldMut, Index, IndexMut, Next, Point, Refusal, Settings, Sides, Site, State,
    StateMut, Stopped, ONE, PARTS,
};

const CASE_T: &[u8] = include_bytes!("../../../crates/gridstep/stdin");
const CELLS: usize = 27;
const MIDDLE: usize = 13;
const THREE: Sides = Sides::new(3, 3, 3);
const FALLING: Settings = Settings { p: 1024, gx: 0, gy: 0, gz: -1024 };
const CORNER: Site = Site { edge: 50, origin: Point::new(0, 0, 0) };

/// Vectors to lend a set from, and the work space.
#[derive(Clone, Debug, PartialEq)]
struct Set {
    flags: Vec<u8>,
    parts: Vec<i32>,
    masses: Vec<i32>,
    fills: Vec<u32>,
    carry: Vec<i64>,
    words: Vec<u64>,
    count: Vec<u64>,
    marks: Vec<u8>,
}

impl Set {
    fn of(grid: &Grid) -> Set {
        let state = grid.state();
        let index = oracle::IndexStore::of(state.flags);
        Set {
            flags: state.flags.to_vec(),
            parts: state.parts.to_vec(),
            masses: state.masses.to_vec(),
            fills: state.fills.to_vec(),
            carry: state.carry.to_vec(),
            words: index.words,
            count: index.count,
            marks: vec![7; state.flags.len()],
        }
    }

    fn case_t() -> Set {
        Set::of(&Grid::read(CASE_T).unwrap().grid)
    }

    /// Numbers that no call writes.
    fn soiled(cells: usize) -> Set {
        Set {
            flags: vec![90; cells],
            parts: vec![-5; PARTS * cells],
            masses: vec![-6; cells],
            fills: vec![70_000; cells],
            carry: vec![-8; 3],
            words: vec![!9; cells.div_ceil(64)],
            count: vec![!10],
            marks: vec![7; cells],
        }
    }

    fn lend(&self) -> State<'_> {
        State {
            flags: &self.flags,
            parts: &self.parts,
            masses: &self.masses,
            fills: &self.fills,
            carry: &self.carry,
        }
    }

    fn hold(&self) -> Held<'_> {
        Held { state: self.lend(), index: Index { words: &self.words, count: &self.count } }
    }

    fn hold_mut(&mut self) -> (HeldMut<'_>, &mut [u8]) {
        let state = StateMut {
            flags: &mut self.flags,
            parts: &mut self.parts,
            masses: &mut self.masses,
            fills: &mut self.fills,
            carry: &mut self.carry,
        };
        let index = IndexMut { words: &mut self.words, count: &mut self.count };
        (HeldMut { state, index }, &mut self.marks)
    }
}

fn refusal(number: u8, place: usize) -> Refusal {
    Refusal { number, place }
}

type Change = fn(&mut Set);

/// Each of a set's slices made one too short and one too long.
const WRONG_LENGTHS: [Change; 10] = [
    |set| set.flags.truncate(CELLS - 1),
    |set| set.flags.push(3),
    |set| set.parts.truncate(PARTS * CELLS - 1),
    |set| set.parts.push(0),
    |set| set.masses.truncate(CELLS - 1),
    |set| set.masses.push(0),
    |set| set.fills.truncate(CELLS - 1),
    |set| set.fills.push(0),
    |set| set.carry.clear(),
    |set| set.carry.push(0),
];

/// The same of an index.
const WRONG_INDEXES: [Change; 4] =
    [|set| set.words.clear(), |set| set.words.push(0), |set| set.count.clear(), |set| set.count.push(0)];

/// Faults of an index that test 14 finds: a bit missing, one too many, one past the last cell, and counts.
const UNTRUE: [Change; 5] = [
    |set| set.words[0] = 0,
    |set| set.words[0] |= 1,
    |set| set.words[0] |= 1 << CELLS,
    |set| set.count[0] = 0,
    |set| set.count[0] = u64::MAX,
];

/// Faults of a set that test 4, 5 or 6 finds, and where.
const FAULTS: [(Change, u8, usize); 5] = [
    (|set| set.flags[20] = 0, 4, 20),
    (|set| set.flags[MIDDLE] = 4, 4, MIDDLE),
    (|set| set.parts[PARTS * MIDDLE] += 1_200_000, 6, MIDDLE),
    (|set| set.masses[3] = 1, 6, 3),
    (|set| set.carry[0] = -1_000_000_000_001, 6, CELLS),
];

/// Fluid beside empty, in a box of 4, 3, 3.
fn open() -> (Sides, Set) {
    let sides = Sides::new(4, 3, 3);
    let mut grid = Grid::new(sides).unwrap();
    grid.set_fluid(17, ONE).unwrap();
    let mut set = Set::of(&grid);
    set.flags[18] = 0;
    (sides, set)
}

const SIDES: [Sides; 5] = [
    Sides::new(2, 3, 3),
    Sides::new(3, 129, 3),
    Sides::new(3, 3, usize::MAX),
    Sides::new(128, 128, 17),
    Sides::new(0, 0, 0),
];

#[test]
fn checks_are_refused() {
    assert_eq!(check(THREE, Set::case_t().lend()), Ok(()));
    for sides in SIDES {
        assert_eq!(check(sides, Set::case_t().lend()), Err(refusal(1, 0)));
    }
    for change in WRONG_LENGTHS {
        let mut set = Set::case_t();
        change(&mut set);
        assert_eq!(check(THREE, set.lend()), Err(refusal(2, 0)));
    }
    assert_eq!(check(THREE, State::default()), Err(refusal(2, 0)));
    for (change, number, place) in FAULTS {
        let mut set = Set::case_t();
        change(&mut set);
        assert_eq!(check(THREE, set.lend()), Err(refusal(number, place)));
    }
    let (sides, set) = open();
    assert_eq!(check(sides, set.lend()), Err(refusal(5, 17)));
}

#[test]
fn loads_are_refused() {
    assert_eq!(load(THREE, Set::case_t().hold()), Ok(()));
    for sides in SIDES {
        assert_eq!(load(sides, Set::case_t().hold()), Err(refusal(1, 0)));
    }
    for change in WRONG_LENGTHS.into_iter().chain(WRONG_INDEXES) {
        let mut set = Set::case_t();
        change(&mut set);
        assert_eq!(load(THREE, set.hold()), Err(refusal(2, 0)));
    }
    for (change, number, place) in FAULTS {
        let mut set = Set::case_t();
        change(&mut set);
        assert_eq!(load(THREE, set.hold()), Err(refusal(number, place)));
    }
    let (sides, set) = open();
    assert_eq!(load(sides, set.hold()), Err(refusal(5, 17)));
    for change in UNTRUE {
        let mut set = Set::case_t();
        change(&mut set);
        assert_eq!(load(THREE, set.hold()), Err(refusal(14, 0)));
    }
}

#[test]
fn the_surface_is_asked() {
    let five = Sides::new(5, 5, 5);
    let words = [1 << 31, 1 << 29];
    let next = |start: usize| surface_next(five, &words, start).map(|next| (next.cell, next.words));
    assert_eq!(surface_count(five, &words), Ok(2));
    assert_eq!([next(0), next(31)], [Ok((Some(31), 1)); 2]);
    assert_eq!([next(32), next(64)], [Ok((Some(93), 2)), Ok((Some(93), 1))]);
    assert_eq!([next(94), next(125), next(126)], [Ok((None, 1)), Ok((None, 0)), Err(refusal(13, 0))]);
    // Bit 61 of word 1 would be cell 125.
    let past = [1 << 31, 1 << 29 | 1 << 61];
    assert_eq!(surface_count(five, &past), Ok(2));
    assert_eq!(surface_next(five, &past, 94), Ok(Next { cell: None, words: 1 }));
    assert_eq!(surface_count(five, &words[1..]), Err(refusal(2, 0)));
    assert_eq!(surface_next(five, &[0; 3], 0), Err(refusal(2, 0)));
    for sides in SIDES {
        assert_eq!(surface_count(sides, &words), Err(refusal(1, 0)));
        assert_eq!(surface_next(sides, &words, usize::MAX), Err(refusal(1, 0)));
    }
}

#[test]
fn refused_steps_and_runs_write_nothing() {
    let tried = |sides: Sides, settings: Settings, first: Set, second: Set, wanted: Refusal| {
        let mut lent = second.clone();
        let (state, marks) = lent.hold_mut();
        assert_eq!(step(sides, settings, first.hold(), state, marks), Err(wanted));
        assert_eq!(lent, second);

        let mut run_first = first.clone();
        let (state, marks) = lent.hold_mut();
        let (run_state, _) = run_first.hold_mut();
        let stopped = Stopped { count: 0, refusal: wanted };
        assert_eq!(run(sides, settings, 3, run_state, state, marks), Err(stopped));
        assert_eq!((&lent, &run_first), (&second, &first));
    };
    let (good, soiled) = (Set::case_t(), Set::soiled(CELLS));
    for sides in SIDES {
        tried(sides, FALLING, good.clone(), soiled.clone(), refusal(1, 0));
    }
    for change in WRONG_LENGTHS.into_iter().chain(WRONG_INDEXES) {
        let (mut first, mut second) = (good.clone(), soiled.clone());
        change(&mut first);
        tried(THREE, FALLING, first, soiled.clone(), refusal(2, 0));
        change(&mut second);
        tried(THREE, FALLING, good.clone(), second, refusal(2, 0));
    }
    for marks in [0, CELLS - 1, CELLS + 1] {
        let mut second = soiled.clone();
        second.marks.resize(marks, 7);
        tried(THREE, FALLING, good.clone(), second, refusal(2, 0));
    }
    for (p, gx, gz) in [(0, 0, 0), (2038, 0, 0), (i64::MIN, 0, 0), (1024, 35, -1048), (1024, i64::MAX, 0)] {
        tried(THREE, Settings { p, gx, gy: 0, gz }, good.clone(), soiled.clone(), refusal(3, 0));
    }
    for (change, number, place) in FAULTS {
        let mut first = good.clone();
        change(&mut first);
        tried(THREE, FALLING, first, soiled.clone(), refusal(number, place));
    }
    let (sides, set) = open();
    tried(sides, FALLING, set, Set::soiled(36), refusal(5, 17));
    for change in UNTRUE {
        let mut first = good.clone();
        change(&mut first);
        tried(THREE, FALLING, first.clone(), soiled.clone(), refusal(14, 0));
        // A broken rule comes first, and 14 before 7.
        first.masses[3] = 1;
        tried(THREE, FALLING, first, soiled.clone(), refusal(6, 3));
        let mut first = pushed();
        change(&mut first);
        let fast = Settings { p: 1500, gx: 1048, gy: 0, gz: 0 };
        tried(THREE, fast, first, soiled.clone(), refusal(14, 0));
    }
}

#[test]
fn too_many_steps_come_first() {
    let (mut first, mut second) = (Set::soiled(3), Set::soiled(5));
    let (state, marks) = first.hold_mut();
    let (other, _) = second.hold_mut();
    let ran = run(Sides::new(0, 0, 0), Settings { p: 0, ..FALLING }, 1001, state, other, marks);
    assert_eq!(ran, Err(Stopped { count: 0, refusal: refusal(9, 0) }));
    assert_eq!((first, second), (Set::soiled(3), Set::soiled(5)));
}

#[test]
fn accepted_steps_and_runs_fill_the_second_set() {
    let (first, mut second) = (Set::case_t(), Set::soiled(CELLS));
    let (state, marks) = second.hold_mut();
    assert_eq!(step(THREE, FALLING, first.hold(), state, marks), Ok(()));
    assert_eq!(second.marks, [0; CELLS]);
    assert_eq!(second.parts[PARTS * MIDDLE + 5], 32_673);
    assert_eq!((&second.flags, &second.masses, &second.fills), (&first.flags, &first.masses, &first.fills));

    let (mut one, mut other) = (first.clone(), Set::soiled(CELLS));
    let (state, _) = one.hold_mut();
    let (second_state, marks) = other.hold_mut();
    assert_eq!(run(THREE, FALLING, 1, state, second_state, marks), Ok(()));
    assert_eq!((one.hold(), other.hold()), (second.hold(), second.hold()));
    assert_eq!(other.marks, [0; CELLS]);
}

/// Document 01's figure for 8: parts at the equilibrium of density ONE and momentum (-196,018, 0, 0).
fn pushed() -> Set {
    let mut set = Set::case_t();
    for (k, part) in oracle::lattice::equilibrium(ONE.into(), &[-196_018, 0, 0]).into_iter().enumerate() {
        set.parts[PARTS * MIDDLE + k] = part as i32;
    }
    set
}

#[test]
fn after_7_and_8_the_second_set_is_the_first() {
    for (p, gx, number) in [(1500, 1048, 8), (1024, 1048, 0), (1024, -1048, 0), (1, 0, 0)] {
        let (first, mut second) = (pushed(), Set::soiled(CELLS));
        let (state, marks) = second.hold_mut();
        let answer = step(THREE, Settings { p, gx, gy: 0, gz: 0 }, first.hold(), state, marks);
        match number {
            0 => assert_eq!(answer, Ok(())),
            _ => assert_eq!((answer, second.hold()), (Err(refusal(number, MIDDLE)), first.hold())),
        }
        assert_eq!(second.marks, [0; CELLS]);
    }
    let mut first = pushed();
    for (k, part) in oracle::lattice::equilibrium(ONE.into(), &[-196_608, 0, 0]).into_iter().enumerate() {
        first.parts[PARTS * MIDDLE + k] = part as i32;
    }
    let (kept, mut second) = (first.clone(), Set::soiled(CELLS));
    let against = Settings { p: 1024, gx: 1048, gy: 0, gz: 0 };
    let (state, marks) = second.hold_mut();
    assert_eq!(step(THREE, against, first.hold(), state, marks), Err(refusal(7, MIDDLE)));
    assert_eq!((second.hold(), &second.marks), (kept.hold(), &vec![0; CELLS]));
    let mut second = Set::soiled(CELLS);
    let (state, marks) = second.hold_mut();
    let (first_state, _) = first.hold_mut();
    let stopped = Stopped { count: 0, refusal: refusal(7, MIDDLE) };
    assert_eq!(run(THREE, against, 9, first_state, state, marks), Err(stopped));
    assert_eq!((first.hold(), second.hold()), (kept.hold(), kept.hold()));
    assert_eq!(second.marks, [0; CELLS]);
}

#[test]
fn records_are_read_into_lent_slices() {
    fn read_into<'a>(record: &'a [u8], set: &mut Set) -> Result<skwarzyna::lent::Head<'a>, Refusal> {
        let index = IndexMut { words: &mut set.words, count: &mut set.count };
        read(record, &mut set.parts, &mut set.masses, &mut set.fills, &mut set.carry, index)
    }
    let mut set = Set::soiled(CELLS);
    let head = read_into(CASE_T, &mut set).unwrap();
    assert_eq!((head.sides, head.settings, head.site), (THREE, FALLING, CORNER));
    // The flags are the caller's own bytes.
    assert_eq!(head.flags.as_ptr_range(), CASE_T[84..84 + CELLS].as_ptr_range());
    let good = Set::case_t();
    assert_eq!(head.flags, good.flags);
    set.flags.copy_from_slice(head.flags);
    assert_eq!(set, good);

    let refused = |record: &[u8], number: u8, place: usize| {
        let mut set = Set::soiled(CELLS);
        assert_eq!(read_into(record, &mut set), Err(refusal(number, place)));
        assert_eq!(set, Set::soiled(CELLS));
    };
    let changed = |at: usize, byte: u8| {
        let mut record = CASE_T.to_vec();
        record[at] = byte;
        record
    };
    let starts = [0, 16, 40, 68, 80, 111, 119, 199];
    for (section, start) in starts.windows(2).enumerate() {
        for length in start[0]..start[1] {
            refused(&CASE_T[..length], 10, start[0]);
        }
        refused(&changed(start[0] + 3, 1), 11, section + 1);
    }
    refused(&[CASE_T, CASE_T].concat(), 10, 199);
    refused(&changed(8, 200), 1, 0);
    refused(&changed(8, 4), 2, 0);
    refused(&changed(21, 8), 3, 0);
    // Bytes left over come before settings.
    refused(&[changed(21, 8), vec![0]].concat(), 10, 199);
    refused(&changed(51, 1), 3, 0);
    refused(&changed(84 + MIDDLE, 9), 4, MIDDLE);
    refused(&changed(79, 1), 6, CELLS);
    for change in WRONG_LENGTHS[2..].iter().chain(&WRONG_INDEXES) {
        let mut set = Set::soiled(CELLS);
        change(&mut set);
        let kept = set.clone();
        assert_eq!(read_into(CASE_T, &mut set), Err(refusal(2, 0)));
        assert_eq!(set, kept);
    }
    // A row of fluid, interface and empty whose last two are changed over.
    let mut row = Grid::new(Sides::new(5, 3, 3)).unwrap();
    row.set_fluid(21, ONE).unwrap();
    let mut record = row.write(FALLING, CORNER).unwrap();
    record.swap(100 + 22, 100 + 23);
    let mut set = Set::soiled(45);
    assert_eq!(read_into(&record, &mut set), Err(refusal(5, 21)));
    assert_eq!(set, Set::soiled(45));
}

#[test]
fn records_are_written_into_lent_room() {
    let good = Set::case_t();
    let mut room = [7; 300];
    for sides in SIDES {
        assert_eq!(write(sides, FALLING, CORNER, good.lend(), &mut room), Err(refusal(1, 0)));
    }
    for change in WRONG_LENGTHS {
        let mut set = good.clone();
        change(&mut set);
        assert_eq!(write(THREE, FALLING, CORNER, set.lend(), &mut room), Err(refusal(2, 0)));
    }
    let far = Site { origin: Point::new(0, -10_000_000_001, 0), ..CORNER };
    for site in [Site { edge: 0, ..CORNER }, Site { edge: i64::MAX, ..CORNER }, far] {
        assert_eq!(write(THREE, FALLING, site, good.lend(), &mut room), Err(refusal(3, 0)));
    }
    let heavy = Settings { gy: 1049, ..FALLING };
    assert_eq!(write(THREE, heavy, CORNER, good.lend(), &mut room), Err(refusal(3, 0)));
    for (change, number, place) in FAULTS {
        let mut set = good.clone();
        change(&mut set);
        // The room is tested last.
        let answer = write(THREE, FALLING, CORNER, set.lend(), &mut room[..9]);
        assert_eq!(answer, Err(refusal(number, place)));
    }
    let (sides, set) = open();
    assert_eq!(write(sides, FALLING, CORNER, set.lend(), &mut room), Err(refusal(5, 17)));
    for short in [0, 1, 214] {
        let answer = write(THREE, FALLING, CORNER, good.lend(), &mut room[..short]);
        assert_eq!(answer, Err(refusal(12, 215)));
    }
    assert_eq!(room, [7; 300]);
    assert_eq!(write(THREE, FALLING, CORNER, good.lend(), &mut room), Ok(215));
    assert_eq!((&room[..215], &room[215..]), (&written_back(CASE_T)[..], &[7; 85][..]));
}

#[test]
fn readings_are_refused() {
    let good = Set::case_t();
    let origin = Point::default();
    for sides in SIDES {
        assert_eq!(place(sides, CORNER, origin), Err(refusal(1, 0)));
        assert_eq!(point(sides, &good.fills, 0), Err(refusal(1, 0)));
        assert_eq!(depth(sides, &good.flags, &good.fills, 0, 0), Err(refusal(1, 0)));
    }
    assert_eq!(place(THREE, CORNER, Point::new(149, 0, 50)), Ok(11));
    assert_eq!(place(THREE, CORNER, Point::new(150, 0, 50)), Err(refusal(13, 0)));
    assert_eq!(place(THREE, CORNER, Point::new(0, 0, i64::MAX)), Err(refusal(3, 0)));
    assert_eq!(place(THREE, Site { edge: 1001, origin }, origin), Err(refusal(3, 0)));

    assert_eq!(point(THREE, &good.fills, MIDDLE).unwrap().fill, 0.5);
    assert_eq!(point(THREE, &good.fills, CELLS), Err(refusal(13, 0)));
    assert_eq!(point(THREE, &good.fills[1..], 0), Err(refusal(2, 0)));
    assert_eq!(point(THREE, &[u32::MAX; CELLS], 4), Err(refusal(6, 4)));

    assert_eq!(depth(THREE, &good.flags, &good.fills, 1, 1), Ok(Depth::Deep(0.5)));
    assert_eq!(depth(THREE, &good.flags, &good.fills, 0, 1), Ok(Depth::Solid));
    assert_eq!(depth(THREE, &[0; CELLS], &[0; CELLS], 0, 1), Ok(Depth::Dry));
    assert_eq!(depth(THREE, &good.flags[1..], &good.fills, 1, 1), Err(refusal(2, 0)));
    assert_eq!(depth(THREE, &good.flags, &[], 1, 1), Err(refusal(2, 0)));
    assert_eq!(depth(THREE, &good.flags, &good.fills, 3, 0), Err(refusal(13, 0)));
    assert_eq!(depth(THREE, &good.flags, &good.fills, 0, 3), Err(refusal(13, 0)));
    assert_eq!(depth(THREE, &[4; CELLS], &[65_537; CELLS], 1, 2), Err(refusal(4, 7)));
    assert_eq!(depth(THREE, &[3; CELLS], &[65_537; CELLS], 1, 2), Err(refusal(6, 7)));
}
