// The worked figures of two schemes over one wall map, their refusals in order, what a refusal leaves, and the hunt for what one tells of the other.

use oracle::designers::Calls;
use oracle::grid::{Grid, Refusal};
use oracle::isolation::{hunt, hunted, EVENTS};
use oracle::schemes::{change, Change};
use oracle::state::{FLUID, INTERFACE};
use oracle::{check, join, part, Set, Store};

const SIDES: [u32; 3] = [5, 3, 3];
const N: usize = 45;

fn refusal<T>(number: u32, place: usize) -> Result<T, Refusal> {
    Err(Refusal { number, place: place as u64 })
}

/// Walls outside and at 22.
fn map() -> Vec<u8> {
    let grid = Grid::new(SIDES).unwrap();
    (0..N).map(|c| u8::from(grid.outer(c) || c == 22)).collect()
}

/// Water at rest in one cell, half full if it is interface.
fn wet(cell: usize, flag: u8) -> Store {
    let mut set = Store::blank(N);
    set.flags[cell] = flag;
    let weights = (0..19).map(|k| if k == 0 { 12 } else { 1 + i32::from(k < 7) });
    weights.enumerate().for_each(|(k, weight)| set.parts[19 * cell + k] = weight * 16_384);
    let whole = flag == FLUID;
    (set.masses[cell], set.fills[cell]) = if whole { (589_824, 65_536) } else { (294_912, 32_768) };
    set
}

/// All that a wall change is lent.
#[derive(Clone, Debug, PartialEq)]
struct Lent {
    sides: [u32; 3],
    map: Vec<u8>,
    asker: Store,
    other: Store,
}

impl Lent {
    fn new(other: Store) -> Lent {
        Lent { sides: SIDES, map: map(), asker: wet(21, INTERFACE), other }
    }

    fn asked(&mut self, which: Change, cell: u64) -> Result<(), Refusal> {
        change(which, self.sides, &mut self.map, self.asker.lend(), self.other.lend(), cell)
    }

    /// That it is refused so, and has written nothing.
    fn refused(&self, which: Change, cell: usize, number: u32, place: usize) {
        let mut lent = self.clone();
        assert_eq!(lent.asked(which, cell as u64), refusal(number, place), "{which:?} {cell}");
        assert!(lent == *self);
    }

    /// That it is accepted, and has written the map's byte alone.
    fn accepted(&self, which: Change, cell: usize) {
        let (mut lent, mut wanted) = (self.clone(), self.clone());
        assert_eq!(lent.asked(which, cell as u64), Ok(()), "{which:?} {cell}");
        wanted.map[cell] = u8::from(which == Change::Add);
        assert!(lent == wanted);
    }
}

#[test]
fn walls_asked_beside_water() {
    let lent = Lent::new(wet(23, FLUID));
    lent.refused(Change::Add, 21, 18, 21);
    lent.refused(Change::Add, 23, 18, 23);
    lent.refused(Change::Remove, 22, 18, 22);
    let dry = Lent::new(Store::blank(N));
    dry.refused(Change::Add, 21, 18, 21);
    dry.accepted(Change::Add, 23);
    // Its own interface cell is no fluid one.
    dry.accepted(Change::Remove, 22);
    for lent in [lent, dry] {
        lent.refused(Change::Add, 22, 17, 22);
        lent.refused(Change::Remove, 0, 17, 0);
        lent.refused(Change::Add, 0, 17, 0);
        lent.refused(Change::Remove, 23, 17, 23);
        lent.refused(Change::Remove, 21, 17, 21);
        for cell in [45, 1 << 32 | 23, usize::MAX] {
            lent.refused(Change::Add, cell, 13, 0);
            lent.refused(Change::Remove, cell, 13, 0);
        }
    }
    // Asked by the other, the answers are the same.
    let turned = Lent { asker: wet(23, FLUID), other: wet(21, INTERFACE), ..Lent::new(Store::blank(N)) };
    for (which, cell) in [(Change::Add, 21), (Change::Add, 23), (Change::Remove, 22)] {
        turned.refused(which, cell, 18, cell);
    }
}

#[test]
fn own_flags_at_walls() {
    for (flag, number) in [(3, 4), (255, 4), (1, 6), (2, 6)] {
        let mut set = wet(21, INTERFACE);
        set.flags[0] = flag;
        let mut grid = vec![9; N];
        assert_eq!(join(SIDES, &map(), set.lend(), &mut grid), refusal(number, 0));
        assert_eq!(grid, [9; N]);
        // A wall inside is no other, and a lower fault of the same number comes first.
        let mut set = wet(21, INTERFACE);
        set.flags[22] = flag;
        assert_eq!(join(SIDES, &map(), set.lend(), &mut grid), refusal(number, 22));
        if number == 6 {
            set.masses[3] = 1;
            assert_eq!(join(SIDES, &map(), set.lend(), &mut grid), refusal(6, 3));
        }
    }
}

#[test]
fn a_scheme_is_joined_and_parted() {
    let scheme = wet(21, INTERFACE);
    let mut grid = vec![9; N];
    assert_eq!(join(SIDES, &map(), scheme.lend(), &mut grid), Ok(()));
    let walls = map();
    assert!((0..N).all(|c| grid[c] == [scheme.flags[c], 3][usize::from(walls[c])]));
    assert_eq!(check(SIDES, Store { flags: grid.clone(), ..scheme.clone() }.lend()), Ok(()));
    let mut own = vec![9; N];
    assert_eq!(part(SIDES, &grid, &mut own), Ok(()));
    assert_eq!(own, scheme.flags);

    for (at, flag, place) in [(44, 2, 44), (22, 4, 22), (0, 0, 0)] {
        let mut wrong = grid.clone();
        wrong[at] = flag;
        assert_eq!(part(SIDES, &wrong, &mut own), refusal(4, place));
    }
    assert_eq!(part(SIDES, &grid, &mut own[..44]), refusal(2, 0));
    assert_eq!(part(SIDES, &grid[1..], &mut own), refusal(2, 0));
    assert_eq!(part([5, 3, 2], &grid, &mut own), refusal(1, 0));
    assert_eq!(own, scheme.flags);
    assert_eq!(join(SIDES, &walls, scheme.lend(), &mut grid[1..]), refusal(2, 0));
    assert_eq!(join(SIDES, &walls[1..], scheme.lend(), &mut grid), refusal(2, 0));
}

#[test]
fn the_first_fault_is_told() {
    // Each fault is added to those before it, and is found before them: 17 before 18, all of the other's, then all of the asker's.
    let mut lent = Lent::new(wet(23, FLUID));
    lent.refused(Change::Add, 23, 18, 23);
    lent.refused(Change::Add, 22, 17, 22);
    lent.refused(Change::Add, 99, 13, 0);
    lent.other.carry[2] = -1;
    lent.refused(Change::Add, 99, 6, 45);
    lent.other.masses[30] = 1;
    lent.refused(Change::Add, 99, 6, 30);
    lent.other.flags[22] = 1;
    lent.refused(Change::Add, 99, 6, 22);
    (lent.map[22], lent.other.flags[22], lent.other.flags[21]) = (0, 0, FLUID);
    lent.refused(Change::Add, 99, 5, 21);
    lent.other.flags[40] = 3;
    lent.refused(Change::Add, 99, 4, 40);
    lent.other.carry.truncate(1);
    lent.refused(Change::Add, 99, 2, 0);
    lent.asker.carry[1] = 1_000_000_000_000_001;
    lent.refused(Change::Add, 99, 6, 45);
    lent.asker.flags[44] = 2;
    lent.refused(Change::Add, 99, 6, 44);
    lent.asker.flags[23] = FLUID;
    lent.refused(Change::Add, 99, 5, 23);
    lent.map[22] = 2;
    lent.refused(Change::Add, 99, 4, 22);
    lent.asker.flags[21] = 3;
    lent.refused(Change::Add, 99, 4, 21);
    lent.map[1] = 0;
    lent.refused(Change::Add, 99, 4, 1);
    lent.asker.fills.push(0);
    lent.refused(Change::Remove, 99, 2, 0);
    lent.sides[1] = 2;
    lent.refused(Change::Remove, 99, 1, 0);

    let good = Lent::new(wet(23, FLUID));
    for slice in 0..11 {
        let mut lent = good.clone();
        let set = if slice < 5 { &mut lent.asker } else { &mut lent.other };
        match slice % 5 {
            _ if slice == 10 => lent.map.truncate(44),
            0 => set.flags.push(0),
            1 => set.parts.truncate(45),
            2 => set.masses.clear(),
            3 => set.fills.push(0),
            _ => set.carry.push(0),
        }
        lent.refused(Change::Add, 23, 2, 0);
    }
    // The greatest totals are good.
    let mut lent = Lent::new(Store::blank(N));
    for set in [&mut lent.asker, &mut lent.other] {
        set.carry = vec![-1_000_000_000_000, 1_000_000_000_000_000, 1_000_000_000_000_000];
    }
    lent.accepted(Change::Add, 23);
}

/// Every neighbour is looked at, each in either scheme, and no other cell is.
#[test]
fn the_eighteen_neighbours() {
    let sides = [5; 3];
    let grid = Grid::new(sides).unwrap();
    let middle = grid.cell([2, 2, 2]);
    let still = wet(21, FLUID);
    for c in (0..grid.n).filter(|&c| !grid.outer(c) && c != middle) {
        // Fluid here, walls in all other cells.
        let mut set = Store::blank(grid.n);
        (set.flags[c], set.masses[c], set.fills[c]) = (FLUID, 589_824, 65_536);
        set.parts[19 * c..19 * c + 19].copy_from_slice(&still.parts[19 * 21..19 * 22]);
        let map: Vec<u8> = (0..grid.n).map(|d| u8::from(d != c)).collect();
        let ways = [0, 1, 2].map(|axis| grid.position(c)[axis].abs_diff(2));
        let wanted = if ways == [1; 3] { Ok(()) } else { refusal(18, middle) };
        let dry = Store::blank(grid.n);
        for [asker, other] in [[&set, &dry], [&dry, &set], [&set, &set]] {
            let told =
                change(Change::Remove, sides, &mut map.clone(), asker.lend(), other.lend(), middle as u64);
            assert_eq!(told, wanted, "{ways:?}");
        }
    }
}

#[test]
fn neither_learns_of_the_other_but_that_it_is_in_the_way() {
    let tally = hunt(0..600).unwrap();
    for event in EVENTS {
        assert!(tally.count(event) > 60, "{event}: {}", tally.count(event));
    }
    for event in tally.met.keys() {
        assert!(EVENTS.contains(event), "not listed: {event}");
    }
}

/// A library that looks at the asker's water alone.
struct Careless;

/// A library that tells where the other's water is.
struct Telling;

impl Calls for Careless {
    fn change(
        which: Change,
        sides: [u32; 3],
        map: &mut [u8],
        asker: Set,
        _: Set,
        cell: u64,
    ) -> Result<(), Refusal> {
        change(which, sides, map, asker, Store::blank(asker.flags.len()).lend(), cell)
    }
}

impl Calls for Telling {
    fn change(
        which: Change,
        sides: [u32; 3],
        map: &mut [u8],
        asker: Set,
        other: Set,
        cell: u64,
    ) -> Result<(), Refusal> {
        let told = change(which, sides, map, asker, other, cell);
        let water = other.flags.iter().position(|&flag| flag != 0);
        match (told, water) {
            (Err(Refusal { number: 18, .. }), Some(place)) => refusal(18, place),
            _ => told,
        }
    }
}

#[test]
fn the_hunt_finds_a_library_that_is_careless_or_tells() {
    let careless = (0..60).find_map(|seed| hunted::<Careless>(seed).err()).expect("nothing found");
    assert!(careless.contains("foreseen") || careless.contains("no longer good"), "{careless}");
    let telling = (0..60).find_map(|seed| hunted::<Telling>(seed).err()).expect("nothing found");
    assert!(telling.contains("foreseen"), "{telling}");
}
