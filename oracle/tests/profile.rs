// The worked figures of the chainage profile, its refusals in their order, and what a refusal leaves.

use oracle::grid::Refusal;
use oracle::profile::{profile, Survey, POINTS};
use oracle::state::{EMPTY, INTERFACE, WALL};

/// All that a profile is lent and given; the grid and the list of the amendment.
#[derive(Clone)]
struct Lent {
    sides: [u32; 3],
    edge: i32,
    origin: [i64; 3],
    flags: Vec<u8>,
    fills: Vec<u32>,
    chainages: Vec<i64>,
    points: Vec<i64>,
    kinds: Vec<u8>,
    depths: Vec<f32>,
}

const NORTH: i64 = 5_200_000_000;

fn gutter() -> Lent {
    let mut flags = vec![WALL; 80];
    let mut fills = vec![0; 80];
    for (x, y, fill) in [(1, 1, 32_768), (2, 1, 65_536), (3, 1, 0), (2, 2, 49_152)] {
        let low = x + 5 * (y + 4);
        (flags[low], fills[low]) = (INTERFACE, fill);
        flags[low + 20] = EMPTY;
    }
    (flags[33], flags[53]) = (EMPTY, EMPTY);
    let points =
        [[25, 75, 60], [50, 50, 0], [60, 99, 199], [60, 99, 200], [0, 100, 0], [125, 125, 0], [75, 120, 10]];
    Lent {
        sides: [5, 4, 4],
        edge: 50,
        origin: [-50, NORTH, 0],
        flags,
        fills,
        chainages: (0..7).map(|i| 1000 * i).collect(),
        points: points.iter().flat_map(|[x, y, z]| [*x, NORTH + y, *z]).collect(),
        kinds: vec![77; 7],
        depths: vec![-7.5; 7],
    }
}

/// A list of so many points, all at one place.
fn many(points: usize) -> Lent {
    let lent = gutter();
    Lent {
        chainages: (0..points as i64).collect(),
        points: lent.points[..3].repeat(points),
        kinds: vec![77; points],
        depths: vec![-7.5; points],
        ..lent
    }
}

impl Lent {
    fn asked(&mut self) -> Result<Option<usize>, Refusal> {
        let survey = Survey {
            sides: self.sides,
            edge: self.edge,
            origin: self.origin,
            flags: &self.flags,
            fills: &self.fills,
        };
        profile(&survey, &self.chainages, &self.points, &mut self.kinds, &mut self.depths)
    }

    /// The refusal, which has written nothing.
    fn refused(mut self) -> (u32, u64) {
        let (kinds, depths) = (self.kinds.clone(), self.depths.clone());
        let refusal = self.asked().unwrap_err();
        assert_eq!((self.kinds, self.depths), (kinds, depths));
        (refusal.number, refusal.place)
    }

    fn with(&self, change: impl Fn(&mut Lent)) -> Lent {
        let mut other = self.clone();
        change(&mut other);
        other
    }
}

#[test]
fn the_lines_of_the_gutter() {
    let mut lent = gutter();
    assert_eq!(lent.asked(), Ok(Some(1)));
    assert_eq!(lent.kinds, [3, 3, 3, 4, 1, 2, 3]);
    assert_eq!(lent.depths, [0.5, 1.0, 1.0, 0.0, 0.0, 0.0, 0.75]);
}

#[test]
fn faults_one_over_the_other() {
    // Each fault is added to those before it, and is found before them.
    let far = gutter().with(|lent| lent.points[3] = 10_000_000_001);
    assert_eq!(far.clone().refused(), (3, 1));
    let level = far.with(|lent| lent.chainages[3] = lent.chainages[2]);
    assert_eq!(level.clone().refused(), (23, 3));
    let no_edge = level.with(|lent| lent.edge = 0);
    assert_eq!(no_edge.clone().refused(), (3, 0));
    let short = no_edge.with(|lent| lent.kinds.truncate(6));
    assert_eq!(short.clone().refused(), (2, 0));
    assert_eq!(short.with(|lent| lent.sides[1] = 2).refused(), (1, 0));
}

#[test]
fn a_list_has_one_to_two_thousand_points() {
    assert_eq!(many(0).refused(), (22, 0));
    assert_eq!(many(1).asked(), Ok(Some(0)));
    assert_eq!(many(POINTS).asked(), Ok(Some(0)));
    assert_eq!(many(POINTS + 1).refused(), (22, 0));
    // 22 comes before 3, and 2 before 22.
    assert_eq!(many(0).with(|lent| lent.edge = 0).refused(), (22, 0));
    assert_eq!(many(POINTS + 1).with(|lent| lent.depths.push(0.0)).refused(), (2, 0));
    assert_eq!(many(0).with(|lent| lent.points.push(0)).refused(), (2, 0));
}

#[test]
fn every_slice_has_its_length() {
    let changes: [fn(&mut Lent); 7] = [
        |lent| lent.flags.truncate(79),
        |lent| lent.fills.push(0),
        |lent| lent.points.truncate(18),
        |lent| lent.points.truncate(20),
        |lent| lent.points.push(0),
        |lent| lent.kinds.push(0),
        |lent| lent.depths.clear(),
    ];
    for change in changes {
        assert_eq!(gutter().with(change).refused(), (2, 0));
    }
}

#[test]
fn chainages_are_only_compared() {
    let chainages = [i64::MIN, -1, 0, 1, 2, i64::MAX - 1, i64::MAX];
    assert_eq!(gutter().with(|lent| lent.chainages = chainages.to_vec()).asked(), Ok(Some(1)));
    let falling = gutter().with(|lent| lent.chainages.reverse());
    assert_eq!(falling.refused(), (23, 1));
    // The last is looked at too.
    assert_eq!(gutter().with(|lent| lent.chainages[6] = 5_000).refused(), (23, 6));
}

#[test]
fn coordinates_to_their_limits() {
    for limit in [10_000_000_000, -10_000_000_000] {
        for axis in 0..3 {
            let mut lent = gutter().with(|lent| lent.points[3 * 4 + axis] = limit);
            assert_eq!(lent.asked(), Ok(Some(1)));
            assert_eq!(lent.kinds, [3, 3, 3, 4, 4, 2, 3]);
            let past = gutter().with(|lent| lent.points[3 * 4 + axis] = limit + limit.signum());
            assert_eq!(past.refused(), (3, 4));
            assert_eq!(gutter().with(|lent| lent.origin[axis] = limit + limit.signum()).refused(), (3, 0));
        }
    }
}

#[test]
fn damaged_columns_by_list_order() {
    // Column (2, 2) is that of point 6, column (2, 1) that of points 1 and 2, column (1, 2) that of point 4.
    assert_eq!(gutter().with(|lent| lent.flags[72] = 4).refused(), (4, 72));
    let fill = |lent: &mut Lent| lent.fills[7] = 65_537;
    assert_eq!(gutter().with(fill).refused(), (6, 7));
    // An earlier point's 6 comes before a later point's 4, and within a column 4 before 6.
    assert_eq!(gutter().with(fill).with(|lent| lent.flags[72] = 4).refused(), (6, 7));
    assert_eq!(gutter().with(fill).with(|lent| lent.flags[67] = 255).refused(), (4, 67));
    // Walls' fills are tested, though they are no part of a depth.
    assert_eq!(gutter().with(|lent| lent.fills[11] = 65_537).refused(), (6, 11));
    // No point lies in column (0, 0).
    assert_eq!(gutter().with(|lent| (lent.flags[0], lent.fills[0]) = (9, 70_000)).asked(), Ok(Some(1)));
}

#[test]
fn none_is_deep() {
    let mut dry = gutter().with(|lent| lent.fills.fill(0));
    assert_eq!(dry.asked(), Ok(None));
    assert_eq!(dry.kinds, [2, 2, 2, 4, 1, 2, 2]);
    assert_eq!(dry.depths, [0.0; 7]);
}

#[test]
fn the_deepest_is_the_first_among_equals() {
    // A 65,536th more at point 6 is deeper; as much is not.
    assert_eq!(gutter().with(|lent| lent.fills[32] = 65_536).asked(), Ok(Some(1)));
    let deeper = |lent: &mut Lent| (lent.fills[32], lent.fills[52]) = (65_536, 1);
    assert_eq!(gutter().with(deeper).asked(), Ok(Some(6)));
    assert_eq!(gutter().with(|lent| lent.fills[26] = 65_536).asked(), Ok(Some(0)));
}
