// The profile: document 01's figures through the grid, every refusal over lent slices and what it leaves, and the independent program's answers.

use oracle::profile::Survey;
use oracle::random::Random;
use oracle::scenes::good;
use oracle::Store;
use skwarzyna::lent;
use skwarzyna::{Depth, Grid, Line, Point, Refusal, Sides, Site, State, Station, EMPTY, INTERFACE, WALL};

const SIDES: Sides = Sides::new(5, 4, 4);
const NORTH: i64 = 5_200_000_000;
const SITE: Site = Site { edge: 50, origin: Point::new(-50, NORTH, 0) };

/// Flags and fills of the gutter.
fn gutter() -> (Vec<u8>, Vec<u32>) {
    let (mut flags, mut fills) = (vec![WALL; 80], vec![0; 80]);
    for (low, fill) in [(26, 32_768), (27, 65_536), (28, 0), (32, 49_152)] {
        (flags[low], fills[low], flags[low + 20]) = (INTERFACE, fill, EMPTY);
    }
    (flags[33], flags[53]) = (EMPTY, EMPTY);
    (flags, fills)
}

/// Its seven points, a metre apart.
fn stations() -> Vec<Station> {
    let points =
        [(25, 75, 60), (50, 50, 0), (60, 99, 199), (60, 99, 200), (0, 100, 0), (125, 125, 0), (75, 120, 10)];
    let station = |(chainage, (x, y, z))| Station { chainage, point: Point::new(x, NORTH + y, z) };
    (0..).step_by(1000).zip(points).map(station).collect()
}

/// The gutter as a grid, whose state need not be good for a profile.
fn grid() -> Grid {
    let mut grid = Grid::new(SIDES).unwrap();
    let (flags, fills) = gutter();
    let state = grid.state_mut();
    state.flags.copy_from_slice(&flags);
    state.fills.copy_from_slice(&fills);
    grid
}

fn refused(number: u8, place: usize) -> Result<Option<usize>, Refusal> {
    Err(Refusal { number, place })
}

#[test]
fn the_gutter_is_profiled() {
    let profile = grid().profile(SITE, &stations()).unwrap();
    assert_eq!(profile.deepest, Some(1));
    let deep = |depth: f32| Line::Inside(Depth::Deep(depth));
    let (solid, dry) = (Line::Inside(Depth::Solid), Line::Inside(Depth::Dry));
    assert_eq!(profile.lines, [deep(0.5), deep(1.0), deep(1.0), Line::Outside, solid, dry, deep(0.75)]);
    let dry = Grid::new(SIDES).unwrap().profile(SITE, &stations()).unwrap();
    assert_eq!(dry.deepest, None);
    assert!(dry.lines.iter().all(|line| !matches!(line, Line::Inside(Depth::Deep(_)))));
}

#[test]
fn a_grid_refuses_lists() {
    let profile =
        |site: Site, stations: &[Station]| grid().profile(site, stations).map(|profile| profile.deepest);
    let mut list = stations();
    assert_eq!(profile(SITE, &[]), refused(Refusal::LIST, 0));
    list[1].point.x = 10_000_000_001;
    assert_eq!(profile(SITE, &list), refused(Refusal::SETTING, 1));
    list[3].chainage = list[2].chainage;
    assert_eq!(profile(SITE, &list), refused(Refusal::CHAINAGE, 3));
    assert_eq!(profile(Site { edge: 0, ..SITE }, &list), refused(Refusal::SETTING, 0));
    let many: Vec<Station> = (0..2_001).map(|chainage| Station { chainage, ..list[0] }).collect();
    assert_eq!(profile(SITE, &many), refused(Refusal::LIST, 0));
    assert_eq!(profile(SITE, &many[..2_000]), Ok(Some(0)));
}

/// Slices to lend.
#[derive(Clone)]
struct Lent {
    flags: Vec<u8>,
    fills: Vec<u32>,
    chainages: Vec<i64>,
    points: Vec<i64>,
    kinds: Vec<u8>,
    depths: Vec<f32>,
}

impl Lent {
    fn new() -> Lent {
        let ((flags, fills), stations) = (gutter(), stations());
        Lent {
            flags,
            fills,
            chainages: stations.iter().map(|station| station.chainage).collect(),
            points: stations.iter().flat_map(|Station { point, .. }| [point.x, point.y, point.z]).collect(),
            kinds: vec![77; 7],
            depths: vec![-7.5; 7],
        }
    }

    fn profile(&mut self, sides: Sides, site: Site) -> Result<Option<usize>, Refusal> {
        let Lent { flags, fills, chainages, points, kinds, depths } = self;
        lent::profile(sides, site, flags, fills, chainages, points, kinds, depths)
    }
}

#[test]
fn a_refusal_writes_nothing() {
    type Change = fn(&mut Lent);
    let changes: [(Change, u8, usize); 12] = [
        (|lent| lent.flags.truncate(79), Refusal::LENGTH, 0),
        (|lent| lent.fills.push(0), Refusal::LENGTH, 0),
        (|lent| lent.points.truncate(20), Refusal::LENGTH, 0),
        (|lent| lent.kinds.push(5), Refusal::LENGTH, 0),
        (|lent| lent.depths.truncate(6), Refusal::LENGTH, 0),
        (|lent| lent.chainages.push(9_000), Refusal::LENGTH, 0),
        (|lent| lent.chainages[6] = 4_999, Refusal::CHAINAGE, 6),
        (|lent| lent.points[20] = -10_000_000_001, Refusal::SETTING, 6),
        (|lent| lent.flags[72] = 4, Refusal::FLAG, 72),
        (|lent| lent.fills[12] = 65_537, Refusal::STATE, 12),
        (|lent| (lent.fills[7], lent.flags[72]) = (65_537, 4), Refusal::STATE, 7),
        (
            |lent| {
                lent.chainages.clear();
                lent.points.clear();
                lent.kinds.clear();
                lent.depths.clear();
            },
            Refusal::LIST,
            0,
        ),
    ];
    for (change, number, place) in changes {
        let mut lent = Lent::new();
        change(&mut lent);
        let before = lent.clone();
        assert_eq!(lent.profile(SIDES, SITE), refused(number, place));
        assert_eq!((lent.kinds, lent.depths), (before.kinds, before.depths));
    }
    let mut lent = Lent::new();
    assert_eq!(lent.profile(Sides::new(5, 4, 2), SITE), refused(Refusal::SIDES, 0));
    assert_eq!(lent.profile(SIDES, SITE), Ok(Some(1)));
    assert_eq!(lent.kinds, [3, 3, 3, 4, 1, 2, 3]);
}

#[test]
fn profiles_are_the_same() {
    let (mut wet, mut dry) = (0, 0);
    for seed in 0..400 {
        let scene = good(seed);
        let store = Store::of(&scene.state);
        let [nx, ny, nz] = scene.sides.map(|side| side as usize);
        let edge = i64::from(scene.settings.edge);
        let [ox, oy, oz] = scene.origin;
        let random = &mut Random::new(seed);
        let stations: Vec<Station> = (0..1 + random.below(40) as i64)
            .map(|chainage| {
                let mut near =
                    |corner: i64, side: usize| corner + random.below((side + 1) * edge as usize) as i64;
                Station { chainage, point: Point::new(near(ox, nx), near(oy, ny), near(oz, nz)) }
            })
            .collect();

        let chainages: Vec<i64> = stations.iter().map(|station| station.chainage).collect();
        let points: Vec<i64> =
            stations.iter().flat_map(|Station { point, .. }| [point.x, point.y, point.z]).collect();
        let (mut kinds, mut depths) = (vec![0; stations.len()], vec![0.0; stations.len()]);
        let survey = Survey {
            sides: scene.sides,
            edge: scene.settings.edge,
            origin: scene.origin,
            flags: &store.flags,
            fills: &store.fills,
        };
        let theirs = oracle::profile(&survey, &chainages, &points, &mut kinds, &mut depths);

        let set = store.lend();
        let state = State {
            flags: set.flags,
            parts: set.parts,
            masses: set.masses,
            fills: set.fills,
            carry: set.carry,
        };
        let grid = Grid::of(Sides::new(nx, ny, nz), state).unwrap();
        let ours = grid.profile(Site { edge, origin: Point::new(ox, oy, oz) }, &stations);
        match (ours, theirs) {
            (Ok(ours), Ok(deepest)) => {
                assert_eq!(ours.deepest, deepest, "seed {seed}");
                let lines = ours.lines.into_iter().zip(kinds).zip(depths);
                for ((line, kind), depth) in lines {
                    let told = match line {
                        Line::Inside(Depth::Solid) => (1, 0.0),
                        Line::Inside(Depth::Dry) => (2, 0.0),
                        Line::Inside(Depth::Deep(depth)) => (3, depth),
                        Line::Outside => (4, 0.0),
                    };
                    assert_eq!(told, (kind, depth), "seed {seed}");
                }
                if deepest.is_some() {
                    wet += 1;
                } else {
                    dry += 1;
                }
            }
            // A point of a grid at the end of the range.
            (Err(ours), Err(theirs)) => {
                assert_eq!((u32::from(ours.number), ours.place as u64), (theirs.number, theirs.place));
            }
            (ours, theirs) => panic!("seed {seed}: {ours:?}, {theirs:?}"),
        }
    }
    assert!(wet > 100 && dry > 10, "{wet} wet and {dry} dry");
}
