// Height grids by the wrapper: document 01's figures, the files that other programs write, what is refused and left alone, and the independent program's words.

use std::fs;

use oracle::scenes::good;
use skwarzyna::{
    lent, words_of, Grid, Held, HeldMut, Index, IndexMut, Place, Point, Refusal, Settings, Sides, Site,
    State, StateMut, EMPTY, ONE, PARTS, WALL,
};

const FOLDER: &str = concat!(env!("CARGO_MANIFEST_DIR"), "/../../tests/heights");
const FIGURE: &[u8] = include_bytes!("../../../tests/heights/figure.asc");
const MAP: &str = "ncols 5\nnrows 4\nxllcorner -0.050\nyllcorner 5200000.000\ncellsize 0.050\nNODATA_value -9999\n\
                   -9999 -9999 -9999 -9999 -9999\n-9999 -9999 37 0 -9999\n-9999 25 50 0 -9999\n-9999 -9999 -9999 -9999 -9999\n";
const FALLING: Settings = Settings { p: 1024, gx: 0, gy: 0, gz: -1024 };
const SITE: Site = Site { edge: 50, origin: Point::new(-50, 5_200_000_000, 118_000) };
const SIDES: Sides = Sides::new(5, 4, 4);
/// The inner cells of the figure's invert that stay empty.
const OPEN: [usize; 6] = [28, 31, 48, 51, 52, 53];

fn refusal<T>(number: u8, place: usize) -> Result<T, Refusal> {
    Err(Refusal { number, place })
}

/// The grid of the figure's depth map.
fn puddle() -> Grid {
    let mut grid = Grid::new(SIDES).unwrap();
    for (x, mass) in [(1, ONE / 2), (2, ONE), (3, 1)] {
        grid.set_interface(SIDES.cell(x, 1, 1).unwrap(), mass).unwrap();
    }
    grid.set_interface(SIDES.cell(2, 2, 1).unwrap(), 442_368).unwrap();
    for z in 1..3 {
        grid.set_wall(SIDES.cell(1, 2, z).unwrap()).unwrap();
    }
    grid
}

#[test]
fn the_invert_of_the_figure() {
    let record = Grid::from_invert(FIGURE, 4, 118_000, FALLING).unwrap();
    assert_eq!((record.grid.sides(), record.settings, record.site), (SIDES, FALLING, SITE));
    let flags = record.grid.state().flags;
    let open: Vec<usize> = (0..flags.len()).filter(|&cell| flags[cell] == EMPTY).collect();
    assert_eq!(open, OPEN);
    assert_eq!(record.grid.counts().liquid(), 0);
    assert_eq!((record.grid.check(), record.grid.surface_count()), (Ok(()), 0));
    // It is a grid like any: written and read back, and stepped.
    let bytes = record.grid.write(record.settings, record.site).unwrap();
    assert_eq!(Grid::read(&bytes).unwrap(), record);
    let mut grid = record.grid.clone();
    assert_eq!((grid.step(FALLING), grid.run(10, FALLING)), (Ok(()), Ok(())));
    assert_eq!(grid, record.grid);
}

#[test]
fn files_of_other_programs() {
    let figure = Grid::from_invert(FIGURE, 4, 118_000, FALLING).unwrap();
    let expected = fs::read_to_string(format!("{FOLDER}/expected.txt")).unwrap();
    for line in expected.lines().filter(|line| !line.starts_with('#')) {
        let [name, number, place] = line.split(' ').collect::<Vec<_>>()[..] else { panic!("{line}") };
        let text = fs::read(format!("{FOLDER}/{name}")).unwrap();
        let read = Grid::from_invert(&text, 4, 118_000, FALLING);
        match number {
            "0" => assert_eq!(read.as_ref(), Ok(&figure), "{name}"),
            _ => {
                assert_eq!(
                    read.map(|_| ()),
                    refusal(number.parse().unwrap(), place.parse().unwrap()),
                    "{name}"
                )
            }
        }
    }
}

#[test]
fn what_is_refused_of_an_invert() {
    let read = |text: &[u8], nz: usize, height: i64, settings: Settings| {
        Grid::from_invert(text, nz, height, settings).map(|_| ())
    };
    let refused = read(b"", 4, 0, FALLING).unwrap_err();
    assert_eq!((refused.number, refused.at()), (Refusal::HEADER, Place::Line(1)));
    for nz in [0, 2, 129, usize::MAX] {
        assert_eq!(read(FIGURE, nz, 0, FALLING), refusal(1, 0));
    }
    for p in [0, 2038, i64::MIN, i64::MAX] {
        assert_eq!(read(FIGURE, 4, 0, Settings { p, ..FALLING }), refusal(3, 0));
    }
    assert_eq!(read(FIGURE, 4, 10_000_000_001, FALLING), refusal(3, 0));
    assert_eq!(read(FIGURE, 4, -10_000_000_000, FALLING), Ok(()));
    for length in 0..FIGURE.len() - 1 {
        let refused = read(&FIGURE[..length], 4, 0, FALLING).unwrap_err();
        assert!(matches!(refused.at(), Place::Line(1..=10)) || length == 6, "{length}: {refused}");
    }
    assert_eq!(read(&FIGURE[..FIGURE.len() - 1], 4, 0, FALLING), Ok(()));
    // Sides of any size, and what is no number, end in a refusal and in nothing else.
    for side in ["18446744073709551616", "999999999999", "-1", "5e0", "\u{ff15}", "0", "128.000"] {
        let text = String::from_utf8_lossy(FIGURE).replace("ncols 5", &format!("ncols {side}"));
        assert!(read(text.as_bytes(), 4, 0, FALLING).is_err(), "{side}");
    }
}

/// A set and an index of the figure's lengths, holding anything.
#[derive(Clone, Debug, PartialEq)]
struct Lent {
    flags: Vec<u8>,
    parts: Vec<i32>,
    masses: Vec<i32>,
    fills: Vec<u32>,
    carry: Vec<i64>,
    words: Vec<u64>,
    count: Vec<u64>,
}

impl Lent {
    fn new() -> Lent {
        Lent {
            flags: vec![7; 80],
            parts: vec![-7; PARTS * 80],
            masses: vec![7; 80],
            fills: vec![7; 80],
            carry: vec![7, 77, 777],
            words: vec![7; words_of(80)],
            count: vec![7],
        }
    }

    fn read(&mut self) -> Result<(Sides, Site), Refusal> {
        let Lent { flags, parts, masses, fills, carry, words, count } = self;
        let state = StateMut { flags, parts, masses, fills, carry };
        let into = HeldMut { state, index: IndexMut { words, count } };
        lent::invert_read(FIGURE, 4, 118_000, FALLING, into)
    }
}

#[test]
fn slices_of_ones_own() {
    let mut lent = Lent::new();
    assert_eq!(lent.read(), Ok((SIDES, SITE)));
    assert!((0..80).all(|cell| lent.flags[cell] == if OPEN.contains(&cell) { EMPTY } else { WALL }));
    assert!(lent.parts.iter().chain(&lent.masses).all(|&number| number == 0));
    assert!(lent.fills.iter().all(|&fill| fill == 0));
    assert_eq!((&lent.carry[..], &lent.words[..], &lent.count[..]), (&[0; 3][..], &[0; 2][..], &[0][..]));
    let Lent { flags, parts, masses, fills, carry, words, count } = &lent;
    let held = Held { state: State { flags, parts, masses, fills, carry }, index: Index { words, count } };
    assert_eq!(lent::load(SIDES, held), Ok(()));
    for slice in 0..7 {
        let mut lent = Lent::new();
        match slice {
            0 => lent.flags.truncate(79),
            1 => lent.parts.push(0),
            2 => lent.masses.clear(),
            3 => lent.fills.push(0),
            4 => lent.carry.truncate(1),
            5 => lent.words.push(0),
            _ => lent.count.clear(),
        }
        let before = lent.clone();
        assert_eq!((lent.read(), lent), (refusal(2, 0), before));
    }
}

#[test]
fn the_depth_map_of_the_figure() {
    let grid = puddle();
    assert_eq!(grid.depth_map(SITE).as_deref(), Ok(MAP));
    let put = |room: &mut [u8]| lent::depths_write(SIDES, SITE, grid.state(), room);
    let mut room = [b'!'; 200];
    assert_eq!(put(&mut room), Ok(192));
    assert_eq!((&room[..192], &room[192..]), (MAP.as_bytes(), &[b'!'; 8][..]));
    for length in [0, 1, 191] {
        let mut room = vec![b'!'; length];
        let refused = put(&mut room).unwrap_err();
        assert_eq!((refused.number, refused.at()), (Refusal::ROOM, Place::Room(192)));
        assert_eq!(room, vec![b'!'; length]);
    }
    // The origin's height is not looked at; all else is.
    let far = |x: i64, y: i64, z: i64| Site { origin: Point::new(x, y, z), ..SITE };
    assert_eq!(grid.depth_map(far(-50, 5_200_000_000, i64::MAX)).as_deref(), Ok(MAP));
    assert_eq!(grid.depth_map(far(10_000_000_001, 0, 0)), refusal(3, 0));
    assert_eq!(grid.depth_map(far(0, i64::MIN, 0)), refusal(3, 0));
    assert_eq!(grid.depth_map(Site { edge: 1001, ..SITE }), refusal(3, 0));
    let mut broken = grid.clone();
    broken.state_mut().fills[27] += 1;
    assert_eq!(broken.depth_map(SITE), refusal(6, 27));
    broken.state_mut().flags[0] = 0;
    assert_eq!(broken.depth_map(SITE), refusal(4, 0));
}

#[test]
fn every_depth_map_has_room_and_is_read() {
    let far = Point::new(-10_000_000_000, -10_000_000_000, 0);
    let mut solid = Grid::new(Sides::new(128, 128, 16)).unwrap();
    solid.state_mut().flags.fill(WALL);
    let longest = solid.depth_map(Site { edge: 1000, origin: far }).unwrap();
    assert_eq!(longest.len(), 98_406);
    // Six digits: a shaft of 126 cells of a metre, full.
    let mut shaft = Grid::new(Sides::new(3, 3, 128)).unwrap();
    for z in 1..127 {
        shaft.set_fluid(shaft.sides().cell(1, 1, z).unwrap(), ONE).unwrap();
    }
    let map = shaft.depth_map(Site { edge: 1000, origin: far }).unwrap();
    assert_eq!(map.lines().nth(7), Some("-9999 126000 -9999"));
    for seed in 0..100 {
        let scene = good(seed);
        let record = Grid::read(&scene.record()).unwrap();
        let map = record.grid.depth_map(record.site).unwrap();
        let mut room = vec![0; map.len()];
        let (edge, [x, y, _]) = (scene.settings.edge, scene.origin);
        let set = oracle::Store::of(&scene.state);
        let wanted = oracle::depths::write(scene.sides, edge, [x, y], set.lend(), &mut room);
        assert_eq!((wanted, map.as_bytes()), (Ok(map.len()), &room[..]), "seed {seed}");
        let nz = record.grid.sides().nz;
        let read = Grid::from_invert(map.as_bytes(), nz, record.site.origin.z, record.settings).unwrap();
        assert_eq!((read.grid.sides(), read.site), (record.grid.sides(), record.site), "seed {seed}");
        assert_eq!((read.grid.check(), read.grid.counts().liquid()), (Ok(()), 0));
    }
}
