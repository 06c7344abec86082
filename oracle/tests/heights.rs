// The worked figures of the height grids, every fault that they list, the table of spellings, and what the trade's programs write.

use oracle::depths::{metres, write};
use oracle::grid::{Grid, Refusal};
use oracle::invert::{number, read, whole, Head, Wish};
use oracle::lattice::{weight, ONE};
use oracle::random::Random;
use oracle::scenes::good;
use oracle::state::{Cell, State, EMPTY, INTERFACE, WALL};
use oracle::{load, HeldStore, Settings, Store};

const FIGURE: &str = include_str!("../../tests/heights/figure.asc");
const WISH: Wish = Wish { nz: 4, oz: 7, p: 1024, gravity: [0, 0, -1024] };
/// The inner cells of the figure that stay empty.
const OPEN: [usize; 6] = [28, 31, 48, 51, 52, 53];

fn refused<T>(number: u32, place: u64) -> Result<T, Refusal> {
    Err(Refusal { number, place })
}

/// A set and an index of n cells that hold anything.
fn anything(n: usize) -> HeldStore {
    let mut held = HeldStore::of(Store {
        flags: vec![77; n],
        parts: vec![-77; 19 * n],
        masses: vec![77; n],
        fills: vec![77; n],
        carry: vec![7, 77, 777],
    });
    held.index.words.fill(77);
    held.index.count.fill(7);
    held
}

/// The text read with room for n cells; a refusal has written nothing.
fn read_in(text: &[u8], wish: &Wish, n: usize) -> Result<(Head, HeldStore), Refusal> {
    let mut held = anything(n);
    let answer = read(text, wish, held.lend_mut());
    if answer.is_err() {
        assert_eq!(held, anything(n));
    }
    answer.map(|head| (head, held))
}

fn read_figure(text: &[u8]) -> Result<(Head, HeldStore), Refusal> {
    read_in(text, &WISH, 80)
}

/// That a text is the figure's invert: all of the set and the index.
fn is_figure(text: &[u8]) {
    let (head, held) = read_figure(text).unwrap();
    let settings = Settings { p: 1024, gravity: [0, 0, -1024], edge: 50 };
    assert_eq!(head, Head { sides: [5, 4, 4], settings, origin: [-50, 5_200_000_000, 7] });
    let flags = (0..80).map(|c| if OPEN.contains(&c) { EMPTY } else { WALL }).collect();
    assert_eq!(held, HeldStore::of(Store { flags, ..Store::blank(80) }));
    assert_eq!(load(head.sides, held.lend()), Ok(()));
}

/// The figure with a line made another, or left out.
fn with(line: usize, text: Option<&str>) -> String {
    let mut lines: Vec<&str> = FIGURE.lines().collect();
    lines.splice(line - 1..line, text);
    lines.join("\n") + "\n"
}

#[test]
fn the_invert_of_the_figure() {
    is_figure(FIGURE.as_bytes());
    is_figure(FIGURE.trim_end().as_bytes());
    is_figure(format!("{FIGURE}\n \t\r\n\n").as_bytes());
    is_figure(FIGURE.replace('\n', "\r\n").as_bytes());
}

#[test]
fn its_faults() {
    for (line, text, number, place) in [
        (1, Some("ncols five"), 19, 1),
        (1, Some("ncols 5 5"), 19, 1),
        (1, Some("ncols 5.5"), 19, 1),
        (1, Some("ncols"), 19, 1),
        (1, Some("nrows 5"), 19, 1),
        (1, Some(""), 19, 1),
        (1, Some("ncols 2"), 1, 0),
        (1, Some("ncols -5"), 1, 0),
        (1, Some("ncols 129"), 1, 0),
        (1, Some("ncols 999999999999"), 1, 0),
        (2, Some("nrows 4294967300"), 1, 0),
        (3, Some("xllcenter -0.050"), 19, 3),
        (3, Some("xllcorner -0.0505"), 19, 3),
        (3, Some("xllcorner 10000000.001"), 3, 0),
        (4, Some("yllcorner -10000000.001"), 3, 0),
        (4, Some("yllcorner 999999999999.999"), 3, 0),
        (5, Some("cellsize 1.001"), 3, 0),
        (5, Some("cellsize 0"), 3, 0),
        (5, Some("cellsize -0.050"), 3, 0),
        (5, Some("cellsize 4294967.346"), 3, 0),
        (5, None, 19, 5),
        (6, Some("NODATA_value -1"), 19, 6),
        (6, Some("NODATA_value -9999.001"), 19, 6),
        (6, Some("NODATA_value"), 19, 6),
        (8, Some("0 75 76 125"), 20, 8),
        (8, Some("0 75 76 125 0 0"), 20, 8),
        (8, Some("0 75 76.5 125 0"), 20, 8),
        (8, Some(""), 20, 8),
        (8, None, 20, 10),
        (10, Some("0 0 0 0 0\nx"), 20, 11),
        (10, Some("0 0 0 0 0\n\n\n0"), 20, 13),
    ] {
        let answer = read_figure(with(line, text).as_bytes());
        assert_eq!(answer.map(|_| ()), refused(number, place), "line {line} made {text:?}");
    }
    for (cut, line) in [(0, 1), (5, 1), (8, 2), (59, 5), (76, 6), (93, 7)] {
        let number = if line > 6 { 20 } else { 19 };
        assert_eq!(
            read_figure(&FIGURE.as_bytes()[..cut]).map(|_| ()),
            refused(number, line),
            "{cut} bytes of it"
        );
    }
}

#[test]
fn the_first_fault_is_told() {
    // Each fault is added to those before it, and is found before them.
    let mut wish = WISH;
    let rows = with(7, Some("0"));
    assert_eq!(read_in(rows.as_bytes(), &wish, 80).map(|_| ()), refused(20, 7));
    wish.p = 0;
    assert_eq!(read_in(rows.as_bytes(), &wish, 80).map(|_| ()), refused(3, 0));
    for n in [79, 81, 0] {
        assert_eq!(read_in(rows.as_bytes(), &wish, n).map(|_| ()), refused(2, 0));
    }
    wish.nz = 2;
    assert_eq!(read_in(rows.as_bytes(), &wish, 79).map(|_| ()), refused(1, 0));
    let last = rows.replace("NODATA_value -9999", "NODATA_value 0");
    assert_eq!(read_in(last.as_bytes(), &wish, 79).map(|_| ()), refused(19, 6));
    let both = last.replace("nrows", "rows");
    assert_eq!(read_in(both.as_bytes(), &wish, 79).map(|_| ()), refused(19, 2));

    for wrong in [
        Wish { p: 2038, ..WISH },
        Wish { gravity: [35, 0, -1048], ..WISH },
        Wish { oz: 10_000_000_001, ..WISH },
        Wish { oz: i64::MIN, ..WISH },
    ] {
        assert_eq!(read_figure_as(&wrong), refused(3, 0));
    }
    for nz in [0, 2, 129, u32::MAX] {
        assert_eq!(read_figure_as(&Wish { nz, ..WISH }), refused(1, 0));
    }
    for length in 0..7 {
        let mut held = anything(80);
        match length {
            0 => held.set.flags.truncate(79),
            1 => held.set.parts.truncate(80),
            2 => held.set.masses.push(0),
            3 => held.set.fills.clear(),
            4 => held.set.carry.truncate(1),
            5 => held.index.words.truncate(1),
            _ => held.index.count.push(0),
        }
        let before = held.clone();
        assert_eq!(read(FIGURE.as_bytes(), &WISH, held.lend_mut()).map(|_| ()), refused(2, 0));
        assert_eq!(held, before);
    }
}

fn read_figure_as(wish: &Wish) -> Result<(), Refusal> {
    read_in(FIGURE.as_bytes(), wish, 80).map(|_| ())
}

#[test]
fn numbers_as_they_are_spelled() {
    let thousandths = |word: &str| number(word.as_bytes());
    for word in ["5", "005", "5.0", "5.000000"] {
        assert_eq!((thousandths(word), whole(word.as_bytes())), (Some(5000), Some(5)), "{word}");
    }
    for word in ["-0", "-0.000"] {
        assert_eq!(whole(word.as_bytes()), Some(0), "{word}");
    }
    for word in ["0.05", "0.050", "0.0500000"] {
        assert_eq!((thousandths(word), whole(word.as_bytes())), (Some(50), None), "{word}");
    }
    for word in ["-9999", "-9999.0"] {
        assert_eq!(whole(word.as_bytes()), Some(-9999), "{word}");
    }
    assert_eq!(thousandths("-0.050"), Some(-50));
    assert_eq!(thousandths("999999999999.999"), Some(999_999_999_999_999));
    assert_eq!(thousandths("000000000000.1"), Some(100));
    for word in [
        "+5",
        "--5",
        "5.",
        ".5",
        "1e3",
        "1,5",
        "five",
        "",
        "-",
        ".",
        "-.",
        "0.0005",
        "0.00010",
        "1234567890123",
        "0000000000001",
        "5.-0",
        "5.0.0",
        "5-",
        "0x5",
        "nan",
        "\u{a0}5",
    ] {
        assert_eq!(thousandths(word), None, "{word}");
    }
}

#[test]
fn what_other_programs_write() {
    let folder = concat!(env!("CARGO_MANIFEST_DIR"), "/../tests/heights");
    let expected = std::fs::read_to_string(format!("{folder}/expected.txt")).unwrap();
    let mut files = 0;
    for line in expected.lines().filter(|line| !line.starts_with('#')) {
        let [name, number, place] = line.split(' ').collect::<Vec<_>>()[..] else { panic!("{line}") };
        let text = std::fs::read(format!("{folder}/{name}")).unwrap();
        match number {
            "0" => is_figure(&text),
            _ => assert_eq!(
                read_figure(&text).map(|_| ()),
                refused(number.parse().unwrap(), place.parse().unwrap()),
                "{name}"
            ),
        }
        files += 1;
    }
    let there = std::fs::read_dir(folder)
        .unwrap()
        .filter(|file| file.as_ref().unwrap().path().extension().is_some_and(|extension| extension == "asc"));
    assert_eq!(files, there.count());
}

/// The grid of the figure's depth map.
fn figure_state() -> State {
    let grid = Grid::new([5, 4, 4]).unwrap();
    let blank = |c: usize| Cell::blank(if grid.outer(c) { WALL } else { EMPTY });
    let mut state = State::new((0..grid.n).map(blank).collect(), 0);
    let parts = std::array::from_fn(|k| weight(k) * ONE / 36);
    for (x, y, mass) in [(1, 1, 294_912), (2, 1, 589_824), (3, 1, 1), (2, 2, 442_368)] {
        state.cells[grid.cell([x, y, 1])] = Cell { flag: INTERFACE, parts, mass, fill: 0 };
    }
    for z in 1..3 {
        state.cells[grid.cell([1, 2, z])] = Cell::blank(WALL);
    }
    state.work_out_fills();
    state
}

const MAP: &str = "ncols 5\nnrows 4\nxllcorner -0.050\nyllcorner 5200000.000\ncellsize 0.050\nNODATA_value -9999\n\
                   -9999 -9999 -9999 -9999 -9999\n-9999 -9999 37 0 -9999\n-9999 25 50 0 -9999\n-9999 -9999 -9999 -9999 -9999\n";
const CORNER: [i64; 2] = [-50, 5_200_000_000];

fn written(
    set: &Store,
    sides: [u32; 3],
    edge: i32,
    corner: [i64; 2],
    room: usize,
) -> Result<Vec<u8>, Refusal> {
    let mut lent = vec![b'!'; room];
    let answer = write(sides, edge, corner, set.lend(), &mut lent);
    let (text, rest) = lent.split_at(answer.unwrap_or(0));
    assert!(rest.iter().all(|&byte| byte == b'!'));
    answer.map(|_| text.to_vec())
}

#[test]
fn the_depth_map_of_the_figure() {
    let set = Store::of(&figure_state());
    let at = |room: usize| written(&set, [5, 4, 4], 50, CORNER, room);
    assert_eq!(MAP.len(), 192);
    for room in [192, 193, 1000] {
        assert_eq!(String::from_utf8(at(room).unwrap()).unwrap(), MAP);
    }
    for room in [0, 1, 191] {
        assert_eq!(at(room), refused(12, 192));
    }
}

#[test]
fn the_writers_first_fault_is_told() {
    let (mut set, mut sides, mut edge) = (Store::of(&figure_state()), [5, 4, 4], 50);
    let at = |set: &Store, sides: [u32; 3], edge: i32| written(set, sides, edge, CORNER, 10).map(|_| ());
    assert_eq!(at(&set, sides, edge), refused(12, 192));
    set.carry[1] = -1;
    assert_eq!(at(&set, sides, edge), refused(6, 80));
    set.fills[27] += 1;
    assert_eq!(at(&set, sides, edge), refused(6, 27));
    set.flags[27] = 2;
    assert_eq!(at(&set, sides, edge), refused(5, 27));
    set.flags[79] = 0;
    assert_eq!(at(&set, sides, edge), refused(4, 79));
    edge = 1001;
    assert_eq!(at(&set, sides, edge), refused(3, 0));
    set.masses.pop();
    assert_eq!(at(&set, sides, edge), refused(2, 0));
    sides[0] = 129;
    assert_eq!(at(&set, sides, edge), refused(1, 0));

    let good = Store::of(&figure_state());
    for (edge, corner) in [
        (0, CORNER),
        (-50, CORNER),
        (50, [10_000_000_001, 0]),
        (50, [0, -10_000_000_001]),
        (50, [i64::MIN; 2]),
    ] {
        assert_eq!(written(&good, [5, 4, 4], edge, corner, 500), refused(3, 0));
    }
}

#[test]
fn metres_as_they_are_spelled() {
    for (millimetres, text) in [
        (0, "0.000"),
        (-1, "-0.001"),
        (-50, "-0.050"),
        (1000, "1.000"),
        (-999, "-0.999"),
        (5_200_000_000, "5200000.000"),
        (-10_000_000_000, "-10000000.000"),
    ] {
        assert_eq!(metres(millimetres), text);
        assert_eq!(number(text.as_bytes()), Some(millimetres));
    }
}

#[test]
fn the_longest_depth_map() {
    let solid = |sides: [u32; 3]| Store {
        flags: vec![WALL; sides.iter().product::<u32>() as usize],
        ..Store::blank(sides.iter().product::<u32>() as usize)
    };
    let far = [-10_000_000_000; 2];
    let sides = [128, 128, 16];
    assert_eq!(written(&solid(sides), sides, 1000, far, 98_406).unwrap().len(), 98_406);
    assert_eq!(written(&solid(sides), sides, 1, far, 98_405), refused(12, 98_406));
}

#[test]
fn what_is_written_is_read() {
    for seed in 0..60 {
        let scene = good(seed);
        let random = &mut Random::new(seed);
        let corner = [(); 2].map(|_| match random.below(3) {
            0 => random.pick(&[-10_000_000_000, 10_000_000_000, 0, -1, -999, 1000]),
            _ => random.between(-10_000_000_000, 10_000_000_000) as i64,
        });
        let edge = random.between(1, 1000) as i32;
        let set = Store::of(&scene.state);
        let text = written(&set, scene.sides, edge, corner, 100_000).unwrap();
        let wish = Wish { nz: scene.sides[2], ..WISH };
        let (head, held) = read_in(&text, &wish, set.flags.len()).unwrap();
        assert_eq!((head.sides, head.settings.edge), (scene.sides, edge));
        assert_eq!(head.origin, [corner[0], corner[1], WISH.oz]);
        assert_eq!(load(head.sides, held.lend()), Ok(()));
        assert!(held.set.flags.iter().all(|&flag| flag == EMPTY || flag == WALL));
    }
}
