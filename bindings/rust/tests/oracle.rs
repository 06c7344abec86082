// The library through this wrapper beside the independent program, on its random scenes and damaged records.

use oracle::record::written_back;
use oracle::scenes::{good, settings};
use oracle::{damage, random, text, Relaxation, Store};
use skwarzyna::{Depth, Grid, Mode, Point, Refusal, Settings, Sides, Site, Stopped};

const SEEDS: u64 = 150;
const STEPS: usize = 12;
const MODES: [Mode; 2] = [Mode::Plain, Mode::Turbulent];

fn refusal(theirs: oracle::Refusal) -> Refusal {
    Refusal { number: theirs.number as u8, place: theirs.place as usize }
}

fn sides([nx, ny, nz]: [u32; 3]) -> Sides {
    Sides::new(nx as usize, ny as usize, nz as usize)
}

fn flow(theirs: oracle::Settings) -> Settings {
    let [gx, gy, gz] = theirs.gravity.map(i64::from);
    Settings { p: theirs.p.into(), gx, gy, gz }
}

fn relaxation(p: i32, mode: Mode) -> Relaxation {
    Relaxation { p, turbulent: mode == Mode::Turbulent }
}

fn same(grid: &Grid, store: &Store) {
    let (ours, theirs) = (grid.state(), store.lend());
    assert_eq!(
        (ours.flags, ours.parts, ours.masses, ours.fills, ours.carry),
        (theirs.flags, theirs.parts, theirs.masses, theirs.fills, theirs.carry)
    );
}

/// Number of steps accepted and refused in each mode, so that the test is seen to have looked at all.
#[derive(Default)]
struct Tally {
    accepted: [usize; 2],
    refused: [usize; 2],
}

fn stepped(seed: u64, tally: &mut Tally) {
    let scene = good(seed);
    let random = &mut random::Random::new(seed);
    let mut grid = Grid::read(&scene.record()).unwrap().grid;
    let mut store = Store::of(&scene.state);
    same(&grid, &store);
    let total = grid.total();
    assert_eq!(i128::from(total), scene.state.total());
    for _ in 0..STEPS {
        let (chosen, mode) = (settings(random), random.pick(&MODES));
        let n = store.flags.len();
        let (mut next, mut marks) = (Store::blank(n), vec![0; n]);
        let p = relaxation(chosen.p, mode);
        let theirs = oracle::step(scene.sides, p, chosen.gravity, store.lend(), next.lend_mut(), &mut marks);
        assert_eq!(grid.step(flow(chosen).in_mode(mode)), theirs.map_err(refusal), "seed {seed}");
        match theirs {
            Ok(()) => tally.accepted[mode as usize] += 1,
            Err(_) => tally.refused[mode as usize] += 1,
        }
        store = next;
        same(&grid, &store);
        assert_eq!(grid.total(), total);
    }
}

#[test]
fn steps_are_the_same() {
    let mut tally = Tally::default();
    for seed in 0..SEEDS {
        stepped(seed, &mut tally);
    }
    let Tally { accepted, refused } = tally;
    assert!([accepted, refused].iter().flatten().all(|&count| count > 150), "{accepted:?} {refused:?}");
}

#[test]
fn runs_are_the_same() {
    for (seed, mode) in (0..SEEDS).flat_map(|seed| MODES.map(|mode| (seed, mode))) {
        let scene = good(seed);
        let mut grid = Grid::read(&scene.record()).unwrap().grid;
        let (mut first, n) = (Store::of(&scene.state), scene.state.cells.len());
        let (mut second, mut marks) = (Store::blank(n), vec![0; n]);
        let theirs = oracle::run(
            scene.sides,
            relaxation(scene.settings.p, mode),
            scene.settings.gravity,
            STEPS as u32,
            first.lend_mut(),
            second.lend_mut(),
            &mut marks,
        );
        let wanted = match theirs.refusal {
            Some(theirs_refusal) => {
                Err(Stopped { count: theirs.count as usize, refusal: refusal(theirs_refusal) })
            }
            None => Ok(()),
        };
        assert_eq!(grid.run(STEPS, flow(scene.settings).in_mode(mode)), wanted, "seed {seed}, {mode:?}");
        same(&grid, &first);
    }
}

#[test]
fn records_are_the_same() {
    let (mut accepted, mut refused) = (0, 0);
    for seed in 0..SEEDS {
        let scene = good(seed);
        for bytes in [scene.record(), damage::bad(seed).bytes] {
            let theirs = oracle::record::read_within(&bytes, 262_144);
            match (Grid::read(&bytes), theirs) {
                (Ok(ours), Ok((reading, store))) => {
                    accepted += 1;
                    same(&ours.grid, &store);
                    assert_eq!(
                        (ours.grid.sides(), ours.settings),
                        (sides(reading.sides), flow(reading.settings))
                    );
                    let [x, y, z] = reading.origin;
                    let site = Site { edge: reading.settings.edge.into(), origin: Point { x, y, z } };
                    assert_eq!(ours.site, site);
                    assert_eq!(ours.grid.write(ours.settings, ours.site), Ok(written_back(&bytes)));
                }
                (ours, theirs) => {
                    refused += 1;
                    assert_eq!(ours.err(), theirs.err().map(refusal), "seed {seed}");
                }
            }
        }
    }
    assert!(accepted > 100 && refused > 100, "{accepted} {refused}");
}

#[test]
fn readings_are_the_same() {
    for seed in 0..SEEDS {
        let scene = good(seed);
        let grid = Grid::read(&scene.record()).unwrap().grid;
        let store = Store::of(&scene.state);
        let random = &mut random::Random::new(seed);
        let [nx, ny, _] = scene.sides;
        for (x, y) in (0..=nx).flat_map(|x| (0..=ny).map(move |y| (x, y))) {
            let theirs = oracle::depth(scene.sides, &store.flags, &store.fills, x.into(), y.into());
            let wanted = theirs.map_err(refusal).map(|depth| match depth {
                oracle::readings::Depth::Solid => Depth::Solid,
                oracle::readings::Depth::Dry => Depth::Dry,
                deep => Depth::Deep(deep.float().unwrap()),
            });
            assert_eq!(grid.depth(x as usize, y as usize), wanted);
        }
        let [x, y, z] = scene.origin;
        let (edge, site) =
            (scene.settings.edge, Site { edge: scene.settings.edge.into(), origin: Point { x, y, z } });
        for cell in 0..=store.flags.len() {
            let theirs = oracle::cell_point(scene.sides, &store.fills, cell as u64);
            let ours = grid.point(cell).map(|point| [point.x, point.y, point.z, point.fill]);
            assert_eq!(ours, theirs.map(|point| point.floats()).map_err(refusal));

            let reach = i128::from(edge) * 10;
            let point = scene.origin.map(|from| (i128::from(from) + random.between(-3, reach)) as i64);
            let ours = grid.place(site, Point::new(point[0], point[1], point[2]));
            let theirs = oracle::place(scene.sides, edge, scene.origin, point);
            assert_eq!(ours, theirs.map(|cell| cell as usize).map_err(refusal));
        }
    }
}

#[test]
fn the_counts_are_the_same() {
    for seed in 0..SEEDS {
        let bytes = good(seed).record();
        let Ok(record) = Grid::read(&bytes) else { panic!("seed {seed}") };
        let (counts, water) = (record.grid.counts(), record.grid.water());
        let line = format!(
            "before {} {} {} {} {} {}",
            counts.fluid,
            counts.interface,
            counts.empty,
            counts.wall,
            water.total(),
            water.carry
        );
        let theirs = text::gridstep(&bytes);
        assert!(theirs.starts_with("record") || theirs.starts_with(&line), "{line}\n{theirs}");
    }
}
