// Two schemes over one wall map: document 01's figures through the scan and over lent slices, what a refusal leaves, what a scheme shows, and the
// independent program's histories.

use oracle::acts::Act;
use oracle::designers::{Asked, Deed, Here, Told, Tunnel};
use oracle::random::Random;
use oracle::schemes::Change;
use oracle::HeldStore;
use skwarzyna::{
    lent, Designer, Grid, Mode, Refusal, Scan, Scheme, Settings, Sides, State, FLUID, INTERFACE, ONE, WALL,
};

const SIDES: Sides = Sides::new(5, 3, 3);
const CELLS: usize = 45;
const BOTH: [Designer; 2] = [Designer::First, Designer::Second];
const SETTINGS: Settings = Settings { p: 1024, gx: 0, gy: 0, gz: -1024 };

fn refused(number: u8, place: usize) -> Result<(), Refusal> {
    Err(Refusal { number, place })
}

/// Walls outside and at 22, an interface cell at 21 for the first designer, and for the second a fluid one at 23, or none.
fn scan(wet: bool) -> Scan {
    let mut scan = Scan::new(SIDES).unwrap();
    scan.scheme(Designer::First).ask_wall(22).unwrap();
    scan.scheme(Designer::First).set_interface(21, ONE / 2).unwrap();
    if wet {
        scan.scheme(Designer::Second).set_fluid(23, ONE).unwrap();
    }
    scan
}

#[test]
fn walls_are_asked_for_beside_water() {
    let same = [(Ask::Wall, 22, 17), (Ask::Out, 0, 17), (Ask::Wall, 0, 17), (Ask::Out, 23, 17)];
    for wet in [true, false] {
        let before = scan(wet);
        let asked = |ask: Ask, cell: usize| {
            let mut scan = before.clone();
            let told = ask.of(&mut scan.scheme(Designer::First), cell);
            (told, scan)
        };
        for (ask, cell, number) in same {
            assert_eq!(asked(ask, cell), (refused(number, cell), before.clone()));
        }
        assert_eq!(asked(Ask::Wall, 45), (refused(13, 0), before.clone()));
        assert_eq!(asked(Ask::Wall, 21), (refused(18, 21), before.clone()));
        for (ask, cell, flag) in [(Ask::Wall, 23, WALL), (Ask::Out, 22, 0)] {
            let (told, after) = asked(ask, cell);
            if wet {
                assert_eq!((told, after), (refused(18, cell), before.clone()));
                continue;
            }
            assert_eq!((told, after.map()[cell]), (Ok(()), u8::from(ask == Ask::Wall)));
            for designer in BOTH {
                let grid = after.grid(designer);
                assert_eq!((grid.state().flags[cell], grid.check()), (flag, Ok(())));
                assert_eq!(grid.water(), before.grid(designer).water());
            }
        }
    }
}

#[derive(Clone, Copy, Debug, PartialEq)]
enum Ask {
    Wall,
    Out,
}

impl Ask {
    fn of(self, scheme: &mut Scheme, cell: usize) -> Result<(), Refusal> {
        match self {
            Ask::Wall => scheme.ask_wall(cell),
            Ask::Out => scheme.remove_wall(cell),
        }
    }
}

#[test]
fn a_scheme_shows_its_own_water_alone() {
    let mut scan = scan(true);
    let map = scan.map().to_vec();
    let mine = scan.scheme(Designer::First);
    assert_eq!((mine.grid().total(), mine.grid().counts().fluid), (i64::from(ONE / 2), 0));
    assert!(!format!("{mine:?}").contains(&ONE.to_string()), "{mine:?}");
    let theirs = scan.scheme(Designer::Second);
    assert_eq!((theirs.grid().total(), theirs.grid().counts().interface), (i64::from(ONE), 0));
    assert_eq!(theirs.map(), map);
}

#[test]
fn water_lies_between_the_walls() {
    let mut scan = scan(false);
    let before = scan.clone();
    let mut mine = scan.scheme(Designer::First);
    assert_eq!(mine.set_fluid(22, ONE), refused(6, 22));
    assert_eq!(mine.set_interface(0, 0), refused(6, 0));
    assert_eq!(mine.set_empty(22), refused(6, 22));
    assert_eq!(mine.set_empty(45), refused(13, 0));
    // Own flags back into their place are the same scheme; with one at a wall they are refused.
    let (own, grid) = (mine.own_flags(), mine.grid().clone());
    mine.put(State { flags: &own, ..grid.state() }).unwrap();
    for (cell, flag, number) in [(0, 3, 4), (0, 1, 6), (22, 2, 6), (23, 2, 6), (21, 2, 6)] {
        let mut wrong = own.clone();
        wrong[cell] = flag;
        assert_eq!(mine.put(State { flags: &wrong, ..grid.state() }), refused(number, cell));
    }
    assert_eq!(mine.put(State { flags: &own[1..], ..grid.state() }), refused(2, 0));
    assert_eq!(scan, before);

    assert_eq!(Scan::of(SIDES, &[1; 44]), Err(Refusal { number: 2, place: 0 }));
    assert_eq!(Scan::of(SIDES, &[0; CELLS]), Err(Refusal { number: 4, place: 0 }));
    assert_eq!(Scan::of(Sides::new(5, 3, 2), &[1; 30]), Err(Refusal { number: 1, place: 0 }));
    let solid = Scan::of(SIDES, &[1; CELLS]).unwrap();
    assert_eq!(solid.grid(Designer::Second).counts().wall, CELLS);
    // The walls of a grid, without its water.
    let around = Scan::around(before.grid(Designer::First)).unwrap();
    assert_eq!((around.map(), around.grid(Designer::First).total()), (before.map(), 0));
}

#[test]
fn the_calls_over_lent_slices() {
    let scan = scan(true);
    let [first, second] = BOTH.map(|designer| scan.grid(designer));
    let mut own = vec![9; CELLS];
    lent::scheme_part(SIDES, first.state().flags, &mut own).unwrap();
    assert_eq!((own[21], own[22], own[0]), (INTERFACE, 0, 0));
    assert_eq!(lent::scheme_part(SIDES, first.state().flags, &mut own[1..]), refused(2, 0));
    assert_eq!(lent::scheme_part(SIDES, &[0; CELLS], &mut own), refused(4, 0));
    let mine = State { flags: &own, ..first.state() };
    let mut flags = vec![9; CELLS];
    lent::scheme_join(SIDES, scan.map(), mine, &mut flags).unwrap();
    assert_eq!(flags, first.state().flags);
    assert_eq!(lent::scheme_join(SIDES, scan.map(), mine, &mut flags[1..]), refused(2, 0));
    assert_eq!(lent::scheme_join(SIDES, &scan.map()[1..], mine, &mut flags), refused(2, 0));
    assert_eq!(lent::scheme_join(SIDES, &[2; CELLS], mine, &mut flags), refused(4, 0));

    // Both flags with their walls are refused with 4, the asker's first; the other's lengths after all of the asker's.
    let mut map = scan.map().to_vec();
    assert_eq!(lent::wall_add(SIDES, &mut map, first.state(), second.state(), 21), refused(4, 0));
    assert_eq!(lent::wall_add(SIDES, &mut map, mine, second.state(), 21), refused(4, 0));
    let short = State { carry: &[0], ..second.state() };
    assert_eq!(lent::wall_remove(SIDES, &mut map, mine, short, 22), refused(2, 0));
    let broken = State { carry: &[0, -1, 0], ..mine };
    assert_eq!(lent::wall_remove(SIDES, &mut map, broken, short, 22), refused(6, CELLS));
    assert_eq!(lent::wall_remove(SIDES, &mut map, mine, mine, 22), Ok(()));
    assert_eq!(map[22], 0);
}

#[test]
fn steps_and_pours_are_one_s_own() {
    let mut scan = scan(true);
    let other = scan.grid(Designer::Second).clone();
    let mut mine = scan.scheme(Designer::First);
    assert_eq!(mine.pour(21, 1000), Ok(1000));
    mine.step(SETTINGS).unwrap();
    mine.run(5, SETTINGS).unwrap();
    assert_eq!(mine.take(21, 400), Ok(400));
    let water = mine.grid().water();
    assert_eq!((water.balance(), water.poured, water.taken), (i64::from(ONE / 2), 1000, 400));
    assert_eq!(scan.grid(Designer::Second), &other);
    assert_eq!(scan.grid(Designer::Second).state().flags[23], FLUID);
}

/// What the independent program's tunnel holds, as a scan.
fn scan_of(tunnel: &Tunnel) -> Scan {
    let [nx, ny, nz] = tunnel.sides.map(|side| side as usize);
    let mut scan = Scan::of(Sides::new(nx, ny, nz), &tunnel.map).unwrap();
    for (designer, scheme) in BOTH.into_iter().zip(&tunnel.schemes) {
        scan.scheme(designer).put(state(scheme)).unwrap();
    }
    scan
}

fn state(scheme: &HeldStore) -> State<'_> {
    let set = scheme.set.lend();
    State { flags: set.flags, parts: set.parts, masses: set.masses, fills: set.fills, carry: set.carry }
}

fn mode(turbulent: bool) -> Mode {
    if turbulent {
        Mode::Turbulent
    } else {
        Mode::Plain
    }
}

/// The same to a designer of the scan.
fn asked(scheme: &mut Scheme, settings: oracle::Settings, asked: Asked) -> Told {
    let [gx, gy, gz] = settings.gravity.map(i64::from);
    let settings = Settings { p: settings.p.into(), gx, gy, gz };
    let (refusal, value) = match asked {
        Asked::Own(Deed::Step { turbulent }) => {
            let told = scheme.step(settings.in_mode(mode(turbulent)));
            (told.err(), i64::from(told.is_ok()))
        }
        Asked::Own(Deed::Run { steps, turbulent }) => {
            match scheme.run(steps as usize, settings.in_mode(mode(turbulent))) {
                Ok(()) => (None, steps.into()),
                Err(stopped) => (Some(stopped.refusal), stopped.count as i64),
            }
        }
        Asked::Own(Deed::Act(act, cell, amount)) => {
            let told = match act {
                Act::Pour => scheme.pour(cell as usize, amount),
                Act::Take => scheme.take(cell as usize, amount),
            };
            (told.err(), told.unwrap_or(0))
        }
        Asked::Wall(Change::Add, cell) => (scheme.ask_wall(cell as usize).err(), 0),
        Asked::Wall(Change::Remove, cell) => (scheme.remove_wall(cell as usize).err(), 0),
    };
    let refusal =
        refusal.map(|refusal| oracle::Refusal { number: refusal.number.into(), place: refusal.place as u64 });
    Told { refusal, value }
}

#[test]
fn histories_are_the_independent_program_s() {
    let mut walls = 0;
    for seed in 0..200 {
        let random = &mut Random::new(seed ^ 0xde51);
        let mut tunnel = Tunnel::of(seed);
        let mut scan = scan_of(&tunnel);
        for turn in 0..16 {
            let who = random.below(2);
            let wish = tunnel.wish(random, who);
            let settings = tunnel.settings[who];
            let wanted = tunnel.ask::<Here>(who, wish);
            let given = asked(&mut scan.scheme(BOTH[who]), settings, wish);
            assert_eq!(given, wanted, "seed {seed}, turn {turn}: {wish:?}");
            assert_eq!(scan.map(), tunnel.map, "seed {seed}, turn {turn}: {wish:?}");
            for (designer, scheme) in BOTH.into_iter().zip(&tunnel.schemes) {
                let mine = scan.scheme(designer);
                let own = mine.own_flags();
                let held = State { flags: &own, ..mine.grid().state() };
                assert!(held == state(scheme), "seed {seed}, turn {turn}: {wish:?}");
                // The surface is found by the index, which a wall change leaves true.
                let surface: Vec<usize> = mine.grid().surface(0).unwrap().collect();
                let interface = (0..own.len()).filter(|&cell| own[cell] == INTERFACE);
                assert_eq!(surface, interface.collect::<Vec<usize>>());
            }
            walls += usize::from(matches!(wish, Asked::Wall(..)) && wanted.accepted());
        }
    }
    assert!(walls > 200, "{walls} wall changes were accepted");
}

#[test]
fn a_scheme_s_grid_is_written_and_read() {
    let scan = scan(true);
    let grid = scan.grid(Designer::Second);
    let site = skwarzyna::Site { edge: 50, origin: skwarzyna::Point::default() };
    let record = grid.write(SETTINGS, site).unwrap();
    assert_eq!(&Grid::read(&record).unwrap().grid, grid);
}
