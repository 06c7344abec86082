// The flume's check, reader and writer: the amendment's figures through `Flume`, every refusal over lent slices and what it leaves, the
// independent program's answers on its scenes and damaged records, and what is drawn.

use oracle::flume::damage::bad;
use oracle::flume::scenes::{case_f, good};
use oracle::flume::{record::read_whole, sets::store};
use oracle::Store;
use skwarzyna::drawing::{flume_balance, Drawing};
use skwarzyna::flume::{lent, Point, Settings, Sides, Site, PARTS};
use skwarzyna::{Flume, Refusal, State, EMPTY, FLUID, INTERFACE, ONE, WALL};

const SEEDS: u64 = 300;
const SETTINGS: Settings = Settings { p: 1024, gx: 0, gz: -1024 };
const SITE: Site = Site { edge: 50, origin: Point::new(0, 0) };
const THREE: Sides = Sides::new(3, 3);
const CENTRE: usize = 4;

fn refused<T>(number: u8, place: usize) -> Result<T, Refusal> {
    Err(Refusal { number, place })
}

/// Case F of the amendment, laid by hand.
fn laid() -> Flume {
    let mut flume = Flume::new(THREE, SETTINGS, SITE).unwrap();
    flume.set_interface(CENTRE, ONE / 2).unwrap();
    flume
}

fn theirs(refusal: oracle::Refusal) -> Refusal {
    Refusal { number: refusal.number as u8, place: refusal.place as usize }
}

fn same(flume: &Flume, store: &Store) {
    let (ours, theirs) = (flume.state(), store.lend());
    assert_eq!(
        (ours.flags, ours.parts, ours.masses, ours.fills, ours.carry),
        (theirs.flags, theirs.parts, theirs.masses, theirs.fills, theirs.carry)
    );
}

#[test]
fn case_f_is_laid_written_and_read() {
    let flume = laid();
    assert_eq!(flume.check(), Ok(()));
    assert_eq!(
        flume.state().parts[9 * CENTRE..][..9],
        [262_144, 65_536, 65_536, 65_536, 65_536, 16_384, 16_384, 16_384, 16_384]
    );
    assert_eq!((flume.fills()[CENTRE], flume.total()), (32_768, 294_912));
    assert_eq!((flume.edge(), flume.origin()), (50, Point::new(0, 0)));
    let counts = flume.counts();
    assert_eq!((counts.wall, counts.interface, counts.liquid(), counts.empty), (8, 1, 1, 0));

    let record = flume.to_record().unwrap();
    assert_eq!((record.len(), &record), (125, &case_f().record()));
    assert_eq!(Flume::from_record(&record).unwrap(), flume);
    assert_eq!(Flume::of(THREE, SETTINGS, SITE, flume.state()).unwrap(), flume);
    // The sections' bytes, and that a prefix is refused at the last of them that it reaches.
    let counts = [0, 12, 32, 52, 64, 77, 85];
    for length in 0..125 {
        let place = *counts.iter().rfind(|count| **count <= length).unwrap();
        assert_eq!(Flume::from_record(&record[..length]), refused(Refusal::END, place), "{length}");
    }
    assert_eq!(Flume::from_record(&[&record[..], &[0]].concat()), refused(Refusal::END, 125));
    for (section, count) in counts.into_iter().enumerate() {
        let mut wrong = record.clone();
        wrong[count] ^= 1;
        assert_eq!(Flume::from_record(&wrong), refused(Refusal::COUNT, section + 1));
    }
}

#[test]
fn each_lattice_refuses_the_others_record() {
    let box_record = include_bytes!("../../../crates/gridstep/stdin");
    let record = case_f().record();
    assert_eq!(Flume::from_record(box_record), refused(Refusal::COUNT, 1));
    assert_eq!(skwarzyna::Grid::read(&record).map(|_| ()), refused(Refusal::COUNT, 1));
    assert_eq!(Flume::from_record(&box_record[..3]), refused(Refusal::END, 0));
}

#[test]
fn sides_settings_and_site_have_their_ranges() {
    for (nx, nz, cells) in
        [(512, 512, Some(262_144)), (3, 3, Some(9)), (513, 3, None), (3, 513, None), (2, 9, None)]
    {
        let wanted = cells.ok_or(Refusal { number: Refusal::SIDES, place: 0 });
        assert_eq!(Sides::new(nx, nz).cells(), wanted, "{nx} x {nz}");
        assert_eq!(Flume::new(Sides::new(nx, nz), SETTINGS, SITE).map(|flume| flume.flags().len()), wanted);
    }
    let mut flume = laid();
    let tried = |flume: &Flume| flume.to_record().map(|_| ());
    for (p, gx, gz, good) in [
        (1, 34, -1048, true),
        (2037, 0, 0, true),
        (1, 35, -1048, false),
        (0, 0, 0, false),
        (2038, 0, 0, false),
        (1, 1 << 32, 0, false),
    ] {
        flume.settings = Settings { p, gx, gz };
        assert_eq!(tried(&flume), if good { Ok(()) } else { refused(Refusal::SETTING, 0) }, "{p} {gx} {gz}");
    }
    flume.settings = SETTINGS;
    let far = 10_000_000_000;
    for (edge, x, z, good) in [
        (1, far, -far, true),
        (1000, 0, 0, true),
        (0, 0, 0, false),
        (1001, 0, 0, false),
        (50, far + 1, 0, false),
        (50, 0, -far - 1, false),
    ] {
        flume.site = Site { edge, origin: Point::new(x, z) };
        assert_eq!(tried(&flume), if good { Ok(()) } else { refused(Refusal::SETTING, 0) }, "{edge} {x} {z}");
    }
}

#[test]
fn cells_have_numbers_and_places() {
    let sides = Sides::new(5, 4);
    assert_eq!((sides.cell(2, 3), sides.position(17)), (Ok(17), (2, 3)));
    assert_eq!(
        (sides.cell(5, 0), sides.cell(0, 4)),
        (refused(Refusal::OUTSIDE, 0), refused(Refusal::OUTSIDE, 0))
    );
    let inner: Vec<usize> = (0..20).filter(|&cell| !sides.is_outer(cell)).collect();
    assert_eq!(inner, [6, 7, 8, 11, 12, 13]);
}

#[test]
fn water_is_laid_so_that_the_state_stays_good() {
    let sides = Sides::new(7, 6);
    let mut flume = Flume::new(sides, SETTINGS, SITE).unwrap();
    let middle = sides.cell(3, 2).unwrap();
    flume.set_fluid(middle, ONE + 17).unwrap();
    assert_eq!(flume.check(), Ok(()));
    // A cell and its eight neighbours.
    assert_eq!((flume.counts().fluid, flume.counts().interface), (1, 8));
    assert_eq!(flume.total(), i64::from(ONE) + 17);
    flume.set_wall(sides.cell(3, 1).unwrap()).unwrap();
    flume.set_empty(sides.cell(4, 3).unwrap()).unwrap();
    assert_eq!((flume.check(), flume.flags()[middle]), (Ok(()), INTERFACE));
    assert_eq!(flume.set_fluid(42, ONE), refused(Refusal::OUTSIDE, 0));
    assert_eq!(flume.set_interface(6, ONE), refused(Refusal::FLAG, 6));
    assert_eq!(flume.set_fluid(middle, 294_911), refused(Refusal::STATE, middle));
    assert_eq!(flume.set_interface(middle, 2_359_297), refused(Refusal::STATE, middle));

    for (change, number, place) in [
        ((|flume| flume.state_mut().flags[0] = EMPTY) as fn(&mut Flume), Refusal::FLAG, 0),
        (|flume| flume.state_mut().flags[16] = 4, Refusal::FLAG, 16),
        (|flume| flume.state_mut().flags[17] = FLUID, Refusal::LAYER, 17),
        (|flume| flume.state_mut().fills[17] ^= 1, Refusal::STATE, 17),
        (|flume| flume.state_mut().masses[0] = 1, Refusal::STATE, 0),
        (|flume| flume.state_mut().parts[PARTS * 17] += 1_179_648, Refusal::STATE, 17),
        (|flume| flume.state_mut().carry[0] = 1_000_000_000_001, Refusal::STATE, 42),
    ] {
        let mut wrong = flume.clone();
        change(&mut wrong);
        assert_eq!((wrong.check(), wrong.to_record()), (refused(number, place), refused(number, place)));
        let state = wrong.state();
        assert_eq!(Flume::of(sides, SETTINGS, SITE, state).map(|_| ()), refused(number, place));
    }
}

#[test]
fn lent_slices_have_exact_lengths_and_a_refusal_leaves_them() {
    let record = case_f().record();
    let lengths: [usize; 5] = [9, 81, 9, 9, 1];
    for (slice, by) in (0..5).flat_map(|slice| [(slice, -1), (slice, 1)]) {
        let mut lengths = lengths;
        lengths[slice] = lengths[slice].saturating_add_signed(by);
        let [flags, parts, masses, fills, carry] = lengths;
        let (flags, mut parts, mut masses) = (vec![WALL; flags], vec![7; parts], vec![7; masses]);
        let (mut fills, mut carry) = (vec![7; fills], vec![7; carry]);
        let state = State { flags: &flags, parts: &parts, masses: &masses, fills: &fills, carry: &carry };
        assert_eq!(lent::check(THREE, state), refused(Refusal::LENGTH, 0), "{slice} {by}");
        let mut room = [165; 200];
        assert_eq!(lent::write(THREE, SETTINGS, SITE, state, &mut room), refused(Refusal::LENGTH, 0));
        assert!(room.iter().all(|byte| *byte == 165));
        if slice > 0 {
            let read = lent::read(&record, &mut parts, &mut masses, &mut fills, &mut carry);
            assert_eq!(read, refused(Refusal::LENGTH, 0), "{slice} {by}");
            assert!(parts.iter().chain(&masses).all(|number| *number == 7));
            assert!(fills.iter().all(|fill| *fill == 7) && carry.iter().all(|number| *number == 7));
        }
    }
    let flume = laid();
    let written = |room: &mut [u8]| lent::write(THREE, SETTINGS, SITE, flume.state(), room);
    let (mut short, mut long) = ([165; 124], [165; 200]);
    assert_eq!(written(&mut short), refused(Refusal::ROOM, 125));
    assert!(short.iter().all(|byte| *byte == 165));
    assert_eq!(written(&mut long), Ok(125));
    assert_eq!(long[..125], record);
    assert!(long[125..].iter().all(|byte| *byte == 165));

    let (mut parts, mut masses, mut fills, mut carry) = ([7; 81], [7; 9], [7; 9], [7]);
    let head = lent::read(&record, &mut parts, &mut masses, &mut fills, &mut carry).unwrap();
    assert_eq!((head.sides, head.settings, head.site), (THREE, SETTINGS, SITE));
    assert!(std::ptr::eq(head.flags.as_ptr(), &record[68]) && head.flags.len() == 9);
    let state = State { flags: head.flags, parts: &parts, masses: &masses, fills: &fills, carry: &carry };
    assert_eq!(state, flume.state());
}

#[test]
fn records_and_checks_are_the_independent_programs() {
    let mut accepted = 0;
    for seed in 0..SEEDS {
        let scene = good(seed);
        let record = scene.record();
        let flume = Flume::from_record(&record).unwrap();
        same(&flume, &store(&scene.state));
        assert_eq!((flume.check(), flume.to_record()), (Ok(()), Ok(record)), "seed {seed}");
        assert_eq!(i128::from(flume.total()), scene.state.total());

        let damaged = bad(seed).bytes;
        let wanted = read_whole(&damaged);
        accepted += usize::from(wanted.is_ok());
        match (Flume::from_record(&damaged), wanted) {
            (Ok(flume), Ok((_, store))) => same(&flume, &store),
            (ours, wanted) => assert_eq!(ours.map(|_| ()), wanted.map(|_| ()).map_err(theirs), "seed {seed}"),
        }
    }
    // Bytes changed at random leave a few records good.
    assert!(accepted < SEEDS as usize / 10);
}

/// Water behind a wall, and a wall across.
fn channel() -> Flume {
    let sides = Sides::new(40, 8);
    let mut flume =
        Flume::new(sides, SETTINGS, Site { edge: 25, origin: Point::new(-500, 118_000) }).unwrap();
    for (x, z) in (1..12).flat_map(|x| (1..5).map(move |z| (x, z))) {
        flume.set_fluid(sides.cell(x, z).unwrap(), ONE).unwrap();
    }
    for z in 1..4 {
        flume.set_wall(sides.cell(20, z).unwrap()).unwrap();
    }
    flume
}

#[test]
fn a_flume_is_drawn_from_the_side() {
    let flume = channel();
    let drawing = Drawing::of_flume(&flume).named("a channel");
    let text = drawing.text();
    let lines: Vec<&str> = text.lines().collect();
    assert_eq!(
        lines[..3],
        [
            "a channel: Flume from the side",
            "40 x 8 cells of 25 mm",
            "metres from the origin, x -0.500, z 118.000"
        ]
    );
    assert_eq!(lines[5], format!("    7 {}", "#".repeat(40)));
    assert_eq!(lines[7], "    5 #000000000000..........................#"[..].to_string());
    assert_eq!(lines[9], "      #wwwwwwwwwww0.......#..................#");
    assert_eq!(lines[12], format!("    0 {}", "#".repeat(40)));
    for (name, number) in flume_balance(&flume) {
        assert!(
            lines.iter().any(|line| line.starts_with(name) && line.ends_with(&format!(" {number}"))),
            "{name}"
        );
    }
    assert!(flume_balance(&flume).contains(&("total", "25,952,256".to_string())));
    assert!(flume_balance(&flume).contains(&("litres per metre", "27.500".to_string())));

    // Blocks of two cells by one, then of five by three.
    let narrow = drawing.text_within(20);
    let lines: Vec<&str> = narrow.lines().collect();
    assert_eq!(lines[9], "      #wwwww....#........#");
    assert!(
        lines[13].trim_start().starts_with("0         20") && narrow.contains("a letter for 2 x 1 cells")
    );
    assert!(drawing.text_within(8).contains("a letter for 5 x 3 cells"));
    assert_eq!(drawing.text_within(40), text);
    assert!(drawing.text_within(1).contains("a letter for 40 x 20 cells"));
}

#[test]
fn pictures_of_flumes_of_any_sides_are_drawn() {
    let said = |picture: &skwarzyna::picture::Picture, text: &str| {
        picture.png().windows(text.len()).any(|part| part == text.as_bytes())
    };
    for (nx, nz) in [(3, 3), (40, 8), (128, 128), (129, 3), (3, 512), (400, 40), (512, 512)] {
        let flume = Flume::new(Sides::new(nx, nz), SETTINGS, SITE).unwrap();
        let picture = Drawing::of_flume(&flume).picture();
        assert!(picture.width() <= 1700 && picture.height() <= 1500, "{nx} x {nz}");
        assert!(picture.width() > 2 * nx && picture.height() > 2 * nz, "{nx} x {nz}");
    }
    let picture = Drawing::of_flume(&channel()).picture();
    assert!(said(&picture, "Flume from the side") && said(&picture, "total 25,952,256"));
}
