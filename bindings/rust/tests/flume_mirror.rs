// The flume's mirror by the wrapper and by skw: there and back, gravity's sign, mirrored water beside water, beside the independent program, and what is said
// where it cannot be done.

use std::io::Write;
use std::process::{Command, Output, Stdio};

use oracle::flume::mirror::Axis as Theirs;
use oracle::flume::scenes::{case_f, good};
use oracle::flume::sets::store;
use oracle::flume::step::draft;
use oracle::step::Fate;
use skwarzyna::flume::{lent, Axis, Settings, Sides};
use skwarzyna::{Flume, Mode, Refusal, State, StateMut};

const AXES: [(Axis, Theirs); 2] = [(Axis::X, Theirs::X), (Axis::Z, Theirs::Z)];

fn skw(words: &[&str], record: &[u8]) -> Output {
    let mut command = Command::new(env!("CARGO_BIN_EXE_skw"));
    let piped = command.args(words).stdin(Stdio::piped()).stdout(Stdio::piped()).stderr(Stdio::piped());
    let mut child = piped.spawn().unwrap();
    // It may end before it has read everything.
    let _ = child.stdin.take().unwrap().write_all(record);
    child.wait_with_output().unwrap()
}

fn text(bytes: &[u8]) -> &str {
    std::str::from_utf8(bytes).unwrap()
}

#[test]
fn there_and_back_beside_the_independent_program() {
    for seed in 0..300 {
        let scene = good(seed);
        let mut flume = Flume::from_record(&scene.record()).unwrap();
        flume.mode = if seed % 2 == 0 { Mode::Plain } else { Mode::Turbulent };
        for (axis, theirs) in AXES {
            let mirrored = flume.mirrored(axis).unwrap();
            assert_eq!(mirrored.mode, flume.mode);
            let wanted = store(&theirs.turned_state(&scene.grid(), &scene.state));
            let state = mirrored.state();
            assert_eq!((state.flags, state.parts), (&wanted.flags[..], &wanted.parts[..]));
            assert_eq!((state.masses, state.fills), (&wanted.masses[..], &wanted.fills[..]));
            assert_eq!(state.carry, &wanted.carry[..]);
            assert_eq!((mirrored.water(), mirrored.site), (flume.water(), flume.site));
            assert_eq!(mirrored.settings, flume.settings.mirrored(axis));
            assert_eq!(mirrored.mirrored(axis).unwrap(), flume);
        }
    }
}

#[test]
fn mirrored_water_beside_water() {
    let mut calm = 0;
    for seed in 0..300 {
        let scene = good(seed);
        let mut flume = Flume::from_record(&scene.record()).unwrap();
        let axis = AXES[seed as usize % 2].0;
        let mut beside = flume.mirrored(axis).unwrap();
        let stays = draft(&scene.grid(), &scene.state, scene.settings.p, scene.settings.gravity)
            .is_ok_and(|draft| draft.fates.iter().all(|&fate| fate == Fate::Stays));
        // Nothing is said of a refused step.
        if stays && flume.step().is_ok() {
            calm += 1;
            assert_eq!(beside.step(), Ok(()));
            assert_eq!(beside, flume.mirrored(axis).unwrap());
        }
    }
    assert!(calm > 50, "{calm}");
}

#[test]
fn gravity_changes_its_sign() {
    let settings = Settings { p: 1024, gx: 3, gz: -1000 };
    assert_eq!(settings.mirrored(Axis::X), Settings { gx: -3, ..settings });
    assert_eq!(settings.mirrored(Axis::Z), Settings { gz: 1000, ..settings });
    for (axis, _) in AXES {
        assert_eq!(settings.mirrored(axis).mirrored(axis), settings);
    }
    let widest = Settings { gx: i64::MIN, ..settings };
    assert_eq!(widest.mirrored(Axis::X).gx, i64::MAX);
}

#[test]
fn a_refusal_writes_nothing() {
    let flume = Flume::from_record(&case_f().record()).unwrap();
    let lend = |state: State, flags: usize, sides: Sides| {
        let (mut f, mut p, mut m) = (vec![9; flags], vec![9; 81], vec![9; 9]);
        let (mut l, mut c) = (vec![9; 9], vec![9; 1]);
        let second = StateMut { flags: &mut f, parts: &mut p, masses: &mut m, fills: &mut l, carry: &mut c };
        let answer = lent::mirror(sides, state, second, Axis::Z);
        let untouched =
            f == vec![9; flags] && (p, m, l, c) == (vec![9; 81], vec![9; 9], vec![9; 9], vec![9; 1]);
        (answer, untouched)
    };
    let (sides, refused) = (flume.sides(), |number, place| (Err(Refusal { number, place }), true));
    assert_eq!(lend(flume.state(), 9, sides), (Ok(()), false));
    assert_eq!(lend(flume.state(), 8, sides), refused(2, 0));
    assert_eq!(lend(flume.state(), 9, Sides::new(3, 2)), refused(1, 0));
    let mut broken = flume.clone();
    broken.state_mut().carry[0] = i64::MAX;
    assert_eq!(lend(broken.state(), 9, sides), refused(6, 9));
    broken.state_mut().flags[0] = 0;
    assert_eq!(lend(broken.state(), 9, sides), refused(4, 0));
    assert_eq!(broken.mirrored(Axis::X), Err(Refusal { number: 4, place: 0 }));
}

#[test]
fn skw_mirrors_a_record() {
    let told = skw(&["flume", "mirror", "z"], &case_f().record());
    assert!(told.status.success());
    assert_eq!(text(&told.stderr), "mirrored in z; gravity is 0, 1,024; water 294,912 units\n");
    let risen = Flume::from_record(&told.stdout).unwrap();
    assert_eq!((risen.settings.gz, risen.edge()), (1024, 50));
    for seed in 0..20 {
        let record = good(seed).record();
        for axis in ["x", "z"] {
            let once = skw(&["flume", "mirror", axis, "-q"], &record);
            assert!(once.status.success() && once.stderr.is_empty());
            assert_eq!(skw(&["flume", "mirror", axis, "-q", "-"], &once.stdout).stdout, record);
        }
    }
}

#[test]
fn skw_says_what_cannot_be_done() {
    let record = case_f().record();
    for (words, why) in [
        (&["flume", "mirror"][..], "the axis is missing"),
        (&["flume", "mirror", "y"], "the axis is to be one of x, z, and 'y' is not"),
        (&["flume", "mirror", "2"], "the axis is to be one of x, z, and '2' is not"),
        (&["flume", "mirror", "x", "-", "more"], "'more' is one word too many"),
        (&["flume", "mirror", "x", "--to", "z"], "there is no option --to"),
    ] {
        let told = skw(words, &record);
        assert_eq!((told.status.code(), told.stdout.len()), (Some(2), 0));
        let said = text(&told.stderr);
        assert!(said.starts_with(&format!("skw flume mirror: {why}\nusage: skw flume mirror x|z")), "{said}");
    }
    let told = skw(&["flume", "mirror", "x"], &record[..100]);
    assert_eq!((told.status.code(), told.stdout.len()), (Some(1), 0));
    let told = skw(&["flume", "mirror", "--help"], &[]);
    assert!(text(&told.stdout).starts_with("skw flume mirror x|z [FILE]"));
}
