// skw in the turbulent mode, of the box and of the flume: the state that it reaches and writes, what it tells, and where the mode cannot be said.

use std::io::Write;
use std::process::{Command, Stdio};

use oracle::flume::scenes::case_f;
use oracle::scenes::{case_t, parts_at};
use skwarzyna::flume::{self, Sides as Section};
use skwarzyna::{flume::PARTS as NINE, Flume, Grid, Mode, Point, Record, Settings, Sides, Site, ONE, PARTS};

/// Status, standard output and standard error of a call with these bytes as standard input.
fn fed(words: &[&str], input: &[u8]) -> (Option<i32>, Vec<u8>, String) {
    let mut command = Command::new(env!("CARGO_BIN_EXE_skw"));
    let piped = command.args(words).stdin(Stdio::piped()).stdout(Stdio::piped()).stderr(Stdio::piped());
    let mut child = piped.spawn().unwrap();
    // A call that does not read its input may close it.
    let _ = child.stdin.take().unwrap().write_all(input);
    let output = child.wait_with_output().unwrap();
    let err = String::from_utf8(output.stderr).unwrap();
    assert!(!err.contains("panicked"), "{err}");
    (output.status.code(), output.stdout, err)
}

/// Case U: a cell between walls whose stress takes 16 off p 2037.
fn sheared() -> Vec<u8> {
    let Record { mut grid, site, .. } = Grid::read(&case_t().record()).unwrap();
    let parts = &mut grid.state_mut().parts[PARTS * 13..][..PARTS];
    (parts[1], parts[2], parts[5], parts[6]) = (33_768, 33_768, 31_768, 31_768);
    grid.write(Settings { p: 2037, gx: 0, gy: 0, gz: 0 }, site).unwrap()
}

/// Case U of the flume.
fn sheared_section() -> Vec<u8> {
    let mut flume = Flume::from_record(&case_f().record()).unwrap();
    flume.settings = flume::Settings { p: 2037, gx: 0, gz: 0 };
    flume.state_mut().parts[NINE * 4 + 1..][..4].copy_from_slice(&[66_536, 66_536, 64_536, 64_536]);
    flume.to_record().unwrap()
}

/// So many steps by the library itself.
fn advanced(record: &[u8], steps: usize, mode: Mode) -> Vec<u8> {
    let Record { mut grid, settings, site } = Grid::read(record).unwrap();
    grid.run(steps, settings.in_mode(mode)).unwrap();
    grid.write(settings, site).unwrap()
}

fn advanced_section(record: &[u8], steps: usize, mode: Mode) -> Vec<u8> {
    let mut flume = Flume::from_record(record).unwrap();
    flume.mode = mode;
    flume.run(steps).unwrap();
    flume.to_record().unwrap()
}

#[test]
fn turbulent_steps_and_runs_write_the_state_reached() {
    type Advanced = fn(&[u8], usize, Mode) -> Vec<u8>;
    let kinds: [(&[&str], Vec<u8>, Advanced); 2] =
        [(&[], sheared(), advanced), (&["flume"], sheared_section(), advanced_section)];
    for (before, record, advanced) in kinds {
        let skw = |words: &[&str], input: &[u8]| fed(&[before, words].concat(), input);
        let [plain, turbulent] = [Mode::Plain, Mode::Turbulent].map(|mode| advanced(&record, 1, mode));
        assert_ne!(plain, turbulent);
        let (status, out, err) = skw(&["step", "--turbulent"], &record);
        assert_eq!((status, &out), (Some(0), &turbulent), "{err}");
        assert!(
            err.starts_with("1 of 1 turbulent steps made in ")
                && err.ends_with("; total 294,912 units before, 294,912 after\n"),
            "{err}"
        );
        let (status, out, err) = skw(&["step"], &record);
        assert_eq!((status, &out), (Some(0), &plain), "{err}");
        assert!(err.starts_with("1 of 1 steps made in "), "{err}");

        // The mode may stand anywhere, and holds for that call alone.
        let run = skw(&["run", "--turbulent", "-q", "7"], &record);
        assert_eq!(run, (Some(0), advanced(&record, 7, Mode::Turbulent), String::new()));
        let (status, out, err) = skw(&["run", "9"], &run.1);
        assert_eq!((status, out), (Some(0), advanced(&run.1, 9, Mode::Plain)));
        assert!(err.starts_with("9 of 9 steps made in "), "{err}");
    }
}

#[test]
fn a_refused_turbulent_step_is_told_with_its_mode() {
    // A cell that walls throw back at every step, past the limit at the second.
    let mut grid = Grid::new(Sides::new(3, 3, 3)).unwrap();
    grid.set_interface(13, ONE / 2).unwrap();
    let parts = &mut grid.state_mut().parts[PARTS * 13..][..PARTS];
    parts.copy_from_slice(&parts_at(ONE.into(), &[196_300, 0, 0]).map(|part| part as i32));
    let settings = Settings { p: 1, gx: 1048, gy: 0, gz: 0 };
    let record = grid.write(settings, Site { edge: 50, origin: Point::new(0, 0, 0) }).unwrap();
    let (status, out, err) = fed(&["run", "50", "--turbulent"], &record);
    assert_eq!((status, out), (Some(1), advanced(&record, 1, Mode::Turbulent)));
    assert!(err.contains("refusal 7: ") && err.contains("; 1 of 50 turbulent steps made; "), "{err}");

    // A cell alone in the air, until it is too fast.
    let site = flume::Site { edge: 25, origin: flume::Point::new(0, 0) };
    let falling = flume::Settings { p: 1024, gx: 0, gz: -1048 };
    let mut lone = Flume::new(Section::new(5, 5), falling, site).unwrap();
    lone.set_interface(12, ONE / 2).unwrap();
    let record = lone.to_record().unwrap();
    lone.mode = Mode::Turbulent;
    let stopped = lone.run(1000).unwrap_err();
    let (status, out, err) = fed(&["flume", "run", "1000", "--turbulent"], &record);
    assert_eq!((status, out), (Some(1), lone.to_record().unwrap()));
    assert!(err.contains(&format!("; {} of 1,000 turbulent steps made; ", stopped.count)), "{err}");
}

#[test]
fn the_mode_is_said_where_steps_are_made() {
    for command in ["step", "run", "flume step", "flume run"] {
        let words: Vec<_> = ["help"].into_iter().chain(command.split(' ')).collect();
        let (status, out, _) = fed(&words, &[]);
        let text = String::from_utf8(out).unwrap();
        assert_eq!(status, Some(0));
        assert!(text.lines().next().unwrap().contains(" [--turbulent] "), "{text}");
        assert!(text.contains("    --turbulent "), "{text}");
    }
    let record = sheared();
    for (words, why) in [
        (&["check", "--turbulent"][..], "there is no option --turbulent"),
        (&["mirror", "x", "--turbulent"], "there is no option --turbulent"),
        (&["run", "3", "--turbulent=yes"], "--turbulent takes nothing behind it"),
        (&["step", "--turbulent", "--turbulent"], "--turbulent is said twice"),
        (&["flume", "water", "--turbulent"], "there is no option --turbulent"),
    ] {
        let (status, out, err) = fed(words, &record);
        assert_eq!((status, &out[..]), (Some(2), &[][..]), "{words:?}");
        assert!(err.contains(why), "{words:?}: {err}");
    }
}
