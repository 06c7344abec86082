// skw flume step and run: the state that they reach and write, what they tell of refused steps, and that they end when asked.

use std::ffi::c_int;
use std::io::{Read, Write};
use std::path::{Path, PathBuf};
use std::process::{id, Command, Stdio};
use std::time::Duration;
use std::{env, fs, thread};

use oracle::flume::scenes::case_f;
use skwarzyna::flume::{Point, Settings, Sides, Site};
use skwarzyna::{Flume, ONE};

extern "C" {
    fn kill(process: c_int, number: c_int) -> c_int;
}

/// A folder of its own, gone with it.
struct Folder(PathBuf);

impl Folder {
    fn new(name: &str) -> Folder {
        let folder = env::temp_dir().join(format!("skw-flume-run-{}-{name}", id()));
        fs::create_dir_all(&folder).unwrap();
        fs::write(folder.join("f.rec"), case_f().record()).unwrap();
        fs::write(folder.join("channel.rec"), channel().to_record().unwrap()).unwrap();
        Folder(folder)
    }

    fn read(&self, name: &str) -> Vec<u8> {
        fs::read(self.0.join(name)).unwrap()
    }
}

impl Drop for Folder {
    fn drop(&mut self) {
        let _ = fs::remove_dir_all(&self.0);
    }
}

/// A still pool in a channel.
fn channel() -> Flume {
    let sides = Sides::new(60, 12);
    let site = Site { edge: 25, origin: Point::new(0, 0) };
    let mut flume = Flume::new(sides, Settings { p: 1700, gx: 0, gz: -40 }, site).unwrap();
    for (x, z) in (1..59).flat_map(|x| (1..6).map(move |z| (x, z))) {
        flume.set_fluid(sides.cell(x, z).unwrap(), ONE).unwrap();
    }
    flume
}

fn skw(folder: &Path) -> Command {
    let mut command = Command::new(env!("CARGO_BIN_EXE_skw"));
    command.current_dir(folder).stdin(Stdio::piped()).stdout(Stdio::piped()).stderr(Stdio::piped());
    command
}

/// Status, standard output and standard error of a call with these bytes as standard input.
fn fed(folder: &Path, words: &[&str], input: &[u8]) -> (Option<i32>, Vec<u8>, String) {
    let mut child = skw(folder).args(words).spawn().unwrap();
    let _ = child.stdin.take().unwrap().write_all(input);
    let output = child.wait_with_output().unwrap();
    let err = String::from_utf8(output.stderr).unwrap();
    assert!(!err.contains("panicked"), "{err}");
    (output.status.code(), output.stdout, err)
}

#[test]
fn steps_and_runs_write_the_state_reached() {
    let folder = Folder::new("reached");
    let (status, out, err) = fed(&folder.0, &["flume", "step", "f.rec"], &[]);
    let mut wanted = Flume::from_record(&folder.read("f.rec")).unwrap();
    wanted.step().unwrap();
    assert_eq!((status, out), (Some(0), wanted.to_record().unwrap()));
    assert!(
        err.starts_with("1 of 1 steps made in ")
            && err.ends_with("; total 294,912 units before, 294,912 after\n"),
        "{err}"
    );

    let mut wanted = channel();
    for _ in 0..3 {
        wanted.run(1000).unwrap();
    }
    let run = ["flume", "run", "3000", "channel.rec", "-q", "-o", "later.rec"];
    assert_eq!(fed(&folder.0, &run, &[]), (Some(0), vec![], String::new()));
    assert_eq!(folder.read("later.rec"), wanted.to_record().unwrap());
    assert_eq!(wanted.total(), channel().total());
    // No step is no change; the file may be the one that is read.
    let still = ["flume", "run", "0", "later.rec", "-q", "-o", "later.rec"];
    assert_eq!(fed(&folder.0, &still, &[]), (Some(0), vec![], String::new()));
    assert_eq!(folder.read("later.rec"), wanted.to_record().unwrap());
    let piped = fed(&folder.0, &["flume", "run", "3000", "-q"], &folder.read("channel.rec"));
    assert_eq!(piped, (Some(0), wanted.to_record().unwrap(), String::new()));
}

#[test]
fn a_refused_step_is_told_and_the_state_before_it_written() {
    let folder = Folder::new("refused");
    // A cell alone in the air gains speed in every step, until it is too fast.
    let site = Site { edge: 25, origin: Point::new(0, 0) };
    let mut lone = Flume::new(Sides::new(5, 5), Settings { p: 1024, gx: 0, gz: -1048 }, site).unwrap();
    lone.set_interface(12, ONE / 2).unwrap();
    fs::write(folder.0.join("lone.rec"), lone.to_record().unwrap()).unwrap();
    let stopped = lone.run(1000).unwrap_err();
    assert!(stopped.count > 100, "{stopped}");

    for words in
        [&["flume", "run", "1000", "lone.rec", "-o", "far.rec"][..], &["flume", "run", "1000", "lone.rec"]]
    {
        let (status, out, err) = fed(&folder.0, words, &[]);
        assert_eq!(status, Some(1), "{err}");
        let (number, count) = (stopped.refusal.number, stopped.count);
        assert!(err.starts_with(&format!("skw flume run: lone.rec: refusal {number}: ")), "{err}");
        assert!(
            err.contains(&format!(
                ", at cell 12 (x 2, z 2); {count} of 1,000 steps made; the state reached is in "
            )),
            "{err}"
        );
        let written = if out.is_empty() { folder.read("far.rec") } else { out };
        assert_eq!(written, lone.to_record().unwrap());
    }
    let (status, out, err) = fed(&folder.0, &["flume", "step"], &folder.read("far.rec"));
    assert_eq!((status, out), (Some(1), folder.read("far.rec")));
    assert!(err.contains("; 0 of 1 steps made; "), "{err}");
}

#[test]
fn what_cannot_be_run_leaves_the_file_alone() {
    let folder = Folder::new("wrong");
    let old = folder.read("f.rec");
    for (words, status) in [
        (&["flume", "run", "f.rec", "-o", "f.rec"][..], 2),
        (&["flume", "run", "-5", "f.rec", "-o", "f.rec"], 2),
        (&["flume", "run", "5", "no.rec", "-o", "f.rec"], 3),
        (&["flume", "step", "5", "f.rec", "-o", "f.rec"], 2),
        (&["flume", "step", "f.rec", "-o", "no/such/folder.rec"], 3),
    ] {
        let (ended, out, err) = fed(&folder.0, words, &[]);
        assert_eq!((ended, &out[..]), (Some(status), &[][..]), "{words:?}: {err}");
        assert_eq!(folder.read("f.rec"), old);
    }
    let mut wrong = old.clone();
    wrong[4] = 2;
    let (status, out, err) = fed(&folder.0, &["flume", "run", "5", "-o", "f.rec"], &wrong);
    assert_eq!((status, &out[..]), (Some(1), &[][..]));
    assert!(err.contains("refusal 1: "), "{err}");
    assert_eq!(folder.read("f.rec"), old);
}

#[test]
fn a_run_ends_when_asked_and_writes_what_it_reached() {
    let folder = Folder::new("ended");
    let words = ["flume", "run", "1000000000", "channel.rec", "-o", "later.rec"];
    let mut child = skw(&folder.0).args(words).spawn().unwrap();
    drop(child.stdin.take());
    thread::sleep(Duration::from_millis(700));
    // SAFETY: a signal to a child of our own that has not been waited for.
    unsafe { kill(child.id() as c_int, 15) };
    let mut err = String::new();
    child.stderr.take().unwrap().read_to_string(&mut err).unwrap();
    assert_eq!(child.wait().unwrap().code(), Some(143), "{err}");
    assert!(
        err.contains("interrupted: ")
            && err.contains(" of 1,000,000,000 steps made; the state reached is in later.rec"),
        "{err}"
    );
    let reached = Flume::from_record(&folder.read("later.rec")).unwrap();
    assert_eq!(reached.total(), channel().total());
    assert!(reached != channel());
}
