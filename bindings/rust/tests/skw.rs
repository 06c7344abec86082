// skw as a person calls it: every command on good and damaged records, what it prints, writes and leaves alone, and its status.

use std::ffi::{c_int, OsStr};
use std::fs;
use std::io::{Read, Write};
use std::os::unix::fs::{symlink, PermissionsExt};
use std::os::unix::process::{CommandExt, ExitStatusExt};
use std::path::{Path, PathBuf};
use std::process::{Child, Command, Stdio};
use std::thread::sleep;
use std::time::Duration;

use oracle::record::written_back;
use oracle::{damage, scenes};
use skwarzyna::spelling::grouped;
use skwarzyna::{Grid, Point, Record, Settings, Sides, Site, INTERFACE, ONE, PARTS};

/// Case T of document 01.
const CASE_T: &[u8] = include_bytes!("../../../crates/gridstep/stdin");
const MIDDLE: usize = 13;

/// What a call of skw came to.
#[derive(Debug, PartialEq)]
struct Called {
    status: Option<i32>,
    out: Vec<u8>,
    err: String,
}

impl Called {
    fn text(&self) -> &str {
        std::str::from_utf8(&self.out).unwrap()
    }
}

fn started<S: AsRef<OsStr>>(words: &[S]) -> Child {
    let mut command = Command::new(env!("CARGO_BIN_EXE_skw"));
    command.args(words).stdin(Stdio::piped()).stdout(Stdio::piped()).stderr(Stdio::piped());
    // A test that is run in the background may have been told to ignore Ctrl-C.
    let heed = || {
        unsafe { signal(INTERRUPT, 0) };
        Ok(())
    };
    unsafe { command.pre_exec(heed) };
    command.spawn().unwrap()
}

fn ended(child: Child) -> Called {
    let output = child.wait_with_output().unwrap();
    let err = String::from_utf8(output.stderr).unwrap();
    assert!(!err.contains("panicked"), "{err}");
    Called { status: output.status.code(), out: output.stdout, err }
}

/// A call with these bytes as standard input.
fn fed<S: AsRef<OsStr>>(words: &[S], input: &[u8]) -> Called {
    let mut child = started(words);
    // A call that does not read its input may close it.
    let _ = child.stdin.take().unwrap().write_all(input);
    ended(child)
}

fn called<S: AsRef<OsStr>>(words: &[S]) -> Called {
    fed(words, &[])
}

const INTERRUPT: c_int = 2;
const KILL: c_int = 9;
const TERMINATE: c_int = 15;

extern "C" {
    fn kill(process: c_int, number: c_int) -> c_int;
    fn signal(number: c_int, handler: usize) -> usize;
}

/// A folder of a test's own, gone at its end.
struct Folder(PathBuf);

impl Folder {
    fn new(name: &str) -> Folder {
        let folder = std::env::temp_dir().join(format!("skw-test-{name}-{}", std::process::id()));
        let _ = fs::remove_dir_all(&folder);
        fs::create_dir(&folder).unwrap();
        Folder(folder)
    }

    fn path(&self, name: &str) -> String {
        self.0.join(name).to_str().unwrap().to_string()
    }

    fn put(&self, name: &str, bytes: &[u8]) -> String {
        let path = self.path(name);
        fs::write(&path, bytes).unwrap();
        path
    }

    /// What lies in it, in order.
    fn names(&self) -> Vec<String> {
        let entries = fs::read_dir(&self.0).unwrap().map(|entry| entry.unwrap().file_name());
        let mut names: Vec<String> = entries.map(|name| name.into_string().unwrap()).collect();
        names.sort();
        names
    }
}

impl Drop for Folder {
    fn drop(&mut self) {
        let _ = fs::remove_dir_all(&self.0);
    }
}

/// A record whose water is thrown back by the walls at every step: gravity, hardly taken over with p 1, brakes it at the first and
/// pushes it past the limit at the second, which is refused with 7.
fn refused_at_second() -> Vec<u8> {
    let mut grid = Grid::new(Sides::new(3, 3, 3)).unwrap();
    grid.set_interface(MIDDLE, ONE / 2).unwrap();
    let parts = &mut grid.state_mut().parts[PARTS * MIDDLE..PARTS * (MIDDLE + 1)];
    for (part, moving) in parts.iter_mut().zip(scenes::parts_at(ONE.into(), &[196_300, 0, 0])) {
        *part = moving as i32;
    }
    let settings = Settings { p: 1, gx: 1048, gy: 0, gz: 0 };
    grid.write(settings, Site { edge: 50, origin: Point::new(0, 0, 0) }).unwrap()
}

/// So many steps by the library itself.
fn advanced(record: &[u8], steps: u64) -> Vec<u8> {
    let Record { mut grid, settings, site } = Grid::read(record).unwrap();
    let mut left = steps;
    while left > 0 {
        let lot = left.min(1000);
        grid.run(lot as usize, settings).unwrap();
        left -= lot;
    }
    grid.write(settings, site).unwrap()
}

/// Every command with what it must have, on the record of standard input.
const CALLS: [&[&str]; 13] = [
    &["check"],
    &["water"],
    &["step"],
    &["run", "3"],
    &["mirror", "x"],
    &["write"],
    &["place", "60", "60", "60"],
    &["point", "13"],
    &["depth", "1", "1"],
    &["surface"],
    &["pools"],
    &["draw"],
    &["depths"],
];

#[test]
fn good_records_are_answered() {
    let out = |words: &[&str]| {
        let called = fed(words, CASE_T);
        assert_eq!(called.status, Some(0), "{words:?} {}", called.err);
        called
    };
    assert_eq!(
        out(&["check"]).text(),
        "accepted: a good state in 199 bytes\n\
         sides    3 x 3 x 3, 27 cells\n\
         edge     50 mm\n\
         origin   x 0.000, y 0.000, z 0.000 m\n\
         p        1024 of 1,024\n\
         gravity  0, 0, -1024 of 1,048,576 cells per step and step\n"
    );
    assert_eq!(out(&["check", "-q"]).text(), "");
    assert_eq!(
        out(&["water"]).text(),
        "fluid cells                                0\n\
         interface cells                            1\n\
         empty cells                                0\n\
         wall cells                                26\n\
         water in units, 589,824 to a full cell\n\
         in fluid cells                             0\n\
         in interface cells                   294,912\n\
         carry                                      0\n\
         total                                294,912\n\
         total in litres                        0.063\n\
         poured                                     0\n\
         taken                                      0\n\
         balance                              294,912\n"
    );
    assert_eq!(out(&["place", "60", "99", "149"]).text(), "cell 22: x 1, y 1, z 2\n");
    assert_eq!(
        out(&["point", "13"]).text(),
        "cell 13: x 1, y 1, z 1\n\
         kind     interface\n\
         centre   1.5 1.5 1.5 cells from the corner\n\
         fill     0.500000, 32,768 of 65,536\n\
         water    294,912 units\n"
    );
    assert_eq!(out(&["depth", "1", "1"]).text(), "0.5000 cells, 32768/65536, 25.0 mm\n");
    assert_eq!(out(&["depth", "0", "1"]).text(), "solid\n");
    assert_eq!(
        out(&["surface"]).text(),
        "1 interface cell of 27 cells\n    cell    x    y    z   fill\n      13    1    1    1  32768\n"
    );
    assert_eq!(out(&["surface", "-n"]).text(), "1 interface cell of 27 cells\n");
    assert_eq!(out(&["surface", "--from", "14"]).text(), "1 interface cell of 27 cells, 0 from cell 14 on\n");
    assert_eq!(out(&["surface", "-f", "27"]).text(), "1 interface cell of 27 cells, 0 from cell 27 on\n");
    assert_eq!(out(&["write"]).out, written_back(CASE_T));
    assert_eq!(
        out(&["step", "-q"]),
        Called { status: Some(0), out: advanced(CASE_T, 1), err: String::new() }
    );
    let ran = out(&["run", "2500"]);
    assert_eq!(ran.out, advanced(CASE_T, 2500));
    assert!(ran.err.starts_with("2,500 of 2,500 steps made in "), "{}", ran.err);
    assert!(ran.err.ends_with("; total 294,912 units before, 294,912 after\n"), "{}", ran.err);
    assert_eq!(out(&["run", "0"]).out, written_back(CASE_T));
    assert!(out(&["draw"]).out.starts_with(b"\x89PNG"));

    let mut dry = Grid::new(Sides::new(3, 3, 3)).unwrap();
    dry.set_empty(MIDDLE).unwrap();
    let Record { settings, site, .. } = Grid::read(CASE_T).unwrap();
    assert_eq!(fed(&["depth", "1", "1"], &dry.write(settings, site).unwrap()).text(), "dry\n");
}

#[test]
fn a_file_is_answered_as_standard_input_is() {
    let folder = Folder::new("file");
    for seed in 0..12 {
        let bytes = scenes::good(seed).record();
        let file = folder.put("record", &bytes);
        for words in CALLS {
            let mut quiet = words.to_vec();
            if ["step", "run"].contains(&words[0]) {
                quiet.push("-q");
            }
            let by_input = fed(&quiet, &bytes);
            let dash = fed(&[&quiet[..], &["-"]].concat(), &bytes);
            assert_eq!(by_input, dash, "{words:?}");
            let by_file = called(&[&quiet[..], &[&file]].concat());
            assert_eq!(by_input.status, by_file.status, "{words:?}");
            // A picture is called by its file's name.
            if words[0] != "draw" {
                assert_eq!(by_input.out, by_file.out, "{words:?}");
            }
            let output = folder.path("output");
            let into_file = fed(&[&quiet[..], &["-o", &output]].concat(), &bytes);
            assert_eq!((into_file.status, &into_file.out[..]), (by_input.status, &[][..]), "{words:?}");
            // The record of a refused step is written too, what else is refused is not.
            if !by_input.out.is_empty() {
                assert_eq!(fs::read(&output).unwrap(), by_input.out, "{words:?}");
                fs::remove_file(&output).unwrap();
            }
            assert_eq!(fs::read(&file).unwrap(), bytes);
            assert_eq!(folder.names(), ["record"]);
        }
    }
}

#[test]
fn damaged_records_are_refused_by_every_command() {
    let folder = Folder::new("damaged");
    let mut numbers = Vec::new();
    for seed in 0..80 {
        let bytes = damage::bad(seed).bytes;
        let Err(refusal) = Grid::read(&bytes) else { continue };
        numbers.push(refusal.number);
        let output = folder.path("output");
        for words in CALLS {
            let words = [words, &["-o", &output]].concat();
            let called = fed(&words, &bytes);
            assert_eq!((called.status, &called.out[..]), (Some(1), &[][..]), "{words:?} {}", called.err);
            let told =
                format!("skw {}: standard input: refusal {}: {}", words[0], refusal.number, refusal.words());
            assert!(called.err.starts_with(&told), "{}\n{told}", called.err);
            assert_eq!(called.err.lines().count(), 1);
            assert!(folder.names().is_empty(), "{words:?}");
        }
    }
    numbers.sort();
    numbers.dedup();
    assert_eq!(numbers, [1, 3, 4, 5, 6, 10, 11]);
}

#[test]
fn a_refusal_is_told_with_its_place() {
    let told = |bytes: &[u8]| {
        let called = fed(&["check"], bytes);
        assert_eq!(called.status, Some(1));
        called.err
    };
    let changed = |at: usize, byte: u8| {
        let mut bytes = CASE_T.to_vec();
        bytes[at] = byte;
        told(&bytes)
    };
    let says = |err: String, what: &str| {
        assert_eq!(err, format!("skw check: standard input: {what}\n"));
    };
    const ENDS: &str = "refusal 10: record ends early or has bytes left over, at byte";
    says(
        told(&[]),
        &format!("{ENDS} 0: section 1 (sides) begins there and is not whole, 0 bytes being left"),
    );
    says(
        told(&CASE_T[..198]),
        &format!(
            "{ENDS} 119: section 7 (parts of liquid cells) begins there and is not whole, 79 bytes being left"
        ),
    );
    says(told(&[CASE_T, &[0]].concat()), &format!("{ENDS} 199: the record should end there, and does not"));
    says(changed(80, 26), "refusal 11: a section's count is wrong, in section 5 (flags): it is 26");
    says(changed(4, 2), "refusal 1: side or product outside its range: its sides are 2 x 3 x 3");
    says(
        changed(21, 0),
        "refusal 3: a setting, origin or point coordinate out of range: its p, gravity and edge are 0, 0, 0, \
         -1024, 50, its origin is 0, 0, 0",
    );
    says(changed(84 + 5, 0), "refusal 4: flag above 3, or outer cell not wall, at cell 5 (x 2, y 1, z 0)");
    says(changed(118, 127), "refusal 6: another rule of a good state broken, at cell 13 (x 1, y 1, z 1)");
    says(
        changed(79, 64),
        "refusal 6: another rule of a good state broken, at 27, which stands for the carry, poured or taken",
    );
    let mut row = Grid::new(Sides::new(5, 3, 3)).unwrap();
    row.set_fluid(21, ONE).unwrap();
    let Record { settings, site, .. } = Grid::read(CASE_T).unwrap();
    let mut bytes = row.write(settings, site).unwrap();
    assert_eq!(bytes[100 + 22], INTERFACE);
    bytes.swap(100 + 22, 100 + 23);
    says(told(&bytes), "refusal 5: fluid beside empty, at cell 21 (x 1, y 1, z 1)");

    // Where the record is good and what is asked of it is not.
    for (words, what) in [
        (
            &["place", "-1", "0", "0"][..],
            "refusal 13: column, cell or point outside: the grid has 3 x 3 x 3 cells",
        ),
        (
            &["place", "0", "0", "10000000001"],
            "refusal 3: a setting, origin or point coordinate out of range",
        ),
        (&["point", "27"], "refusal 13: column, cell or point outside: the grid has 3 x 3 x 3 cells"),
        (&["depth", "0", "3"], "refusal 13: column, cell or point outside: the grid has 3 x 3 x 3 cells"),
        (&["draw", "-s", "z=3"], "refusal 13: column, cell or point outside: the grid has 3 x 3 x 3 cells"),
    ] {
        let err = format!("skw {}: {what}\n", words[0]);
        assert_eq!(fed(words, CASE_T), Called { status: Some(1), out: Vec::new(), err });
    }
}

#[test]
fn a_refused_step_loses_nothing() {
    let folder = Folder::new("refused");
    let record = refused_at_second();
    let reached = advanced(&record, 1);
    let file = folder.put("start", &record);
    let why = "refusal 7: streamed density or speed out of range, at cell 13 (x 1, y 1, z 1)";

    // As many steps as can be asked for.
    let output = folder.path("reached");
    let most = u64::MAX.to_string();
    let err = format!(
        "skw run: {file}: {why}; 1 of {} steps made; the state reached is in {output}\n",
        grouped(u64::MAX)
    );
    let refused = called(&["run", &most, &file, "-o", &output]);
    assert_eq!(refused, Called { status: Some(1), out: Vec::new(), err });
    assert_eq!(fs::read(&output).unwrap(), reached);

    // To standard output, and by one step; --quiet does not hide it.
    let refused = fed(&["run", "50", "-q"], &record);
    assert_eq!((refused.status, &refused.out), (Some(1), &reached));
    let first = fed(&["step"], &record);
    assert_eq!((first.status, &first.out), (Some(0), &reached));
    let second = fed(&["step", "--quiet"], &reached);
    assert_eq!((second.status, &second.out), (Some(1), &reached));
    assert_eq!(
        second.err,
        format!(
            "skw step: standard input: {why}; 0 of 1 steps made; the state reached is in standard output\n"
        )
    );
}

#[test]
fn a_file_is_whole_or_as_it_was() {
    let folder = Folder::new("whole");
    // Read and written by one name, and by a link, which stays one.
    let file = folder.put("record", CASE_T);
    fs::set_permissions(&file, fs::Permissions::from_mode(0o640)).unwrap();
    assert_eq!(called(&["run", "3", &file, "-o", &file, "-q"]).status, Some(0));
    assert_eq!(fs::read(&file).unwrap(), advanced(CASE_T, 3));
    assert_eq!(fs::metadata(&file).unwrap().permissions().mode() & 0o777, 0o640);
    let link = folder.path("link");
    symlink("record", &link).unwrap();
    assert_eq!(called(&["run", "4", &link, "--output", &link, "-q"]).status, Some(0));
    assert!(fs::symlink_metadata(&link).unwrap().is_symlink());
    assert_eq!(fs::read(&file).unwrap(), advanced(CASE_T, 7));
    let dangling = folder.path("dangling");
    symlink("made", &dangling).unwrap();
    assert_eq!(fed(&["write", "-o", &dangling], CASE_T).status, Some(0));
    assert_eq!(fs::read(folder.path("made")).unwrap(), written_back(CASE_T));

    // It is not written over but replaced: by another name the old one can still be read.
    let old = folder.path("old");
    fs::hard_link(&file, &old).unwrap();
    assert_eq!(called(&["step", &file, "-o", &file, "-q"]).status, Some(0));
    assert_eq!(fs::read(&file).unwrap(), advanced(CASE_T, 8));
    assert_eq!(fs::read(&old).unwrap(), advanced(CASE_T, 7));

    // A refused record leaves what stands there.
    assert_eq!(fed(&["write", "-o", &file], &CASE_T[1..]).status, Some(1));
    assert_eq!(fs::read(&file).unwrap(), advanced(CASE_T, 8));
    assert_eq!(folder.names(), ["dangling", "link", "made", "old", "record"]);

    // What is no file is written to and stays what it is.
    assert_eq!(fed(&["draw", "-o", "/dev/null"], CASE_T).status, Some(0));
    assert!(!fs::metadata("/dev/null").unwrap().is_file());
    assert_eq!(fed(&["write", "-o", "-"], CASE_T).out, written_back(CASE_T));
}

#[test]
fn what_cannot_be_read_or_written_is_told() {
    let folder = Folder::new("trouble");
    let (good, nowhere) = (folder.put("good", CASE_T), folder.path("no/such"));
    let (no_file, directory) = ("No such file or directory", folder.0.to_str().unwrap());
    for (words, told) in [
        (vec!["check", &nowhere], format!("skw check: {nowhere} cannot be read: {no_file}")),
        (vec!["check", directory], format!("skw check: {directory} cannot be read: ")),
        (vec!["run", "5", &good, "-o", &nowhere], format!("skw run: {nowhere} cannot be written: {no_file}")),
        (vec!["draw", &good, "-o", directory], format!("skw draw: {directory} cannot be written: ")),
    ] {
        let called = called(&words);
        assert_eq!((called.status, &called.out[..]), (Some(3), &[][..]), "{words:?}");
        assert!(called.err.starts_with(&told) && called.err.lines().count() == 1, "{}", called.err);
    }
    // Before the work, so that no work is lost: these steps would never be made.
    let mut child = started(&["run", &u64::MAX.to_string(), &good, "-o", &nowhere]);
    let mut status = None;
    for _ in 0..600 {
        status = child.try_wait().unwrap();
        if status.is_some() {
            break;
        }
        sleep(Duration::from_millis(100));
    }
    let _ = child.kill();
    assert_eq!(status.expect("it runs first").code(), Some(3));
    assert_eq!(folder.names(), ["good"]);
}

#[test]
fn what_cannot_be_understood_is_told() {
    let lists: [&[&str]; 26] = [
        &[],
        &["chekc"],
        &["check", "one", "two"],
        &["check", "--loud"],
        &["check", "-x"],
        &["check", "--quiet=yes"],
        &["check", "-q", "--quiet"],
        &["run"],
        &["run", "many"],
        &["run", "-1"],
        &["run", "+1"],
        &["run", "1.5"],
        &["run", ""],
        &["run", "18446744073709551616"],
        &["run", "1", "-o"],
        &["place", "1", "2"],
        &["place", "1", "2", "3m"],
        &["place", "1", "2", "9223372036854775808"],
        &["point", "-1"],
        &["depth", "1"],
        &["draw", "--section", "y"],
        &["draw", "--section=w=3"],
        &["draw", "--deepest", "0"],
        &["draw", "--deepest", "129"],
        &["draw", "--deepest", "nan"],
        &["help", "one", "two"],
    ];
    for words in lists {
        let called = fed(words, CASE_T);
        assert_eq!((called.status, &called.out[..]), (Some(2), &[][..]), "{words:?}");
        assert!(called.err.contains("usage: skw "), "{words:?} {}", called.err);
    }
}

#[test]
fn help_says_what_there_is() {
    let help = called(&["help"]);
    assert_eq!((help.status, &help.err[..]), (Some(0), ""));
    assert_eq!(help, called(&["--help"]));
    for name in CALLS.map(|words| words[0]) {
        assert!(help.text().contains(&format!("    skw {name} ")));
        let one = called(&[name, "--help"]);
        assert_eq!((one.status, &one.err[..]), (Some(0), ""));
        assert!(one.text().starts_with(&format!("skw {name} ")));
        assert!(one.text().contains(&format!("    skw {name} ")), "no example: {name}");
        assert_eq!(one, called(&["help", name]));
        assert_eq!(one, called(&[name, "much", "-z", "-h"]));
        // As wide as a terminal is.
        let widest = one.text().lines().chain(help.text().lines()).map(str::len).max();
        assert!(widest <= Some(82), "{name} {widest:?}");
    }
    assert_eq!(called(&["--version"]).text(), concat!("skw ", env!("CARGO_PKG_VERSION"), "\n"));
}

#[test]
fn the_largest_record_is_read_and_what_never_ends_is_not() {
    // As many interface cells as there can be, at rest: no record is longer.
    let sides = Sides::new(64, 64, 64);
    let mut grid = Grid::new(sides).unwrap();
    for cell in (0..sides.cells().unwrap()).filter(|&cell| !sides.is_outer(cell)) {
        grid.set_interface(cell, ONE / 3).unwrap();
    }
    let Record { settings, site, .. } = Grid::read(CASE_T).unwrap();
    let largest = grid.write(settings, site).unwrap();
    assert_eq!(largest.len(), 108 + 64 * 64 * 64 + 80 * 62 * 62 * 62);
    assert_eq!(
        fed(&["write"], &largest),
        Called { status: Some(0), out: largest.clone(), err: String::new() }
    );
    let stepped = fed(&["step", "-q"], &largest);
    assert_eq!((stepped.status, stepped.out == advanced(&largest, 1)), (Some(0), true), "{}", stepped.err);

    let zeros = Stdio::from(fs::File::open("/dev/zero").unwrap());
    let output = Command::new(env!("CARGO_BIN_EXE_skw")).arg("check").stdin(zeros).output().unwrap();
    assert_eq!(
        (output.status.code(), String::from_utf8(output.stderr).unwrap().as_str()),
        (
            Some(1),
            "skw check: standard input: refusal 11: a section's count is wrong, in section 1 (sides): it is 0\n"
        )
    );
}

/// A run of more steps than can be made, cut off by a signal after a while: its end, and the file that it wrote, if it did.
fn cut_off(folder: &Folder, record: &str, number: c_int, after: Duration) -> (Child, String) {
    let output = folder.path("output");
    let child = started(&["run", &u64::MAX.to_string(), record, "-o", &output]);
    sleep(after);
    assert_eq!(unsafe { kill(child.id() as c_int, number) }, 0);
    (child, output)
}

#[test]
fn an_interrupted_run_leaves_a_whole_record() {
    let folder = Folder::new("interrupted");
    // Of the scenes by seed one that goes on and on, and not the smallest.
    let lasting = |seed: &u64| {
        let Record { mut grid, settings, .. } = Grid::read(&scenes::good(*seed).record()).unwrap();
        (0..20).all(|_| grid.run(1000, settings).is_ok()) && grid.counts().liquid() > 20
    };
    let bytes = scenes::good((0..500).find(lasting).expect("no scene lasts")).record();
    let record = folder.put("record", &bytes);
    for number in [INTERRUPT, TERMINATE] {
        // Where the machine is so busy that the run had not yet begun, it is cut off as any command, and nothing is written.
        let mut reached = false;
        for wait in [300, 1000, 3000, 10_000] {
            let (child, output) = cut_off(&folder, &record, number, Duration::from_millis(wait));
            let output_of = child.wait_with_output().unwrap();
            if output_of.status.signal() == Some(number) {
                assert_eq!(folder.names(), ["record"]);
                continue;
            }
            let err = String::from_utf8(output_of.stderr).unwrap();
            assert_eq!(output_of.status.code(), Some(128 + number), "{err}");
            let told = err.strip_prefix("skw run: interrupted: ").unwrap();
            let count: u64 = told.split(" of ").next().unwrap().replace(',', "").parse().unwrap();
            assert!(count > 0 && told.ends_with(&format!("the state reached is in {output}\n")), "{err}");
            assert_eq!(fs::read(&output).unwrap(), advanced(&bytes, count));
            assert_eq!(folder.names(), ["output", "record"]);
            fs::remove_file(&output).unwrap();
            reached = true;
            break;
        }
        assert!(reached, "signal {number} is not heeded");
    }
    // Killed outright there is no last word, and the file is as it was.
    fs::copy(&record, folder.path("output")).unwrap();
    let (mut child, output) = cut_off(&folder, &record, KILL, Duration::from_millis(300));
    child.wait().unwrap();
    assert_eq!(fs::read(output).unwrap(), bytes);
    assert_eq!(folder.names(), ["output", "record"]);
}

#[test]
fn a_closed_standard_output_is_no_reason_to_panic() {
    for words in [&["draw", "--text"][..], &["draw"], &["water"], &["check"], &["run", "5", "-q"], &["write"]]
    {
        let mut child = started(words);
        // It reads to the end before it writes.
        drop(child.stdout.take());
        child.stdin.take().unwrap().write_all(CASE_T).unwrap();
        let mut err = String::new();
        child.stderr.take().unwrap().read_to_string(&mut err).unwrap();
        assert_eq!((child.wait().unwrap().code(), &err[..]), (Some(3), ""), "{words:?}");
    }
    let folder = Folder::new("closed");
    let record = folder.put("record", CASE_T);
    let shell = format!("'{}' draw --text '{record}' | head -1", env!("CARGO_BIN_EXE_skw"));
    let output = Command::new("sh").args(["-c", &shell]).output().unwrap();
    assert_eq!((&output.stdout[..], &output.stderr[..]), (&b"record: Depth from above\n"[..], &[][..]));
    assert!(Path::new(&record).exists());
}
