// skw flume: each of its commands on good and damaged records, what it prints, writes and leaves alone, and its status.

use std::io::Write;
use std::path::{Path, PathBuf};
use std::process::{id, Command, Stdio};
use std::{env, fs};

use oracle::flume::scenes::case_f;

/// A folder of its own with case F in it, gone with it.
struct Folder(PathBuf);

impl Folder {
    fn new(name: &str) -> Folder {
        let folder = env::temp_dir().join(format!("skw-flume-{}-{name}", id()));
        fs::create_dir_all(&folder).unwrap();
        fs::write(folder.join("f.rec"), case_f().record()).unwrap();
        Folder(folder)
    }
}

impl Drop for Folder {
    fn drop(&mut self) {
        let _ = fs::remove_dir_all(&self.0);
    }
}

/// Status, standard output and standard error of a call with these bytes as standard input.
fn fed(folder: &Path, words: &[&str], input: &[u8]) -> (Option<i32>, Vec<u8>, String) {
    let mut command = Command::new(env!("CARGO_BIN_EXE_skw"));
    command.current_dir(folder).args(words);
    let mut child =
        command.stdin(Stdio::piped()).stdout(Stdio::piped()).stderr(Stdio::piped()).spawn().unwrap();
    let _ = child.stdin.take().unwrap().write_all(input);
    let output = child.wait_with_output().unwrap();
    let err = String::from_utf8(output.stderr).unwrap();
    assert!(!err.contains("panicked"), "{err}");
    (output.status.code(), output.stdout, err)
}

fn called(folder: &Path, words: &[&str]) -> (Option<i32>, String, String) {
    let (status, out, err) = fed(folder, words, &[]);
    (status, String::from_utf8(out).unwrap(), err)
}

#[test]
fn a_record_is_checked_and_its_water_told() {
    let folder = Folder::new("check");
    let (status, out, err) = called(&folder.0, &["flume", "check", "f.rec"]);
    assert_eq!((status, err.as_str()), (Some(0), ""));
    assert_eq!(
        out,
        "accepted: a good state of a flume in 125 bytes\nsides    3 x 3, 9 cells\nedge     50 mm\norigin   x 0.000, z 0.000 m\n\
         p        1024 of 1,024\ngravity  0, -1024 of 1,048,576 cells per step and step\n"
    );
    assert_eq!(
        called(&folder.0, &["flume", "check", "-q", "f.rec"]),
        (Some(0), String::new(), String::new())
    );
    let (status, out, _) = called(&folder.0, &["flume", "water", "f.rec"]);
    let words: Vec<String> =
        out.lines().map(|line| line.split_whitespace().collect::<Vec<_>>().join(" ")).collect();
    assert_eq!(status, Some(0));
    for line in [
        "interface cells 1",
        "wall cells 8",
        "in interface cells 294,912",
        "carry 0",
        "total 294,912",
        "litres per metre 1.250",
    ] {
        assert!(words.iter().any(|told| told == line), "{line} is not in {words:?}");
    }
    let (status, piped, _) = fed(&folder.0, &["flume", "water"], &case_f().record());
    assert_eq!((status, piped), (Some(0), out.into_bytes()));
}

#[test]
fn refusals_tell_number_and_place() {
    let folder = Folder::new("refused");
    let record = case_f().record();
    let changed = |at: usize, byte: u8| {
        let mut bytes = record.clone();
        bytes[at] = byte;
        bytes
    };
    let box_record = include_bytes!("../../../crates/gridstep/stdin").to_vec();
    for (bytes, told) in [
        (record[..70].to_vec(), "refusal 10: record ends early or has bytes left over, at byte 64: section 5 (flags) begins there and is not whole, 6 bytes being left"),
        ([&record[..], &[1]].concat(), "at byte 125: the record should end there, and does not"),
        (changed(52, 2), "refusal 11: a section's count is wrong, in section 4 (carry): it is 2"),
        (box_record, "in section 1 (sides): it is 3, as in a record of the box"),
        (changed(4, 2), "refusal 1: side or product outside its range: its sides are 2 x 3"),
        (changed(28, 0), "its p, gravity and edge are 1024, 0, -1024, 0, its origin is 0, 0"),
        (changed(72, 4), "refusal 4: flag above 3, or outer cell not wall, at cell 4 (x 1, z 1)"),
        (changed(92, 100), "refusal 6: another rule of a good state broken, at cell 4 (x 1, z 1)"),
        (changed(63, 100), "refusal 6: another rule of a good state broken, at 9, which stands for the carry"),
    ] {
        for command in ["check", "water", "draw"] {
            let (status, out, err) = fed(&folder.0, &["flume", command], &bytes);
            assert_eq!((status, out.len()), (Some(1), 0), "{told}");
            assert!(err.starts_with(&format!("skw flume {command}: standard input: ")), "{err}");
            assert!(err.contains(told), "{err} has not: {told}");
        }
    }
    // The box's commands name the flume's.
    let (status, _, err) = called(&folder.0, &["check", "f.rec"]);
    assert_eq!(status, Some(1));
    assert!(
        err.contains(
            "in section 1 (sides): it is 2, as in a record of the flume, for which there is skw flume"
        ),
        "{err}"
    );
}

#[test]
fn it_is_drawn_as_picture_and_as_text() {
    let folder = Folder::new("draw");
    let (status, out, err) = called(&folder.0, &["flume", "draw", "f.rec", "-o", "f.png"]);
    assert_eq!((status, out.as_str(), err.as_str()), (Some(0), "", ""));
    let bytes = fs::read(folder.0.join("f.png")).unwrap();
    assert!(bytes.starts_with(b"\x89PNG\r\n\x1a\n"));
    let has = |text: &str| bytes.windows(text.len()).any(|part| part == text.as_bytes());
    assert!(has("f.rec: Flume from the side") && has("total 294,912"));
    let (status, piped, _) = fed(&folder.0, &["flume", "draw", "f.rec"], &[]);
    assert_eq!((status, &piped), (Some(0), &bytes));

    let (status, text, _) = called(&folder.0, &["flume", "draw", "f.rec", "--text"]);
    assert_eq!(status, Some(0));
    assert!(text.contains("\n      #5#\n"), "{text}");
    assert_eq!(called(&folder.0, &["flume", "draw", "f.rec", "-w", "3"]).1, text);
    assert!(called(&folder.0, &["flume", "draw", "f.rec", "-w", "2"]).1.contains("a letter for 2 x 1 cells"));

    // What is refused or cannot be understood leaves an old picture alone.
    for (words, status) in [
        (&["flume", "draw", "f.rec", "-o", "f.png", "-w", "0"][..], 2),
        (&["flume", "draw", "f.rec", "-o", "f.png", "-w", "wide"], 2),
        (&["flume", "draw", "f.rec", "more", "-o", "f.png"], 2),
        (&["flume", "draw", "no.rec", "-o", "f.png"], 3),
        (&["flume", "draw", "f.rec", "-o", "no/such/folder.png"], 3),
    ] {
        let (ended, out, err) = called(&folder.0, words);
        assert_eq!((ended, out.as_str()), (Some(status), ""), "{words:?}: {err}");
        assert_eq!(fs::read(folder.0.join("f.png")).unwrap(), bytes);
    }
}

#[test]
fn help_knows_the_flume() {
    let folder = Folder::new("help");
    let (status, all, _) = called(&folder.0, &["help"]);
    assert_eq!(status, Some(0));
    let (status, list, _) = called(&folder.0, &["help", "flume"]);
    assert_eq!((status, &list), (Some(0), &called(&folder.0, &["flume", "--help"]).1));
    for command in ["check", "water", "draw"] {
        let line = format!("    skw flume {command} ");
        assert!(all.contains(&line) && list.contains(&line), "{command}");
        let (status, help, _) = called(&folder.0, &["flume", command, "--help"]);
        assert_eq!((status, &help), (Some(0), &called(&folder.0, &["help", "flume", command]).1));
        assert!(help.starts_with(&format!("skw flume {command} [FILE]")));
    }
    for (words, told) in [
        (&["flume"][..], "usage: skw flume check|water|step|run|mirror|draw"),
        (&["flume", "pour"], "there is no command 'flume pour'"),
        (&["help", "flume", "pour"], "usage: skw flume check|"),
        (&["help", "flume", "check", "more"], "usage: skw help [COMMAND]"),
        (&["flume", "check", "--loud"], "there is no option --loud\nusage: skw flume check [FILE]"),
    ] {
        let (status, out, err) = called(&folder.0, words);
        assert_eq!((status, out.as_str()), (Some(2), ""), "{words:?}");
        assert!(err.contains(told), "{err}");
    }
}
