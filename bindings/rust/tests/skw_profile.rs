// skw profile: what it prints and draws of good lists and records, and what it says of those that cannot be read or are refused.

use std::ffi::OsStr;
use std::fs::File;
use std::path::{Path, PathBuf};
use std::process::{id, Command, Output, Stdio};
use std::{env, fs};

use skwarzyna::{Grid, Point, Settings, Sides, Site, EMPTY, ONE};

const NORTH: i64 = 5_200_000_000;

/// A folder of its own, gone with it.
struct Folder(PathBuf);

impl Folder {
    fn new(name: &str) -> Folder {
        let folder = env::temp_dir().join(format!("skw-profile-{}-{name}", id()));
        fs::create_dir_all(&folder).unwrap();
        fs::write(folder.join("gutter.rec"), gutter()).unwrap();
        Folder(folder)
    }

    fn path(&self, name: &str) -> PathBuf {
        self.0.join(name)
    }

    /// skw profile on this text as a list, and whatever else is said.
    fn profile(&self, list: impl AsRef<[u8]>, more: &[&str]) -> Output {
        fs::write(self.path("list"), list).unwrap();
        let words = ["profile", "list", "gutter.rec"].iter().chain(more).map(OsStr::new);
        skw(&self.0, words.collect())
    }
}

impl Drop for Folder {
    fn drop(&mut self) {
        let _ = fs::remove_dir_all(&self.0);
    }
}

fn skw(folder: &Path, words: Vec<&OsStr>) -> Output {
    let mut command = Command::new(env!("CARGO_BIN_EXE_skw"));
    command.current_dir(folder).args(words).stdin(Stdio::null()).output().unwrap()
}

/// The record of a grid like that of document 01's figures: 5×4×4 cells of 50 mm.
fn gutter() -> Vec<u8> {
    let mut grid = Grid::new(Sides::new(5, 4, 4)).unwrap();
    for cell in [31, 51] {
        grid.set_wall(cell).unwrap();
    }
    for (cell, mass) in [(26, ONE / 2), (27, ONE), (28, 1), (32, ONE / 4 * 3)] {
        assert_eq!(grid.state().flags[cell], EMPTY);
        grid.set_interface(cell, mass).unwrap();
    }
    let settings = Settings { p: 1024, gx: 0, gy: 0, gz: 0 };
    grid.write(settings, Site { edge: 50, origin: Point::new(-50, NORTH, 118_000) }).unwrap()
}

const LIST: &str = "\
# chainage x y z, whole millimetres

0 25 5200000075 118060
1000 50 5200000050 118000   # the deepest
2000\t60 5200000099 118199
3000 60 5200000099 118200
  4000 0 5200000100 118000
5000 125 5200000125 118000\r
6000 75 5200000120 118010
";

fn text(bytes: &[u8]) -> &str {
    std::str::from_utf8(bytes).unwrap()
}

#[test]
fn a_line_for_each_point_and_the_deepest() {
    let folder = Folder::new("lines");
    let said = folder.profile(LIST, &[]);
    assert_eq!(text(&said.stderr), "");
    assert_eq!(said.status.code(), Some(0));
    let wanted = [
        "point chainage/m invert/m depth/mm depth/cells",
        "0 0.000 118.050 25.0 32768/65536",
        "1 1.000 118.050 50.0 65536/65536",
        "2 2.000 118.050 50.0 65536/65536",
        "3 3.000 - outside",
        "4 4.000 - solid",
        "5 5.000 118.050 dry",
        "6 6.000 118.050 37.5 49152/65536",
        "7 points, 4 deep, 1 dry, 1 solid, 1 outside",
        "deepest: 50.0 mm at chainage 1.000 m, point 1",
    ];
    let lines: Vec<String> = text(&said.stdout)
        .lines()
        .map(|line| line.split_whitespace().collect::<Vec<_>>().join(" "))
        .collect();
    assert_eq!(lines, wanted);

    let dry = folder.profile("-7 125 5200000125 118000\n", &[]);
    assert!(text(&dry.stdout).ends_with("deepest: none, as no point is wet\n"));
    assert_eq!(dry.status.code(), Some(0));
}

#[test]
fn a_picture_is_drawn_beside_the_lines() {
    let folder = Folder::new("picture");
    let plain = folder.profile(LIST, &[]);
    let drawn = folder.profile(LIST, &["--picture", "gutter.png"]);
    assert_eq!((drawn.status.code(), &drawn.stdout), (Some(0), &plain.stdout));
    let bytes = fs::read(folder.path("gutter.png")).unwrap();
    assert!(bytes.starts_with(b"\x89PNG\r\n\x1a\n"));
    let said = |words: &[u8]| bytes.windows(words.len()).any(|part| part == words);
    assert!(said(b"gutter.rec: Long profile") && said(b"deepest: 50.0 mm at chainage 1.000 m, point 1"));

    // Lines and picture each to where they are wanted, but not both to standard output.
    let piped = folder.profile(LIST, &["-o", "lines", "-p", "-"]);
    assert_eq!((piped.status.code(), &piped.stdout), (Some(0), &bytes));
    assert_eq!(fs::read(folder.path("lines")).unwrap(), plain.stdout);
    let both = folder.profile(LIST, &["-p", "-"]);
    assert_eq!((both.status.code(), text(&both.stdout)), (Some(2), ""));

    // What is refused leaves an old picture alone.
    let refused = folder.profile("0 25 5200000075 10000000001", &["-p", "gutter.png"]);
    assert_eq!(refused.status.code(), Some(1));
    assert_eq!(fs::read(folder.path("gutter.png")).unwrap(), bytes);
    let nowhere = folder.profile(LIST, &["-p", "no/such/folder.png"]);
    assert_eq!((nowhere.status.code(), text(&nowhere.stdout)), (Some(3), ""));
}

#[test]
fn lines_that_cannot_be_read_are_told_by_number() {
    let folder = Folder::new("unreadable");
    for (list, line, why) in [
        ("1 2 3\n", 1, "3 numbers, and a point has four: chainage x y z"),
        ("0 1 2 3\n\n# nothing\n7\n", 4, "1 number, and a point has four: chainage x y z"),
        ("0 1 2 3\n1 1 2 3 4\n", 2, "5 numbers, and a point has four: chainage x y z"),
        ("0 1 2 3\n1000.5 1 2 3\n", 2, "'1000.5' is not a whole number of millimetres"),
        ("0 1 2 3\n1,000 1 2 3\n", 2, "'1,000' is not a whole number of millimetres"),
        ("0 1 +2 3\n", 1, "'+2' is not a whole number of millimetres"),
        ("0 1 - 3\n", 1, "'-' is not a whole number of millimetres"),
        ("0 1 1e3 3\n", 1, "'1e3' is not a whole number of millimetres"),
        ("chainage x y z\n", 1, "'chainage' is not a whole number of millimetres"),
        ("0 1 2 9223372036854775808\n", 1, "'9223372036854775808' has too many digits"),
        ("0 0 0 0\n0 0 0 0 zwölf", 2, "'zwölf' is not a whole number of millimetres"),
    ] {
        let said = folder.profile(list, &["-p", "never.png"]);
        assert_eq!(text(&said.stderr), format!("skw profile: list, line {line}: {why}\n"));
        assert_eq!((said.status.code(), text(&said.stdout)), (Some(2), ""));
        assert!(!folder.path("never.png").exists());
    }
    let bytes = folder.profile([b'1', 0xff, b' ', b'2'], &[]);
    assert_eq!(bytes.status.code(), Some(2));
    assert!(text(&bytes.stderr).starts_with("skw profile: list, line 1: "));
}

#[test]
fn refusals_are_told_by_the_line_of_their_point() {
    let folder = Folder::new("refused");
    let far = LIST.replace("4000 0 ", "4000 -10000000001 ");
    for (list, why) in [
        ("", "list: refusal 22: the list has not 1 to 2,000 points; it has 0"),
        ("# nothing\n", "list: refusal 22: the list has not 1 to 2,000 points; it has 0"),
        (&far, "list, line 7: refusal 3: a setting, origin or point coordinate out of range, at point 4"),
        (
            "# far\n5 10000000001 0 0\n",
            "list, line 2: refusal 3: a setting, origin or point coordinate out of range, at point 0",
        ),
        (
            &LIST.replace("4000 0", "3000 0"),
            "list, line 7: refusal 23: a chainage is not above the one before, at point 4",
        ),
        (
            &far.replace("6000 75", "5000 75"),
            "list, line 9: refusal 23: a chainage is not above the one before, at point 6",
        ),
    ] {
        let said = folder.profile(list, &[]);
        assert_eq!(text(&said.stderr), format!("skw profile: {why}\n"));
        assert_eq!((said.status.code(), text(&said.stdout)), (Some(1), ""));
    }
    let many: String = (0..2_001).map(|chainage| format!("{chainage} 25 5200000075 118060\n")).collect();
    let said = folder.profile(&many, &[]);
    assert_eq!(said.status.code(), Some(1));
    assert!(text(&said.stderr).ends_with("it has 2001\n"));
    let most = many.trim_end().rsplit_once('\n').unwrap().0;
    let said = folder.profile(most, &["-p", "many.png"]);
    assert_eq!(said.status.code(), Some(0));
    assert_eq!(text(&said.stdout).lines().count(), 1 + 2_000 + 2);
}

#[test]
fn files_and_words_that_are_not_there() {
    let folder = Folder::new("files");
    fs::write(folder.path("list"), LIST).unwrap();
    fs::write(folder.path("cut.rec"), &gutter()[..100]).unwrap();
    for (words, status, why) in [
        (&["profile"][..], 2, "POINTS is missing"),
        (&["profile", "none", "gutter.rec"], 3, "none cannot be read"),
        (&["profile", "list", "none.rec"], 3, "none.rec cannot be read"),
        (&["profile", "list", "cut.rec"], 1, "cut.rec: refusal 10: record ends early"),
        (&["profile", "list", "gutter.rec", "more"], 2, "'more' is one word too many"),
        (&["profile", "-", "-"], 2, "points and record cannot both come from standard input"),
        (&["profile", "list", "gutter.rec", "--picture"], 2, "--picture wants FILE behind it"),
    ] {
        let said = skw(&folder.0, words.iter().map(OsStr::new).collect());
        assert_eq!(said.status.code(), Some(status), "{words:?}");
        assert!(text(&said.stderr).contains(why), "{words:?}: {}", text(&said.stderr));
        assert_eq!(text(&said.stdout), "");
    }
}

#[test]
fn the_record_may_come_from_standard_input() {
    let folder = Folder::new("input");
    let by_file = folder.profile(LIST, &[]);
    let given = |words: &[&str]| {
        let mut command = Command::new(env!("CARGO_BIN_EXE_skw"));
        let record = File::open(folder.path("gutter.rec")).unwrap();
        command.current_dir(&folder.0).args(words).stdin(record).output().unwrap()
    };
    assert_eq!(given(&["profile", "list"]), by_file);
    assert_eq!(given(&["profile", "list", "-"]), by_file);
    // A list where the record should be.
    let turned = given(&["profile", "gutter.rec", "list"]);
    assert_eq!((turned.status.code(), text(&turned.stdout)), (Some(2), ""));
}

#[test]
fn help_says_what_a_list_is() {
    let folder = Folder::new("help");
    let help = skw(&folder.0, ["profile", "--help"].map(OsStr::new).to_vec());
    let all = skw(&folder.0, vec![OsStr::new("help")]);
    assert!(text(&all.stdout).contains("    skw profile POINTS"));
    assert!(text(&help.stdout).contains("chainage, x, y and z in whole millimetres"));
    // As wide as a terminal is.
    assert!(text(&help.stdout).lines().chain(text(&all.stdout).lines()).all(|line| line.len() <= 82));
}

#[test]
fn the_example_reads_as_it_did() {
    let examples = Path::new(env!("CARGO_MANIFEST_DIR")).join("../../examples");
    let folder = Folder::new("example");
    let picture = folder.path("gutter.png");
    let words =
        [OsStr::new("profile"), OsStr::new("gutter.points"), OsStr::new("gutter.rec"), OsStr::new("-p")];
    let said = skw(&examples, words.into_iter().chain([picture.as_os_str()]).collect());
    assert_eq!(said.status.code(), Some(0), "{}", text(&said.stderr));
    assert_eq!(text(&said.stdout), fs::read_to_string(examples.join("gutter.profile")).unwrap());
    assert!(fs::read(&picture).unwrap().starts_with(b"\x89PNG"));
}
