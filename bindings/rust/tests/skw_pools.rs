// skw pools: what it prints and draws of a record, and what it says where it cannot.

use std::path::{Path, PathBuf};
use std::process::{id, Command, Output, Stdio};
use std::{env, fs};

use skwarzyna::{Grid, Point, Settings, Sides, Site};

/// A folder of its own, gone with it.
struct Folder(PathBuf);

impl Folder {
    fn new(name: &str) -> Folder {
        let folder = env::temp_dir().join(format!("skw-pools-{}-{name}", id()));
        fs::create_dir_all(&folder).unwrap();
        fs::write(folder.join("two.rec"), two()).unwrap();
        Folder(folder)
    }
}

impl Drop for Folder {
    fn drop(&mut self) {
        let _ = fs::remove_dir_all(&self.0);
    }
}

fn skw(folder: &Path, words: &[&str]) -> Output {
    let mut command = Command::new(env!("CARGO_BIN_EXE_skw"));
    command.current_dir(folder).args(words).stdin(Stdio::null()).output().unwrap()
}

/// The record of document 01's two corners.
fn two() -> Vec<u8> {
    let mut grid = Grid::new(Sides::new(4, 4, 4)).unwrap();
    for (cell, mass) in [(21, 1000), (42, -7)] {
        grid.set_interface(cell, mass).unwrap();
    }
    let settings = Settings { p: 1024, gx: 0, gy: 0, gz: 0 };
    grid.write(settings, Site { edge: 50, origin: Point::new(0, 0, 0) }).unwrap()
}

fn text(bytes: &[u8]) -> &str {
    std::str::from_utf8(bytes).unwrap()
}

#[test]
fn a_line_for_each_pool() {
    let folder = Folder::new("lines");
    let told = skw(&folder.0, &["pools", "two.rec"]);
    assert_eq!((told.status.code(), text(&told.stderr)), (Some(0), ""));
    let lines: Vec<&str> = text(&told.stdout).lines().collect();
    let words = |line: usize| lines[line].split_whitespace().collect::<Vec<_>>().join(" ");
    assert_eq!(words(2), "1 1 1,000 100.70 % 21 (x 1, y 1, z 1)");
    assert_eq!(words(3), "2 1 -7 -0.70 % 42 (x 2, y 2, z 2)");
    assert_eq!(
        (words(4), words(5), words(6)),
        ("all 2 993 100.00 %".into(), "carry 0".into(), "total 993".into())
    );
    assert_eq!(lines.len(), 7);
}

#[test]
fn a_picture_is_drawn_beside_the_lines() {
    let folder = Folder::new("picture");
    let plain = skw(&folder.0, &["pools", "two.rec"]);
    for (view, title) in [(&[][..], "Pools from above"), (&["-s", "z=1"], "Pools at z = 1")] {
        let drawn = skw(&folder.0, &[&["pools", "two.rec", "-p", "two.png"], view].concat());
        assert_eq!((drawn.status.code(), &drawn.stdout), (Some(0), &plain.stdout));
        let bytes = fs::read(folder.0.join("two.png")).unwrap();
        assert!(bytes.starts_with(b"\x89PNG\r\n\x1a\n"));
        let title = format!("two.rec: {title}");
        assert!(bytes.windows(title.len()).any(|part| part == title.as_bytes()));
    }
    let bytes = fs::read(folder.0.join("two.png")).unwrap();
    let piped = skw(&folder.0, &["pools", "two.rec", "-o", "lines", "-p", "-", "-s", "z=1"]);
    assert_eq!((piped.status.code(), &piped.stdout), (Some(0), &bytes));
    assert_eq!(fs::read(folder.0.join("lines")).unwrap(), plain.stdout);

    // What is refused or cannot be understood leaves an old picture alone.
    for (words, status) in [
        (&["pools", "two.rec", "-p", "two.png", "-s", "z=4"][..], 1),
        (&["pools", "two.rec", "-p", "two.png", "-s", "w=1"], 2),
        (&["pools", "two.rec", "-s", "z=1"], 2),
        (&["pools", "two.rec", "-p", "-"], 2),
        (&["pools", "two.rec", "more", "-p", "two.png"], 2),
        (&["pools", "no.rec", "-p", "two.png"], 3),
        (&["pools", "two.rec", "-p", "no/such/folder.png"], 3),
    ] {
        let refused = skw(&folder.0, words);
        assert_eq!((refused.status.code(), text(&refused.stdout)), (Some(status), ""), "{words:?}");
        assert_eq!(fs::read(folder.0.join("two.png")).unwrap(), bytes);
    }
}
