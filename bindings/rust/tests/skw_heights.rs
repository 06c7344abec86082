// skw depths and skw invert: records to ASCII grids and back, what is told of a line that cannot be read, and what is left alone.

use std::path::{Path, PathBuf};
use std::process::{id, Command, Output, Stdio};
use std::{env, fs};

use skwarzyna::{Grid, Point, Settings, Sides, Site, EMPTY, INTERFACE, ONE};

const HEIGHTS: &str = concat!(env!("CARGO_MANIFEST_DIR"), "/../../tests/heights");

/// A folder of its own, gone with it.
struct Folder(PathBuf);

impl Folder {
    fn new(name: &str) -> Folder {
        let folder = env::temp_dir().join(format!("skw-heights-{}-{name}", id()));
        fs::create_dir_all(&folder).unwrap();
        for file in fs::read_dir(HEIGHTS).unwrap() {
            let file = file.unwrap();
            fs::copy(file.path(), folder.join(file.file_name())).unwrap();
        }
        Folder(folder)
    }

    fn bytes(&self, name: &str) -> Vec<u8> {
        fs::read(self.0.join(name)).unwrap()
    }
}

impl Drop for Folder {
    fn drop(&mut self) {
        let _ = fs::remove_dir_all(&self.0);
    }
}

fn skw(folder: &Path, words: &[&str]) -> Output {
    let mut command = Command::new(env!("CARGO_BIN_EXE_skw"));
    command.current_dir(folder).args(words).stdin(Stdio::null()).output().unwrap()
}

fn text(bytes: &[u8]) -> &str {
    std::str::from_utf8(bytes).unwrap()
}

#[test]
fn an_invert_becomes_a_record() {
    let folder = Folder::new("record");
    let told = skw(&folder.0, &["invert", "4", "118000", "figure.asc", "-o", "figure.rec"]);
    assert_eq!((told.status.code(), text(&told.stdout)), (Some(0), ""));
    assert_eq!(
        text(&told.stderr),
        "5 x 4 x 4 cells of 50 mm, origin x -0.050, y 5,200,000.000, z 118.000 m; of 12 cells inside 6 are open\n"
    );
    let record = Grid::read(&folder.bytes("figure.rec")).unwrap();
    assert_eq!(record.settings, Settings { p: 1600, gx: 0, gy: 0, gz: -105 });
    assert_eq!(record.site, Site { edge: 50, origin: Point::new(-50, 5_200_000_000, 118_000) });
    let open: Vec<usize> = (0..80).filter(|&cell| record.grid.state().flags[cell] == EMPTY).collect();
    assert_eq!(open, [28, 31, 48, 51, 52, 53]);

    // By standard output, with settings, a height below 0 and nothing told.
    let quiet = ["invert", "4", "-7", "arcgis.asc", "-q", "-p", "1024", "--gravity=3,0,-1000"];
    let told = skw(&folder.0, &quiet);
    assert_eq!((told.status.code(), text(&told.stderr)), (Some(0), ""));
    let record = Grid::read(&told.stdout).unwrap();
    assert_eq!(record.settings, Settings { p: 1024, gx: 3, gy: 0, gz: -1000 });
    assert_eq!(record.site.origin.z, -7);
}

#[test]
fn water_is_poured_where_it_may_and_its_depth_mapped() {
    let folder = Folder::new("pour");
    let told = skw(&folder.0, &["invert", "4", "0", "figure.asc", "-o", "figure.rec", "-s", "3,1"]);
    assert_eq!(told.status.code(), Some(0));
    assert!(text(&told.stderr).ends_with("; water may be poured into cell 28\n"), "{}", text(&told.stderr));
    assert_eq!(Grid::read(&folder.bytes("figure.rec")).unwrap().grid.state().flags[28], INTERFACE);
    for words in [
        &["pour", "28", "300000", "figure.rec", "-o", "figure.rec"][..],
        &["run", "20", "figure.rec", "-o", "figure.rec", "-q"],
        &["depths", "figure.rec", "-o", "depths.asc"],
    ] {
        let done = skw(&folder.0, words);
        assert_eq!(done.status.code(), Some(0), "{}", text(&done.stderr));
    }
    let map = folder.bytes("depths.asc");
    // 300,000 of 589,824 units in a cell of 50 mm.
    assert!(text(&map).ends_with(
        "-9999 -9999 -9999 -9999 -9999\n-9999 0 0 0 -9999\n-9999 -9999 -9999 25 -9999\n-9999 -9999 -9999 -9999 -9999\n"
    ));
    assert_eq!(skw(&folder.0, &["depths", "figure.rec"]).stdout, map);
    // A depth map is read as an invert is, with the same sides and corner.
    let read = skw(&folder.0, &["invert", "4", "0", "depths.asc", "-q"]);
    assert_eq!(Grid::read(&read.stdout).unwrap().grid.sides(), Sides::new(5, 4, 4));

    for (source, status, told) in [
        ("2,1", 1, "column 2 1 is all wall: there is no cell to pour into"),
        ("5,1", 1, "refusal 13: column, cell or point outside: the grid has 5 x 4 x 4 cells"),
        ("-1,1", 1, "refusal 13"),
        ("3", 2, "source is to be whole numbers like X,Y, and '3' is not"),
        ("3,x", 2, "source is to be whole numbers like X,Y"),
    ] {
        let refused = skw(&folder.0, &["invert", "4", "0", "figure.asc", "-s", source]);
        assert_eq!((refused.status.code(), text(&refused.stdout)), (Some(status), ""), "{source}");
        assert!(text(&refused.stderr).contains(told), "{}", text(&refused.stderr));
    }
}

#[test]
fn what_cannot_be_read_is_told_by_its_line() {
    let folder = Folder::new("lines");
    for (file, told) in [
        ("grass.asc", "grass.asc, line 1: refusal 19: a header line of a height grid is unreadable: wanted ncols and a whole number; the line is 'north: 5200000.2'"),
        ("centre.asc", "centre.asc, line 3: refusal 19: a header line of a height grid is unreadable: wanted xllcorner and metres in whole millimetres; the line is 'xllcenter -0.025'"),
        ("gdal-corner.asc", "gdal-corner.asc, line 3: refusal 19: a header line of a height grid is unreadable: wanted xllcorner and metres in whole millimetres; the line is 'xllcorner 512339.950000000012'"),
        ("no-nodata.asc", "no-nodata.asc, line 6: refusal 19: a header line of a height grid is unreadable: wanted NODATA_value and -9999; the line is '0 0 0 0 0'"),
        ("wide.asc", "wide.asc: refusal 1: side or product outside its range: ncols 129, nrows 4, nz 4"),
        ("coarse.asc", "coarse.asc: refusal 3: a setting, origin or point coordinate out of range: xllcorner -0.050, yllcorner 5200000.000, cellsize 1.001, or what was given beside the file"),
        ("short-row.asc", "short-row.asc, line 8: refusal 20: a row is unreadable, or something follows the rows: wanted 5 whole numbers, and has 4; the line is '0 75 76 125'"),
        ("half.asc", "half.asc, line 8: refusal 20: a row is unreadable, or something follows the rows: '76.5', number 3 of the row, is no whole number"),
        ("missing-row.asc", "missing-row.asc, line 10: refusal 20: a row is unreadable, or something follows the rows: wanted 5 whole numbers, and has 0; the line is blank"),
        ("behind.asc", "behind.asc, line 11: refusal 20: a row is unreadable, or something follows the rows: wanted nothing behind the 4 rows; the line is 'x'"),
    ] {
        let refused = skw(&folder.0, &["invert", "4", "0", file, "-o", "new.rec"]);
        assert_eq!(refused.status.code(), Some(1), "{file}");
        assert_eq!(text(&refused.stderr), format!("skw invert: {told}\n"));
        assert!(!folder.0.join("new.rec").exists());
    }
    // The corner that GDAL writes of 512339.950, to the nearest millimetre.
    let near = skw(&folder.0, &["invert", "4", "0", "gdal-corner.asc", "--nearest", "-q"]);
    assert_eq!(near.status.code(), Some(0), "{}", text(&near.stderr));
    assert_eq!(Grid::read(&near.stdout).unwrap().site.origin, Point::new(512_339_950, 5_200_000_000, 0));

    for (words, status) in [
        (&["invert", "figure.asc"][..], 2),
        (&["invert", "4", "figure.asc"], 2),
        (&["invert", "4", "0", "figure.asc", "more"], 2),
        (&["invert", "4", "0", "figure.asc", "-g", "1,2"], 2),
        (&["invert", "4", "0", "figure.asc", "-p", "0"], 1),
        (&["invert", "2", "0", "figure.asc"], 1),
        (&["invert", "4", "10000000001", "figure.asc"], 1),
        (&["invert", "4", "0", "no.asc"], 3),
        (&["invert", "4", "0", "figure.asc", "-o", "no/such.rec"], 3),
        (&["depths", "figure.asc"], 1),
        (&["depths", "no.rec"], 3),
        (&["depths", "a", "b"], 2),
    ] {
        let refused = skw(&folder.0, words);
        assert_eq!((refused.status.code(), text(&refused.stdout)), (Some(status), ""), "{words:?}");
    }
    for command in ["invert", "depths"] {
        let help = skw(&folder.0, &["help", command]);
        assert!(text(&help.stdout).contains("-9999"));
        assert!(text(&help.stdout).lines().all(|line| line.len() <= 82));
    }
}

#[test]
fn the_depth_map_of_a_record() {
    let folder = Folder::new("map");
    let mut grid = Grid::new(Sides::new(3, 3, 3)).unwrap();
    grid.set_interface(13, ONE / 2).unwrap();
    let settings = Settings { p: 1024, gx: 0, gy: 0, gz: 0 };
    let site = Site { edge: 1000, origin: Point::new(-1, 999, 0) };
    fs::write(folder.0.join("small.rec"), grid.write(settings, site).unwrap()).unwrap();
    let told = skw(&folder.0, &["depths", "small.rec"]);
    assert_eq!((told.status.code(), text(&told.stderr)), (Some(0), ""));
    assert_eq!(
        text(&told.stdout),
        "ncols 3\nnrows 3\nxllcorner -0.001\nyllcorner 0.999\ncellsize 1.000\nNODATA_value -9999\n\
         -9999 -9999 -9999\n-9999 500 -9999\n-9999 -9999 -9999\n"
    );
}
