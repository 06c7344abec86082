// Pictures and drawings: a picture's file is read back by a reader of its own, and what is drawn changes with what is there.

use oracle::random::Random;
use oracle::scenes;
use skwarzyna::drawing::{Axis, Drawing, View};
use skwarzyna::picture::{Colour, Letters, Picture, INK, WHITE};
use skwarzyna::{Grid, Point, Refusal, Sides, Site, FULL, ONE};

use std::io::Write;
use std::process::{Command, Stdio};

const SITE: Site = Site { edge: 50, origin: Point::new(5_200_000_000, -1_500, 0) };

/// A PNG file read from the standards (RFC 2083, 1950, 1951): width, rows of colours, and notes.
mod png {
    pub struct Read {
        pub width: usize,
        pub height: usize,
        pub pixels: Vec<[u8; 3]>,
        pub notes: Vec<(String, String)>,
    }

    fn big(bytes: &[u8]) -> u32 {
        u32::from_be_bytes(bytes[..4].try_into().unwrap())
    }

    pub fn read(file: &[u8]) -> Read {
        let mut rest = file.strip_prefix(b"\x89PNG\r\n\x1a\n").expect("no PNG file");
        let (mut head, mut palette, mut packed, mut notes) = (vec![], vec![], vec![], vec![]);
        loop {
            let length = big(rest) as usize;
            let (name, contents) = (&rest[4..8], &rest[8..8 + length]);
            assert_eq!(big(&rest[8 + length..]), crc(&rest[4..8 + length]));
            rest = &rest[12 + length..];
            match name {
                b"IHDR" => head = contents.to_vec(),
                b"PLTE" => palette = contents.to_vec(),
                b"IDAT" => packed.extend(contents),
                b"tEXt" => {
                    let text = String::from_utf8(contents.to_vec()).unwrap();
                    let (keyword, text) = text.split_once('\0').unwrap();
                    notes.push((keyword.to_string(), text.to_string()));
                }
                _ => assert_eq!((name, length, rest.len()), (&b"IEND"[..], 0, 0)),
            }
            if rest.is_empty() {
                break;
            }
        }
        let (width, height) = (big(&head) as usize, big(&head[4..]) as usize);
        let bytes = inflated(&packed);
        let channels = if head[9] == 3 { 1 } else { 3 };
        assert_eq!((head[8], bytes.len()), (8, height * (channels * width + 1)));
        let mut pixels = Vec::new();
        for row in bytes.chunks_exact(channels * width + 1) {
            assert_eq!(row[0], 0, "a filter that is not used");
            pixels.extend(row[1..].chunks_exact(channels).map(|pixel| match *pixel {
                [place] => <[u8; 3]>::try_from(&palette[3 * usize::from(place)..][..3]).unwrap(),
                _ => pixel.try_into().unwrap(),
            }));
        }
        Read { width, height, pixels, notes }
    }

    /// One block with the fixed codes, bit by bit.
    fn inflated(stream: &[u8]) -> Vec<u8> {
        assert_eq!(stream[0] & 15, 8);
        assert_eq!((u32::from(stream[0]) * 256 + u32::from(stream[1])) % 31, 0);
        let mut at = 16;
        let mut bit = || {
            at += 1;
            u32::from(stream[(at - 1) / 8] >> ((at - 1) % 8) & 1)
        };
        assert_eq!([bit(), bit(), bit()], [1, 1, 0]);
        let mut bytes: Vec<u8> = Vec::new();
        loop {
            let mut code = (0..7).fold(0, |code, _| 2 * code + bit());
            let symbol = if code < 24 {
                256 + code
            } else {
                code = 2 * code + bit();
                match code {
                    48..=191 => code - 48,
                    192..=199 => 280 + code - 192,
                    _ => 144 + 2 * code + bit() - 400,
                }
            };
            let mut number = |count: u32| (0..count).map(|place| bit() << place).sum::<u32>();
            match symbol {
                0..=255 => bytes.push(symbol as u8),
                256 => break,
                _ => {
                    // The tables of section 3.2.5, worked out.
                    let length = match symbol - 257 {
                        few @ 0..=7 => 3 + few,
                        28 => 258,
                        class => {
                            let further = class / 4 - 1;
                            3 + ((4 + class % 4) << further) + number(further)
                        }
                    };
                    let class = (0..5).fold(0, |code, _| 2 * code + number(1));
                    let back = match class {
                        0..=3 => 1 + class,
                        _ => {
                            let further = class / 2 - 1;
                            1 + ((2 + class % 2) << further) + number(further)
                        }
                    };
                    for _ in 0..length {
                        bytes.push(bytes[bytes.len() - back as usize]);
                    }
                }
            }
        }
        let end = at.div_ceil(8);
        assert_eq!(stream.len(), end + 4);
        let (mut a, mut b) = (1u64, 0u64);
        for &byte in &bytes {
            a = (a + u64::from(byte)) % 65_521;
            b = (b + a) % 65_521;
        }
        assert_eq!(u64::from(big(&stream[end..])), 65_536 * b + a);
        bytes
    }

    /// The remainder of division by the polynomial, bit by bit.
    fn crc(bytes: &[u8]) -> u32 {
        let mut rest = u32::MAX;
        for byte in bytes {
            for place in 0..8 {
                let odd = (rest ^ u32::from(byte >> place)) & 1;
                rest = (rest >> 1) ^ (odd * 0xedb8_8320);
            }
        }
        !rest
    }

    #[test]
    fn the_check_is_that_of_the_standard() {
        assert_eq!(crc(b"123456789"), 0xcbf4_3926);
    }
}

fn same(picture: &Picture) -> png::Read {
    let read = png::read(&picture.png());
    assert_eq!((read.width, read.height), (picture.width(), picture.height()));
    for (at, colour) in read.pixels.iter().enumerate() {
        assert_eq!(picture.pixel(at % read.width, at / read.width), Some(*colour));
    }
    read
}

#[test]
fn pictures_are_read_back() {
    let random = &mut Random::new(3);
    let mut byte = |below: usize| random.below(below) as u8;
    for (width, height, colours) in
        [(1, 1, 2), (7, 5, 3), (300, 40, 2), (90, 70, 256), (513, 3, 40), (40, 1500, 5)]
    {
        let mut picture = Picture::new(width, height);
        same(&picture);
        for (x, y) in (0..height).flat_map(|y| (0..width).map(move |x| (x, y))) {
            picture.fill(x, y, 1, 1, [byte(colours), byte(colours), byte(colours)]);
        }
        same(&picture);
        // Long repetitions, and some of every length.
        picture.fill(width / 3, height / 4, width, height, WHITE);
        for y in 0..height {
            picture.fill(0, y, y, 1, INK);
        }
        picture.text(3, 3, "Water: 1,234", Letters(2), INK);
        same(&picture);
    }
}

#[test]
fn what_is_drawn_over_the_edge_is_left_out() {
    let mut picture = Picture::new(20, 10);
    picture.fill(18, 8, 100, 100, INK);
    picture.fill(100, 100, 5, 5, INK);
    picture.frame(15, 0, 50, 5, INK);
    picture.text(0, 8, "over the edge", Letters(3), INK);
    picture.line((0, 0), (40, 20), INK);
    assert_eq!(picture.pixel(19, 9), Some(INK));
    assert_eq!((picture.pixel(20, 0), picture.pixel(0, 10)), (None, None));
    same(&picture);
}

fn drawn(grid: &Grid, view: View) -> Picture {
    Drawing::new(grid, SITE, view).unwrap().picture()
}

fn count(picture: &Picture, wanted: Colour) -> usize {
    let all = (0..picture.height()).flat_map(|y| (0..picture.width()).map(move |x| (x, y)));
    all.filter(|&(x, y)| picture.pixel(x, y) == Some(wanted)).count()
}

#[test]
fn every_view_of_any_grid_is_a_picture() {
    for seed in 0..40 {
        let record = Grid::read(&scenes::good(seed).record()).unwrap();
        let sides = record.grid.sides();
        for view in [
            View::Above,
            View::Section(Axis::X, sides.nx - 1),
            View::Section(Axis::Y, sides.ny / 2),
            View::Section(Axis::Z, 1),
        ] {
            let drawing = Drawing::new(&record.grid, record.site, view).unwrap();
            let read = png::read(&drawing.picture().png());
            // The balance to the unit is told in the file too.
            let description = &read.notes.iter().find(|(keyword, _)| keyword == "Description").unwrap().1;
            let total = skwarzyna::spelling::grouped(record.grid.total());
            assert!(description.contains(&format!("total {total}\n")));
            assert!(drawing.text().contains(&format!(" {total}\n")));
        }
        for axis in [Axis::X, Axis::Y, Axis::Z] {
            let side = [sides.nx, sides.ny, sides.nz][axis as usize];
            let outside = Drawing::new(&record.grid, record.site, View::Section(axis, side));
            assert_eq!(outside.unwrap_err(), Refusal { number: Refusal::OUTSIDE, place: 0 });
        }
    }
}

#[test]
fn nothing_is_cut_off() {
    // The margin stays white, however the grid lies.
    for sides in [Sides::new(3, 3, 3), Sides::new(128, 3, 3), Sides::new(3, 128, 3), Sides::new(128, 128, 16)]
    {
        let mut grid = Grid::new(sides).unwrap();
        grid.set_interface(sides.cell(1, 1, 1).unwrap(), ONE).unwrap();
        for view in
            [View::Above, View::Section(Axis::X, 1), View::Section(Axis::Y, 1), View::Section(Axis::Z, 1)]
        {
            let far = Point::new(-9_999_999_999, -9_999_999_999, -9_999_999_999);
            let drawing = Drawing::new(&grid, Site { edge: 1000, origin: far }, view).unwrap();
            let long = drawing.clone().named("a name of a record that is longer than any name should be");
            for picture in [drawing.picture(), long.picture()] {
                let (width, height) = (picture.width(), picture.height());
                let edge = |x: usize, y: usize| x < 20 || y < 20 || x + 20 >= width || y + 20 >= height;
                for (x, y) in (0..height).flat_map(|y| (0..width).map(move |x| (x, y))) {
                    assert!(!edge(x, y) || picture.pixel(x, y) == Some(WHITE), "{sides:?} {view:?} {x} {y}");
                }
                assert!(width < 1400 && height < 1400, "{sides:?} {view:?} {width} {height}");
            }
        }
    }
}

#[test]
fn each_cell_is_a_square_of_its_kind() {
    const WALL: Colour = [150, 146, 138];
    const FLUID: Colour = [26, 92, 160];
    let sides = Sides::new(12, 5, 6);
    let section = View::Section(Axis::Y, 2);
    let mut grid = Grid::new(sides).unwrap();
    let mut counts = Vec::new();
    for x in 1..6 {
        counts.push([WALL, FLUID].map(|colour| count(&drawn(&grid, section), colour) as i64));
        grid.set_fluid(sides.cell(x, 2, 1).unwrap(), ONE).unwrap();
        grid.set_wall(sides.cell(x + 5, 2, 4).unwrap()).unwrap();
    }
    // One square more of each every time.
    let square = counts[1][0] - counts[0][0];
    assert!(square > 16 * 16);
    for pair in counts.windows(2) {
        assert_eq!((pair[1][0] - pair[0][0], pair[1][1] - pair[0][1]), (square, square));
    }

    // Water in another section is seen from above and not here.
    let (before, above) = (drawn(&grid, section), drawn(&grid, View::Above));
    grid.set_interface(sides.cell(8, 3, 1).unwrap(), ONE / 4).unwrap();
    let squares = |picture: &Picture| {
        let width = picture.width();
        (0..440 * width).map(|at| picture.pixel(at % width, at / width)).collect::<Vec<_>>()
    };
    assert_eq!(squares(&before), squares(&drawn(&grid, section)));
    assert_ne!(squares(&above), squares(&drawn(&grid, View::Above)));
}

#[test]
fn a_fuller_interface_cell_shows_more_water() {
    const SURFACE: Colour = [74, 154, 208];
    let sides = Sides::new(4, 3, 3);
    let water = |mass: i32| {
        let mut grid = Grid::new(sides).unwrap();
        grid.set_interface(17, mass).unwrap();
        count(&drawn(&grid, View::Section(Axis::Y, 1)), SURFACE)
    };
    // The legend shows a little as well. A square of 64 has two edges, the upper one above the water.
    let legend = water(0);
    for quarters in 1..4 {
        assert_eq!(water(ONE / 4 * quarters) - legend, 63 * 16 * quarters as usize);
    }
    assert_eq!(water(ONE) - legend, 63 * 63);
    assert_eq!(water(2 * ONE), water(ONE));
}

#[test]
fn drawings_are_told_as_text() {
    let sides = Sides::new(12, 4, 5);
    let mut grid = Grid::new(sides).unwrap();
    for x in 1..8 {
        grid.set_wall(sides.cell(x, 2, 1).unwrap()).unwrap();
    }
    grid.set_fluid(sides.cell(9, 1, 1).unwrap(), ONE).unwrap();
    grid.set_interface(sides.cell(9, 1, 2).unwrap(), ONE / 2).unwrap();
    for z in 1..4 {
        grid.set_wall(sides.cell(3, 1, z).unwrap()).unwrap();
    }
    let told = |view: View| Drawing::new(&grid, SITE, view).unwrap().named("gutter").text();
    let balance = "\
fluid cells                                1
interface cells                            9
empty cells                               40
wall cells                               190
water in units, 589,824 to a full cell
in fluid cells                       589,824
in interface cells                   294,912
carry                                      0
total                                884,736
total in litres                        0.188
";
    let section = "\
gutter: Section at y = 1
12 x 4 x 5 cells of 50 mm
metres from the origin, x 5,200,000.000, y -1.500, z 0.000

    z
    4 ############
      #..#.......#
      #..#....050#
      #..#....0w0#
    0 ############
      0         10  x

# wall, . empty, 0 to 9 interface by tenths of its fill, w fluid

";
    assert_eq!(told(View::Section(Axis::Y, 1)), format!("{section}{balance}"));
    let above = "\
gutter: Depth from above
12 x 4 x 5 cells of 50 mm
metres from the origin, x 5,200,000.000, y -1.500, z 0.000

    y
    3 ############
      #..........#
      #..#.....9.#
    0 ############
      0         10  x

# solid, . dry, 0 to 9 tenths of 1.50 cells; the deepest has 1.50, 75.0 mm

";
    assert_eq!(told(View::Above), format!("{above}{balance}"));
    assert_eq!(grid.state().fills[sides.cell(9, 1, 2).unwrap()], FULL / 2);
}

#[test]
fn skw_draws_the_same() {
    let bytes = scenes::good(5).record();
    let record = Grid::read(&bytes).unwrap();
    let section = View::Section(Axis::X, 1);
    for (words, view, darkest) in [
        (&["draw"][..], View::Above, None),
        (&["draw", "--deepest", "20"], View::Above, Some(20.0)),
        (&["draw", "-s", "x=1"], section, None),
        (&["draw", "--section=x=1", "--deepest=20"], section, Some(20.0)),
    ] {
        let mut child = Command::new(env!("CARGO_BIN_EXE_skw"))
            .args(words)
            .stdin(Stdio::piped())
            .stdout(Stdio::piped())
            .spawn()
            .unwrap();
        child.stdin.take().unwrap().write_all(&bytes).unwrap();
        let output = child.wait_with_output().unwrap();
        assert!(output.status.success());
        let mut drawing = Drawing::new(&record.grid, record.site, view).unwrap();
        if let Some(cells) = darkest {
            let plain = drawing.picture();
            drawing = drawing.darkest_at(cells);
            // From above the blues are others; a section has none.
            assert_eq!(drawing.picture() == plain, view == section);
        }
        let (ours, read) = (drawing.picture(), png::read(&output.stdout));
        assert_eq!((ours.width(), ours.height()), (read.width, read.height));
        let all = (0..read.pixels.len()).map(|at| (at % read.width, at / read.width));
        assert!(all.zip(&read.pixels).all(|((x, y), colour)| ours.pixel(x, y) == Some(*colour)), "{words:?}");
    }
}

#[test]
fn pictures_are_pasted() {
    let (mut sheet, mut stamp) = (Picture::new(5, 4), Picture::new(3, 2));
    stamp.fill(0, 0, 3, 2, INK);
    sheet.paste(1, 1, &stamp);
    // What lies over the edge is left out.
    sheet.paste(4, 3, &stamp);
    let inked = |x: usize, y: usize| (1..4).contains(&x) && (1..3).contains(&y) || (x, y) == (4, 3);
    for (x, y) in (0..4).flat_map(|y| (0..5).map(move |x| (x, y))) {
        assert_eq!(sheet.pixel(x, y), Some(if inked(x, y) { INK } else { WHITE }), "{x} {y}");
    }
}
