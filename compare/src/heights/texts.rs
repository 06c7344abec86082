// Texts of height grids by seed, spelled in the many ways that are taken, and few faults or none; and two small texts damaged byte by byte.

use oracle::random::Random;
use oracle::{HeldStore, Store};

use crate::lengths::{changed, CHANGES};

/// What the reader is given and lent; numbers and lengths may be wrong.
#[derive(Clone)]
pub struct Text {
    pub bytes: Vec<u8>,
    pub nz: usize,
    pub height: i64,
    pub p: i64,
    pub gravity: [i64; 3],
    /// It holds anything.
    pub held: HeldStore,
}

const KEYWORDS: [&str; 6] = ["ncols", "nrows", "xllcorner", "yllcorner", "cellsize", "NODATA_value"];
const REACH: i128 = 10_000_000_000;

/// Words that are numbers, nearly are, or are not at all.
const WORDS: [&str; 44] = [
    "5",
    "005",
    "5.0",
    "5.000000",
    "-0",
    "-0.000",
    "0.05",
    "0.050",
    "0.0500000",
    "-9999",
    "-9999.0",
    "+5",
    "--5",
    "5.",
    ".5",
    "1e3",
    "1,5",
    "five",
    "0.0005",
    "0.00005",
    "1234567890123",
    "123456789012",
    "-123456789012",
    "-",
    ".",
    "-.",
    "0.",
    "-.5",
    "5-",
    "5.0.0",
    "5.-0",
    "0000000000001",
    "000000000001",
    "0.1234",
    "0.1230",
    "999999999999.999",
    "1001",
    "1.001",
    "-1",
    "2",
    "129",
    "x",
    "nan",
    "4294967300",
];

/// A number of cells, and the slices that a grid with so many wants.
fn anything(n: usize, random: &mut Random) -> HeldStore {
    let mut held = HeldStore::of(Store {
        flags: vec![0; n],
        parts: vec![random.bits() as i32; 19 * n],
        masses: vec![random.bits() as i32; n],
        fills: vec![random.bits() as u32; n],
        carry: (0..3).map(|_| random.bits() as i64).collect(),
    });
    held.set.flags.fill_with(|| random.bits() as u8);
    held.index.words.fill_with(|| random.bits());
    held.index.count[0] = random.bits();
    held
}

/// The way of one text: blanks, cases and ends as its writer has them, or any at each place.
struct Hand {
    between: &'static [&'static str],
    before: &'static [&'static str],
    behind: &'static [&'static str],
    end: &'static [&'static str],
    /// Whether numbers are spelled plainly.
    plain: bool,
    letters: usize,
}

impl Hand {
    fn of(random: &mut Random) -> Hand {
        match random.below(5) {
            // As this library writes it.
            0 => {
                Hand { between: &[" "], before: &[""], behind: &[""], end: &["\n"], plain: true, letters: 0 }
            }
            // GDAL's rows begin with a blank.
            1 => Hand {
                between: &[" ", "        "],
                before: &["", " "],
                behind: &[""],
                end: &["\n"],
                plain: false,
                letters: 0,
            },
            // ArcGIS's end with one, before CRLF.
            2 => Hand {
                between: &["  ", "\t"],
                before: &[""],
                behind: &["", " "],
                end: &["\r\n"],
                plain: false,
                letters: 1,
            },
            _ => Hand {
                between: &[" ", "  ", "\t", " \t ", "\r", " \r"],
                before: &["", "", " ", "\t", "\r"],
                behind: &["", "", " ", "\t", "\r", "   "],
                end: &["\n", "\r\n", " \n"],
                plain: false,
                letters: 2,
            },
        }
    }

    fn keyword(&self, line: usize, random: &mut Random) -> String {
        let keyword = KEYWORDS[line];
        match self.letters {
            0 => keyword.into(),
            1 => keyword.to_ascii_uppercase(),
            _ => keyword
                .chars()
                .map(|letter| {
                    if random.percent(50) {
                        letter.to_ascii_uppercase()
                    } else {
                        letter.to_ascii_lowercase()
                    }
                })
                .collect(),
        }
    }

    /// Thousandths as a number of at least so many decimals.
    fn number(&self, thousandths: i128, decimals: usize, random: &mut Random) -> String {
        let sign = match thousandths {
            0 if !self.plain && random.percent(20) => "-",
            0.. => "",
            _ => "-",
        };
        let size = thousandths.abs();
        let mut whole = (size / 1000).to_string();
        let mut behind = format!("{:03}", size % 1000);
        if !self.plain {
            if random.percent(15) {
                let zeros = random.below(13 - whole.len().min(12));
                whole.insert_str(0, &"0".repeat(zeros));
            }
            while behind.len() > decimals && behind.ends_with('0') && random.percent(80) {
                behind.pop();
            }
            if behind.len() == 3 && random.percent(30) {
                behind += &"0".repeat(random.below(10));
            }
        } else if decimals == 0 {
            behind.clear();
        }
        let point = if behind.is_empty() { "" } else { "." };
        format!("{sign}{whole}{point}{behind}")
    }

    /// A line of these words.
    fn line(&self, words: &[String], random: &mut Random) -> String {
        let mut line = random.pick(self.before).to_string();
        for (at, word) in words.iter().enumerate() {
            if at > 0 {
                line += random.pick(self.between);
            }
            line += word;
        }
        line + random.pick(self.behind) + random.pick(self.end)
    }
}

/// A height: at and beside a cell's centre, far below or above, none, or any.
fn height(random: &mut Random, nz: usize, edge: i128) -> i128 {
    let centre = (2 * random.below(nz + 1) as i128 + 1) * edge / 2;
    match random.below(12) {
        0 | 1 => -9999,
        2 => random.pick(&[-9998, -10_000, 9999, -1, 0, 1, 999_999_999_999, -999_999_999_999]),
        3..=8 => centre + random.pick(&[-1, 0, 0, 1, 2]),
        _ => random.between(-edge, (nz as i128 + 1) * edge),
    }
}

impl Text {
    /// The text of a seed: two fifths of them are good.
    pub fn of(seed: u64) -> Text {
        let random = &mut Random::new(seed ^ 0x4e16_4750_0000_0000);
        let most = if random.percent(4) { 40 } else { 7 };
        let mut text = Text::good([(); 3].map(|_| random.between(3, most) as usize), random);
        if random.percent(60) {
            text.fault(random);
            while random.percent(30) {
                text.fault(random);
            }
        }
        text
    }

    /// A large text, or one of the longest numbers.
    pub fn large(number: usize) -> Text {
        let random = &mut Random::new(number as u64);
        Text::good(random.pick(&[[128, 128, 16], [128, 16, 128], [16, 128, 128], [64, 64, 64]]), random)
    }

    fn good([nx, ny, nz]: [usize; 3], random: &mut Random) -> Text {
        let hand = Hand::of(random);
        let edge = match random.below(4) {
            0 => random.pick(&[1, 2, 1000, 999, 10, 100]),
            _ => random.between(1, 1000),
        };
        let mut corner = || match random.below(4) {
            0 => random.pick(&[-REACH, REACH, 0, -1, 1, -50, -999, -1000, 5_200_000_000]),
            1 => random.between(-2000, 2000),
            _ => random.between(-REACH, REACH),
        };
        let (x, y) = (corner(), corner());
        let header = [1000 * nx as i128, 1000 * ny as i128, x, y, edge, -9_999_000];
        let mut text = String::new();
        for (line, &value) in header.iter().enumerate() {
            // In plain writing metres have three decimals, and all else none.
            let decimals = if hand.plain && (2..5).contains(&line) { 3 } else { 0 };
            let words = [hand.keyword(line, random), hand.number(value, decimals, random)];
            text += &hand.line(&words, random);
        }
        for _ in 0..ny {
            let words: Vec<String> =
                (0..nx).map(|_| hand.number(1000 * height(random, nz, edge), 0, random)).collect();
            text += &hand.line(&words, random);
        }
        match random.below(5) {
            0 => text.truncate(text.trim_end_matches('\n').len()),
            1 => text += random.pick(&["\n", "\r\n\r\n", " \n\t\n", "  "]),
            _ => {}
        }
        let mut gravity = || random.between(-600, 600) as i64;
        let gravity = [gravity(), gravity(), gravity()];
        Text {
            bytes: text.into_bytes(),
            nz,
            height: random.between(-REACH, REACH) as i64,
            p: random.between(1, 2037) as i64,
            gravity,
            held: anything(nx * ny * nz, random),
        }
    }

    /// Section 4's invert as it stands, or with CRLF, tabs, capitals and zeros.
    pub fn small(second: bool) -> Text {
        let plain =
            "ncols 5\nnrows 4\nxllcorner -0.050\nyllcorner 5200000.000\ncellsize 0.050\nNODATA_value -9999\n\
                     0 0 0 0 0\n0 75 76 125 0\n0 126 -9999 -40 0\n0 0 0 0 0\n";
        let other = "NCOLS\t5.000\r\n nrows 4\r\nxllCorner -0.05\r\nyllcorner 5200000\r\n  CellSize  0.05000000 \r\n\
                     nodata_value -9999.0\r\n0 -0 00 0.0 0\r\n 0 75 76 125 0 \r\n0\t126\t-9999.000\t-40\t0\r\n0 0 0 0 0\r\n\r\n";
        let bytes = if second { other } else { plain }.into();
        let held = anything(80, &mut Random::new(second.into()));
        Text { bytes, nz: 4, height: 7, p: 1024, gravity: [0, 0, -1024], held }
    }

    /// One thing made wrong, or at least another.
    fn fault(&mut self, random: &mut Random) {
        match random.below(20) {
            0 => self.nz = random.pick(&[0, 2, 129, 1 << 32, usize::MAX, (1 << 32) + 4]),
            1 => self.p = random.pick(&[0, -1, 2038, i64::MIN, i64::MAX, (1 << 32) + 5]),
            2 => self.gravity[random.below(3)] = random.pick(&[1049, -1049, i64::MIN, i64::MAX, 1 << 32]),
            3 => {
                self.height = random.pick(&[1, -1]) * random.pick(&[REACH as i64, REACH as i64 + 1, i64::MAX])
            }
            4 | 5 => match random.below(7) {
                0 => changed(&mut self.held.set.flags, random.below(CHANGES)),
                1 => changed(&mut self.held.set.parts, random.below(CHANGES)),
                2 => changed(&mut self.held.set.masses, random.below(CHANGES)),
                3 => changed(&mut self.held.set.fills, random.below(CHANGES)),
                4 => changed(&mut self.held.set.carry, random.below(CHANGES)),
                5 => changed(&mut self.held.index.words, random.below(CHANGES)),
                _ => changed(&mut self.held.index.count, random.below(CHANGES)),
            },
            6 => self.bytes.truncate(random.below(self.bytes.len() + 1)),
            7 => {
                let more = random.pick(&["x", "0", "\n0", "\n\n-9999 ", " \u{a0}", "\0", "\n\t."]);
                self.bytes.extend_from_slice(more.as_bytes());
            }
            8 => self.lines(|lines, random| drop(lines.remove(random.below(lines.len()))), random),
            9 => self.lines(
                |lines, random| {
                    let at = random.below(lines.len());
                    lines.insert(at, lines[at].clone());
                },
                random,
            ),
            10 => self.lines(|lines, random| lines.insert(random.below(lines.len()), Vec::new()), random),
            11 => self.lines(
                |lines, random| {
                    let count = lines.len();
                    lines.swap(random.below(count), random.below(count));
                },
                random,
            ),
            // A header's number out of range, or unreadable.
            12 | 13 => self.lines(
                |lines, random| {
                    let line = random.below(lines.len().min(6));
                    let value = match line {
                        0 | 1 => random.pick(&["2", "-5", "129", "1000000", "4294967299", "3.5", "0", "128"]),
                        2 | 3 => random.pick(&[
                            "10000000.001",
                            "-10000000.001",
                            "10000000",
                            "-0.0505",
                            "1e5",
                            "-10000000.000",
                        ]),
                        4 => random.pick(&["0", "1.001", "1", "-0.050", "0.0005", "4294967.346", "0.001"]),
                        _ => random.pick(&["-1", "9999", "-9999.001", "-9999.0000", "-09999", "-99990"]),
                    };
                    lines[line] = format!("{} {value}", KEYWORDS[line]).into_bytes();
                },
                random,
            ),
            14..=16 => self.lines(
                |lines, random| {
                    let at = random.below(lines.len());
                    let line = String::from_utf8_lossy(&lines[at]).into_owned();
                    let mut words: Vec<&str> = line.split_ascii_whitespace().collect();
                    let word = random.pick(&WORDS);
                    match random.below(4) {
                        0 => words.push(word),
                        1 => drop(words.pop()),
                        _ if words.is_empty() => words.push(word),
                        _ => {
                            let place = random.below(words.len());
                            words[place] = word;
                        }
                    }
                    lines[at] = words.join(" ").into_bytes();
                },
                random,
            ),
            _ => {
                let at = random.below(self.bytes.len().max(1));
                match random.below(3) {
                    0 if at < self.bytes.len() => drop(self.bytes.remove(at)),
                    1 => self.bytes.insert(at.min(self.bytes.len()), random.pick(&VALUES)),
                    _ => {
                        if let Some(byte) = self.bytes.get_mut(at) {
                            *byte = random.pick(&VALUES);
                        }
                    }
                }
            }
        }
    }

    /// The text with its lines changed.
    fn lines(&mut self, change: fn(&mut Vec<Vec<u8>>, &mut Random), random: &mut Random) {
        let mut lines: Vec<Vec<u8>> = self.bytes.split(|&byte| byte == b'\n').map(<[u8]>::to_vec).collect();
        change(&mut lines, random);
        self.bytes = lines.join(&b'\n');
    }
}

/// What a byte is made: blanks and ends, signs, digits, letters, and bytes that are no letter of any text.
pub const VALUES: [u8; 24] = *b"\n\r\t +-.0159,eENx_a\x00\x0b\x0c\x7f\x80\xff";

/// A damage of a small text by its number: a byte made another, left out or put in, or the text cut there.
pub struct Damage {
    pub name: String,
    pub text: Text,
}

/// For each byte, and the place behind the last: every value there, every value put in, the byte left out, the text cut.
const DAMAGES: usize = 2 * VALUES.len() + 2;

impl Damage {
    pub fn count(second: bool) -> usize {
        (Text::small(second).bytes.len() + 1) * DAMAGES
    }

    pub fn of(second: bool, number: usize) -> Damage {
        let mut text = Text::small(second);
        let (at, way) = (number / DAMAGES, number % DAMAGES);
        let bytes = &mut text.bytes;
        let name = match way {
            0 => {
                bytes.truncate(at);
                format!("its first {at} bytes")
            }
            1 => {
                if at < bytes.len() {
                    bytes.remove(at);
                }
                format!("without byte {at}")
            }
            _ => {
                let value = VALUES[(way - 2) / 2];
                if way % 2 == 0 && at < bytes.len() {
                    bytes[at] = value;
                    format!("byte {at} made {value}")
                } else {
                    bytes.insert(at, value);
                    format!("{value} put in at byte {at}")
                }
            }
        };
        Damage { name, text }
    }
}
