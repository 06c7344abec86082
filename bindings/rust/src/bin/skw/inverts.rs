// Inverts in: a height grid's text as a record, and what is refused of it told by its line and what stands there.

use skwarzyna::{Grid, Place, Record, Refusal, Settings};

use crate::failure::Failure;

/// The header's keywords by their lines, and what stands behind each.
const HEADER: [(&str, &str); 6] = [
    ("ncols", "a whole number"),
    ("nrows", "a whole number"),
    ("xllcorner", "metres in whole millimetres"),
    ("yllcorner", "metres in whole millimetres"),
    ("cellsize", "metres in whole millimetres"),
    ("NODATA_value", "-9999"),
];
/// A longer line is told by its beginning.
const SHOWN: usize = 60;
/// More digits before the point are refused, and left as they are.
const DIGITS: usize = 12;

pub fn read(name: &str, text: &[u8], nz: usize, height: i64, settings: Settings) -> Result<Record, Failure> {
    let record = Grid::from_invert(text, nz, height, settings);
    record.map_err(|refusal| Failure::Refused(told(refusal, name, &Lines::of(text), nz)))
}

/// A text by its lines, from 1.
struct Lines<'a>(Vec<&'a [u8]>);

impl Lines<'_> {
    fn of(text: &[u8]) -> Lines<'_> {
        Lines(text.split(|&byte| byte == b'\n').collect())
    }

    /// Its words, as far as they are letters; none past the end.
    fn words(&self, line: usize) -> Vec<String> {
        let line = self.0.get(line - 1).copied().unwrap_or_default();
        let words = line.split(|byte| b" \t\r".contains(byte)).filter(|word| !word.is_empty());
        words.map(|word| String::from_utf8_lossy(word).into_owned()).collect()
    }

    fn value(&self, line: usize) -> String {
        self.words(line).get(1).cloned().unwrap_or_default()
    }

    /// A line as it is told.
    fn shown(&self, line: usize) -> String {
        let text = self.words(line).join(" ");
        match text.char_indices().nth(SHOWN) {
            _ if text.is_empty() && line > self.0.len() => "the text ends before it".into(),
            _ if text.is_empty() => "the line is blank".into(),
            Some((end, _)) => format!("the line begins '{}'", &text[..end]),
            None => format!("the line is '{text}'"),
        }
    }
}

fn told(refusal: Refusal, name: &str, lines: &Lines, nz: usize) -> String {
    let Refusal { number, .. } = refusal;
    let words = refusal.words();
    match refusal.at() {
        Place::Line(line) if number == Refusal::HEADER => {
            let (keyword, value) = HEADER[(line - 1).min(5)];
            let shown = lines.shown(line);
            format!("{name}, line {line}: refusal {number}: {words}: wanted {keyword} and {value}; {shown}")
        }
        Place::Line(line) => {
            format!("{name}, line {line}: refusal {number}: {words}: {}", row(lines, line))
        }
        _ if number == Refusal::SIDES => {
            format!("{name}: {refusal}: ncols {}, nrows {}, nz {nz}", lines.value(1), lines.value(2))
        }
        _ if number == Refusal::SETTING => format!(
            "{name}: {refusal}: xllcorner {}, yllcorner {}, cellsize {}, or what was given beside the file",
            lines.value(3),
            lines.value(4),
            lines.value(5)
        ),
        _ => format!("{name}: {refusal}"),
    }
}

/// What is wrong with a row.
fn row(lines: &Lines, line: usize) -> String {
    // A whole number may have a point and zeros behind it.
    let number =
        |line: usize| lines.value(line).split('.').next().and_then(|text| text.parse::<usize>().ok());
    let (columns, rows) = (number(1).unwrap_or(0), number(2).unwrap_or(0));
    let words = lines.words(line);
    if line > 6 + rows {
        return format!("wanted nothing behind the {rows} rows; {}", lines.shown(line));
    }
    if words.len() != columns {
        return format!("wanted {columns} whole numbers, and has {}; {}", words.len(), lines.shown(line));
    }
    match words.iter().position(|word| !is_whole(word)) {
        Some(at) => format!("'{}', number {} of the row, is no whole number", words[at], at + 1),
        None => lines.shown(line),
    }
}

fn is_whole(word: &str) -> bool {
    let digits = |text: &str| !text.is_empty() && text.bytes().all(|byte| byte.is_ascii_digit());
    let word = word.strip_prefix('-').unwrap_or(word);
    let (whole, decimals) = word.split_once('.').unwrap_or((word, "0"));
    digits(whole)
        && whole.len() <= DIGITS
        && !decimals.is_empty()
        && decimals.bytes().all(|byte| byte == b'0')
}

/// The text with corner and cell size to the nearest millimetre: other programs keep them as floats, and may write 512339.950000000012.
pub fn nearest(text: &[u8]) -> Vec<u8> {
    let mut lines: Vec<Vec<u8>> = text.split(|&byte| byte == b'\n').map(<[u8]>::to_vec).collect();
    for line in lines.iter_mut().skip(2).take(3) {
        let Ok(said) = std::str::from_utf8(line) else { continue };
        let words: Vec<&str> = said.split_ascii_whitespace().collect();
        if let [keyword, value] = words[..] {
            if let Some(rounded) = rounded(value) {
                *line = format!("{keyword} {rounded}").into_bytes();
            }
        }
    }
    lines.join(&b'\n')
}

/// A number with more than three decimals as one with three.
fn rounded(word: &str) -> Option<String> {
    let (sign, digits) = match word.strip_prefix('-') {
        Some(digits) => ("-", digits),
        None => ("", word),
    };
    let (whole, decimals) = digits.split_once('.')?;
    let plain = |text: &str| text.bytes().all(|byte| byte.is_ascii_digit());
    if whole.is_empty() || whole.len() > DIGITS || decimals.len() <= 3 || !plain(whole) || !plain(decimals) {
        return None;
    }
    let cut: i64 = format!("{whole}{}", &decimals[..3]).parse().ok()?;
    let near = cut + i64::from(decimals.as_bytes()[3] >= b'5');
    Some(format!("{sign}{}.{:03}", near / 1000, near % 1000))
}

#[cfg(test)]
mod tests {
    use super::*;

    #[test]
    fn corners_to_the_nearest_millimetre() {
        for (word, text) in [
            ("512339.950000000012", Some("512339.950")),
            ("512339.949999999953", Some("512339.950")),
            ("-0.0505", Some("-0.051")),
            ("9.9996", Some("10.000")),
            ("0.050", None),
            ("5", None),
            ("1e3", None),
            ("1.23456x", None),
            ("1234567890123.0000", None),
        ] {
            assert_eq!(rounded(word).as_deref(), text, "{word}");
        }
        let text = b"a\nb\nxllcorner 1.00004\r\nyllcorner 2\ncellsize 0.049999999\r\nc 1.00004\n";
        let wanted = b"a\nb\nxllcorner 1.000\nyllcorner 2\ncellsize 0.050\nc 1.00004\n";
        assert_eq!(nearest(text), wanted);
    }

    #[test]
    fn whole_numbers() {
        for word in ["5", "-0", "005", "5.000", "-9999.0"] {
            assert!(is_whole(word), "{word}");
        }
        for word in ["", "-", "5.", ".5", "5.5", "+5", "1234567890123", "1e3"] {
            assert!(!is_whole(word), "{word}");
        }
    }
}
