// Height grids on texts and sets by seed. The reader: good texts in many spellings, damaged ones, two small texts damaged byte by byte and cut at every
// byte. The writer: good and damaged sets, rooms of every length around the text's, and what it writes read back. After each call the answer and every
// lent slice, refused or not, are compared with the independent program's.

mod maps;
mod texts;

use oracle::depths::write;
use oracle::invert::{read, Wish as Given};
use oracle::HeldStore;

use crate::raw;
use crate::report::{apart, Met, Outcome, Total, Wanted, Wish};
use maps::Map;
use texts::{Damage, Text};

/// Texts and maps by seed.
const TEXTS: u64 = 100_000;
const MAPS: u64 = 30_000;
const LARGE: usize = 12;
/// More lengths than the small map's text has.
const ROOMS: usize = 400;

const READ: &Wanted = &[("invert", &["read", "1", "2", "3", "19", "20"])];
const WRITTEN: &Wanted =
    &[("depths", &["written", "1", "2", "3", "4", "5", "6", "12"]), ("invert", &["read"])];

/// The widest number of the record's type stands for one beyond it: both are out of every range.
fn number(wide: i64) -> i32 {
    wide.clamp(i32::MIN.into(), i32::MAX.into()) as i32
}

fn side(wide: usize) -> u32 {
    u32::try_from(wide).unwrap_or(u32::MAX)
}

/// Number, place, nx, ny, edge and corner; then set and index.
struct Told {
    answer: [i128; 7],
    held: HeldStore,
}

/// The library's reading.
fn given(text: &Text) -> Told {
    let mut held = text.held.clone();
    let [gx, gy, gz] = text.gravity;
    // Every number that is answered holds something else before.
    let (mut nx, mut ny, mut edge, mut ox, mut oy, mut place) = (77, 77, 77, 77, 77, 77);
    let (set, index) = (&mut held.set, &mut held.index);
    // Each pointer comes from a slice of the length beside it or from a number of this frame.
    let number = unsafe {
        raw::skw_invert_read(
            text.bytes.as_ptr(),
            text.bytes.len(),
            text.nz,
            text.height,
            text.p,
            gx,
            gy,
            gz,
            set.flags.as_mut_ptr(),
            set.flags.len(),
            set.parts.as_mut_ptr(),
            set.parts.len(),
            set.masses.as_mut_ptr(),
            set.masses.len(),
            set.fills.as_mut_ptr(),
            set.fills.len(),
            set.carry.as_mut_ptr(),
            set.carry.len(),
            index.words.as_mut_ptr(),
            index.words.len(),
            index.count.as_mut_ptr(),
            index.count.len(),
            &mut nx,
            &mut ny,
            &mut edge,
            &mut ox,
            &mut oy,
            &mut place,
        )
    };
    let answer = [number.into(), place as i128, nx as i128, ny as i128, edge.into(), ox.into(), oy.into()];
    Told { answer, held }
}

/// The independent program's reading.
fn wanted(text: &Text) -> Told {
    let mut held = text.held.clone();
    let given =
        Given { nz: side(text.nz), oz: text.height, p: number(text.p), gravity: text.gravity.map(number) };
    let answer = match read(&text.bytes, &given, held.lend_mut()) {
        Ok(head) => {
            let [nx, ny, _] = head.sides.map(i128::from);
            [0, 0, nx, ny, head.settings.edge.into(), head.origin[0].into(), head.origin[1].into()]
        }
        Err(refusal) => [refusal.number.into(), refusal.place.into(), 0, 0, 0, 0, 0],
    };
    Told { answer, held }
}

fn differing<T: PartialEq + std::fmt::Debug>(name: &str, wanted: &[T], given: &[T]) -> Option<String> {
    let i = wanted.iter().zip(given).position(|(wanted, given)| wanted != given)?;
    Some(format!("{name}[{i}]: wanted {:?}, given {:?}", wanted[i], given[i]))
}

/// Where the library's reading differs.
fn unlike(wanted: &Told, given: &Told) -> Option<String> {
    if wanted.answer != given.answer {
        let [wanted, given] = [wanted.answer, given.answer];
        return Some(format!("number, place, nx, ny, edge, x, y: wanted {wanted:?}, given {given:?}"));
    }
    let (a, b) = (&wanted.held, &given.held);
    differing("flags", &a.set.flags, &b.set.flags)
        .or_else(|| differing("parts", &a.set.parts, &b.set.parts))
        .or_else(|| differing("masses", &a.set.masses, &b.set.masses))
        .or_else(|| differing("fills", &a.set.fills, &b.set.fills))
        .or_else(|| differing("carry", &a.set.carry, &b.set.carry))
        .or_else(|| differing("words", &a.index.words, &b.index.words))
        .or_else(|| differing("count", &a.index.count, &b.index.count))
}

/// A text through both readers.
fn read_by_both(text: &Text, name: &str) -> Outcome {
    let (wanted, given) = (wanted(text), given(text));
    let met = match wanted.answer[0] {
        0 => Met::new("invert", "read"),
        number => Met::new("invert", number),
    };
    Outcome { met, differs: unlike(&wanted, &given).map(|text| format!("invert, {name}: {text}")) }
}

/// Number, place and bytes; and the room afterwards.
type Put = ([usize; 3], Vec<u8>);

fn put_by_library(map: &Map) -> Put {
    let mut room = map.room.clone();
    let ([nx, ny, nz], [ox, oy], set) = (map.sides, map.corner, &map.set);
    let (mut bytes, mut place) = (77, 77);
    // As above.
    let number = unsafe {
        raw::skw_depths_write(
            nx,
            ny,
            nz,
            map.edge,
            ox,
            oy,
            set.flags.as_ptr(),
            set.flags.len(),
            set.parts.as_ptr(),
            set.parts.len(),
            set.masses.as_ptr(),
            set.masses.len(),
            set.fills.as_ptr(),
            set.fills.len(),
            set.carry.as_ptr(),
            set.carry.len(),
            room.as_mut_ptr(),
            room.len(),
            &mut bytes,
            &mut place,
        )
    };
    ([number.into(), place, bytes], room)
}

fn put_by_oracle(map: &Map) -> Put {
    let mut room = map.room.clone();
    let sides = map.sides.map(side);
    let answer = match write(sides, number(map.edge), map.corner, map.set.lend(), &mut room) {
        Ok(bytes) => [0, 0, bytes],
        Err(refusal) => [refusal.number as usize, refusal.place as usize, 0],
    };
    (answer, room)
}

/// A map through both writers; what is written, through both readers.
fn written_by_both(map: &Map, name: &str) -> Vec<Outcome> {
    let (wanted, given) = (put_by_oracle(map), put_by_library(map));
    let differs = if wanted.0 == given.0 {
        apart(&wanted.1, &given.1)
    } else {
        Some(format!("number, place, bytes: wanted {:?}, given {:?}", wanted.0, given.0))
    };
    let met = match wanted.0[0] {
        0 => Met::new("depths", "written"),
        number => Met::new("depths", number),
    };
    let mut outcomes = vec![Outcome { met, differs: differs.map(|text| format!("depths, {name}: {text}")) }];
    if let ([0, _, bytes], room) = wanted {
        let text = Text { bytes: room[..bytes].to_vec(), nz: map.sides[2], ..Text::small(false) };
        let text = Text { held: HeldStore::of(map.set.clone()), ..text };
        outcomes.push(read_by_both(&text, &format!("what is written of {name}")));
    }
    outcomes
}

pub fn compare(wish: &Wish, total: &mut Total) {
    let title = format!("the library's invert on texts, {TEXTS} of them, seeds from {}", wish.from);
    total.compare(&title, wish, TEXTS as usize, READ, |number| {
        let seed = wish.from + number as u64;
        vec![read_by_both(&Text::of(seed), &format!("text seed {seed}"))]
    });

    let title =
        format!("the library's depth map on sets, {MAPS} of them, seeds from {}, and read back", wish.from);
    total.compare(&title, wish, MAPS as usize, WRITTEN, |number| {
        let seed = wish.from + number as u64;
        written_by_both(&Map::of(seed), &format!("map seed {seed}"))
    });

    for second in [false, true] {
        let name = if second { "the small text in other spellings" } else { "the small text" };
        let count = Damage::count(second);
        let title = format!(
            "the library's invert on {name}: every byte made another, put in, left out, and cut there"
        );
        total.compare(&title, wish, count, READ, |number| {
            let damage = Damage::of(second, number);
            vec![read_by_both(&damage.text, &format!("{name}, {} (seed {number})", damage.name))]
        });
    }

    let title = "the library's depth map with room of every length, to a little more than the text's";
    total.compare(title, wish, ROOMS, &[("depths", &["written", "12"])], |number| match Map::rooms(number) {
        Some(map) => written_by_both(&map, &format!("room of {number}, seed {number}")),
        None => Vec::new(),
    });

    let title = "the library's invert and depth map in large boxes, the longest text of any among them";
    let wanted: &Wanted = &[("depths", &["written"]), ("invert", &["read"])];
    total.compare(title, wish, LARGE, wanted, |number| {
        let mut outcomes = written_by_both(&Map::large(number), &format!("large map, seed {number}"));
        outcomes.push(read_by_both(&Text::large(number), &format!("large text, seed {number}")));
        outcomes
    });
}
