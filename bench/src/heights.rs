// What height grids cost: the largest invert read, as this library spells it and as GDAL spells floats, and the largest depth map written, beside a check of
// the same set, which the writer makes too.

use std::time::Instant;

use oracle::ponds;
use oracle::random::Random;
use oracle::sets::Store;
use oracle::HeldStore;

use crate::measure::{Effort, Time};
use crate::native::Heights;

/// The largest there are: as many columns as a grid can have.
const SIDES: [usize; 3] = [128, 128, 16];
const EDGE: i64 = 50;
const CORNER: [i64; 2] = [4_468_120_350, 5_332_604_200];

/// One call.
pub struct Timed {
    pub name: &'static str,
    /// Of the text; none where there is no text.
    pub bytes: Option<usize>,
    pub call: Time,
}

/// A hilly invert; numbers with so many zeros behind a point, and so many blanks before a row.
fn invert(decimals: &str, before: &str) -> Vec<u8> {
    let [nx, ny, _] = SIDES;
    let header = format!(
        "ncols {nx}\nnrows {ny}\nxllcorner 4468120.350\nyllcorner 5332604.200\ncellsize 0.050\nNODATA_value -9999{decimals}\n"
    );
    let random = &mut Random::new(8);
    let mut row = || {
        let values: Vec<String> = (0..nx).map(|_| format!("{}{decimals}", random.between(0, 799))).collect();
        format!("{before}{}\n", values.join(" "))
    };
    (header + &(0..ny).map(|_| row()).collect::<String>()).into_bytes()
}

fn timed(name: &'static str, bytes: Option<usize>, effort: Effort, mut call: impl FnMut()) -> Timed {
    let mut time = |calls: usize| {
        let begin = Instant::now();
        (0..calls).for_each(|_| call());
        begin.elapsed().as_secs_f64() / calls as f64
    };
    let once = time(1);
    let calls = (effort.seconds / once).clamp(1.0, 500.0) as usize;
    Timed { name, bytes, call: Time::of((0..effort.rounds).map(|_| time(calls)).collect()) }
}

pub fn measure(heights: Heights, effort: Effort) -> Vec<Timed> {
    let n = SIDES.iter().product();
    let mut rows = Vec::new();
    let mut held = HeldStore::of(Store::blank(n));
    for (name, text) in [
        ("invert read, plain numbers", invert("", "")),
        ("invert read, three decimals each", invert(".000", " ")),
    ] {
        rows.push(timed(name, Some(text.len()), effort, || {
            (heights.read)(&text, SIDES[2], held.lend_mut()).expect("a good text");
        }));
    }
    let wet = Store::of(&ponds::full(SIDES.map(|side| side as u32), &mut Random::new(8)).state);
    let sets = [
        ("depth map written, dry", "the check of that set alone", &held.set),
        ("depth map written, every cell wet", "the check of that set alone", &wet),
    ];
    for (written, checked, set) in sets {
        let mut room = vec![0; 120_000];
        let bytes = (heights.write)(SIDES, EDGE, CORNER, set.lend(), &mut room).expect("a good state");
        rows.push(timed(written, Some(bytes), effort, || {
            (heights.write)(SIDES, EDGE, CORNER, set.lend(), &mut room).expect("a good state");
        }));
        rows.push(timed(checked, None, effort, || (heights.check)(SIDES, set.lend()).expect("a good state")));
    }
    rows
}
