// Damaged records by seed: every refusal the reader can give, alone or several at once.

use crate::grid::{Grid, Refusal};
use crate::lattice::density;
use crate::random::Random;
use crate::scenes::{good, Scene};
use crate::settings::REACH;
use crate::state::{
    Cell, CARRY_LIMIT, EMPTY, FLUID, HIGHEST_DENSITY, INTERFACE, LOWEST_DENSITY, MASS_LIMIT, PART_LIMIT,
    TOTAL_LIMIT, WALL,
};

/// Where in the reader's order a fault is found: section (8 after the last), then the test within it.
type Rank = (usize, usize);

/// A fault and its answer; of several the least is the one the reader finds.
#[derive(Clone, Copy, Debug, PartialEq, Eq, PartialOrd, Ord)]
pub struct Fault {
    pub rank: Rank,
    pub refusal: Refusal,
}

impl Fault {
    pub(crate) fn new(rank: Rank, number: u32, place: usize) -> Fault {
        Fault { rank, refusal: Refusal { number, place: place as u64 } }
    }
}

/// A damaged record, the fault the reader must answer, and how many there are. Where bytes were changed
/// at random no answer is fixed.
pub struct Damaged {
    pub bytes: Vec<u8>,
    pub fault: Option<Fault>,
    pub faults: usize,
}

pub(crate) const COUNT_CUT: usize = 0;
pub(crate) const COUNT_WRONG: usize = 1;
pub(crate) const NUMBERS_CUT: usize = 2;
pub(crate) const AFTER: usize = 3;
pub const LEFT_OVER: Rank = (8, 0);
pub(crate) const SETTING: Rank = (8, 1);
pub(crate) const OPEN_LAYER: Rank = (8, 2);
pub(crate) const BROKEN_RULE: Rank = (8, 3);

#[derive(Clone, Copy)]
enum Kind {
    Setting,
    OpenLayer,
    BrokenCell,
    Carry,
    Total,
    Side,
    Count,
    Flag,
    OuterCell,
    Cut,
    LeftOver,
}

const KINDS: [Kind; 11] = [
    Kind::Setting,
    Kind::OpenLayer,
    Kind::BrokenCell,
    Kind::Carry,
    Kind::Total,
    Kind::Side,
    Kind::Count,
    Kind::Flag,
    Kind::OuterCell,
    Kind::Cut,
    Kind::LeftOver,
];

/// Where each section of a record begins, with its count.
pub fn section_starts(scene: &Scene) -> [usize; 7] {
    let n = scene.state.cells.len();
    let interface = scene.state.cells.iter().filter(|cell| cell.flag == INTERFACE).count();
    let flags = 76 + 8 * scene.numbers;
    [0, 16, 40, 68, flags - 4, flags + n, flags + 4 + n + 4 * interface]
}

/// The answer to a record cut to this length.
pub fn cut_refusal(starts: &[usize; 7], length: usize) -> Refusal {
    let start = starts.iter().rev().find(|&&start| start <= length).unwrap_or(&0);
    Refusal { number: 10, place: *start as u64 }
}

/// The damaged record of a seed.
pub fn bad(seed: u64) -> Damaged {
    let random = &mut Random::new(!seed);
    let mut scene = good(seed);
    if random.percent(12) {
        return at_random(random, scene.record());
    }
    let mut kinds = vec![random.pick(&KINDS)];
    while random.percent(40) {
        kinds.push(random.pick(&KINDS));
    }
    let mut faults = Vec::new();

    // First what the record is made from: an open layer moves cells, so it goes before all others.
    let wants = |wanted: fn(&Kind) -> bool| kinds.iter().any(wanted);
    let grid = scene.grid();
    if wants(|kind| matches!(kind, Kind::OpenLayer)) {
        if let Some(place) = open_layer(random, &grid, &mut scene) {
            faults.push(Fault::new(OPEN_LAYER, 5, place));
        }
    }
    for kind in &kinds {
        match kind {
            Kind::Setting => {
                break_setting(random, &mut scene);
                faults.push(Fault::new(SETTING, 3, 0));
            }
            Kind::BrokenCell => {
                if let Some(place) = break_cell(random, &mut scene) {
                    faults.push(Fault::new(BROKEN_RULE, 6, place));
                }
            }
            Kind::Carry => {
                let past = CARRY_LIMIT + random.pick(&[1, 2, 1_000_000]);
                scene.state.carry = random.pick(&[past, -past, i128::from(i64::MIN)]);
                faults.push(Fault::new(BROKEN_RULE, 6, grid.n));
            }
            // Poured or taken out of range, in a record that has them.
            Kind::Total if scene.numbers == 3 => {
                let past = random.pick(&[-1, TOTAL_LIMIT + 1, i128::from(i64::MIN), i128::from(i64::MAX)]);
                let state = &mut scene.state;
                *if random.percent(50) { &mut state.poured } else { &mut state.taken } = past;
                faults.push(Fault::new(BROKEN_RULE, 6, grid.n));
            }
            _ => {}
        }
    }

    // Then its bytes, those that change its length last.
    let starts = section_starts(&scene);
    let whole = scene.record();
    let mut bytes = whole.clone();
    let flags = starts[4] + 4;
    for kind in &kinds {
        match kind {
            Kind::Side => {
                let sides = random.pick(&[
                    [2, 9, 9],
                    [9, 129, 9],
                    [9, 9, 0],
                    [u32::MAX, 3, 3],
                    [65_536, 65_536, 4],
                    [128, 128, 17],
                ]);
                patch(&mut bytes, 4, &sides.map(u32::to_le_bytes).concat());
                faults.push(Fault::new((1, AFTER), 1, 0));
            }
            Kind::Count => {
                let section = random.below(7);
                // From the whole record, lest a second damage mend the first.
                let count = &whole[starts[section]..starts[section] + 4];
                let count = u32::from_le_bytes([count[0], count[1], count[2], count[3]]);
                let wrong = random.pick(&[count.wrapping_sub(1), count + 1, !count]);
                patch(&mut bytes, starts[section], &wrong.to_le_bytes());
                faults.push(Fault::new((section + 1, COUNT_WRONG), 11, section + 1));
            }
            Kind::Flag => {
                let c = random.below(grid.n);
                bytes[flags + c] = random.between(4, 255) as u8;
                faults.push(Fault::new((5, AFTER), 4, c));
            }
            Kind::OuterCell => {
                let outer: Vec<usize> = (0..grid.n).filter(|&c| grid.outer(c)).collect();
                let c = random.pick(&outer);
                bytes[flags + c] = random.pick(&[EMPTY, INTERFACE, FLUID]);
                faults.push(Fault::new((5, AFTER), 4, c));
            }
            _ => {}
        }
    }
    if wants(|kind| matches!(kind, Kind::Cut)) {
        let length = random.below(bytes.len());
        bytes.truncate(length);
        let place = cut_refusal(&starts, length).place as usize;
        let section = starts.iter().filter(|&&start| start <= length).count();
        faults.push(Fault::new(
            (section, if length < place + 4 { COUNT_CUT } else { NUMBERS_CUT }),
            10,
            place,
        ));
    // A scene without water has no cell to break, but bytes can follow any.
    } else if wants(|kind| matches!(kind, Kind::LeftOver)) || faults.is_empty() {
        faults.push(Fault::new(LEFT_OVER, 10, bytes.len()));
        for _ in 0..random.between(1, 9) {
            bytes.push(random.bits() as u8);
        }
    }
    Damaged { bytes, fault: faults.iter().min().copied(), faults: faults.len() }
}

pub(crate) fn patch(bytes: &mut [u8], at: usize, with: &[u8]) {
    bytes[at..at + with.len()].copy_from_slice(with);
}

/// Single bytes changed anywhere, or no record at all.
pub(crate) fn at_random(random: &mut Random, mut bytes: Vec<u8>) -> Damaged {
    if random.percent(10) {
        let length = random.below(300);
        bytes = (0..length).map(|_| random.bits() as u8).collect();
    }
    for _ in 0..random.between(0, 4) {
        if !bytes.is_empty() {
            let at = random.below(bytes.len());
            bytes[at] ^= 1 << random.below(8);
        }
    }
    Damaged { bytes, fault: None, faults: 0 }
}

fn break_setting(random: &mut Random, scene: &mut Scene) {
    let settings = &mut scene.settings;
    match random.below(4) {
        0 => settings.p = random.pick(&[0, 2038, -1, i32::MAX, i32::MIN]),
        1 => {
            settings.gravity =
                random.pick(&[[35, 0, -1048], [1049, 0, 0], [0, i32::MIN, 0], [0, 0, i32::MAX]])
        }
        2 => settings.edge = random.pick(&[0, 1001, -50, i32::MIN]),
        _ => {
            let past = random.pick(&[REACH + 1, -REACH - 1, i64::MAX, i64::MIN]);
            scene.origin[random.below(3)] = past;
        }
    }
}

/// Empties a cell beside fluid, making fluid first where there is none. The place is the lowest fluid
/// cell with an empty one beside it, found by comparing positions.
fn open_layer(random: &mut Random, grid: &Grid, scene: &mut Scene) -> Option<usize> {
    let cells = &mut scene.state.cells;
    let beside = |a: usize, b: usize| {
        let (a, b) = (grid.position(a), grid.position(b));
        let way = [0, 1, 2].map(|axis| a[axis].abs_diff(b[axis]));
        way.iter().all(|&part| part <= 1) && (1..=2).contains(&way.iter().sum::<usize>())
    };
    let liquid: Vec<usize> = (0..grid.n).filter(|&c| cells[c].liquid()).collect();
    if liquid.is_empty() {
        return None;
    }
    let fluid = random.pick(&liquid);
    let open: Vec<usize> = (0..grid.n).filter(|&c| cells[c].flag != WALL && beside(c, fluid)).collect();
    if open.is_empty() {
        return None;
    }
    let emptied = random.pick(&open);
    cells[fluid].flag = FLUID;
    cells[emptied] = Cell::blank(EMPTY);
    let empty: Vec<usize> = (0..grid.n).filter(|&c| cells[c].flag == EMPTY).collect();
    (0..grid.n).find(|&c| cells[c].flag == FLUID && empty.iter().any(|&other| beside(c, other)))
}

/// Breaks a rule of one liquid cell.
fn break_cell(random: &mut Random, scene: &mut Scene) -> Option<usize> {
    let cells = &mut scene.state.cells;
    let liquid: Vec<usize> = (0..cells.len()).filter(|&c| cells[c].liquid()).collect();
    if liquid.is_empty() {
        return None;
    }
    let c = random.pick(&liquid);
    let cell = &mut cells[c];
    let rest = density(&cell.parts) - cell.parts[0];
    match random.below(5) {
        0 => {
            let past = random.pick(&[PART_LIMIT + 1, -PART_LIMIT - 1, i128::from(i32::MIN)]);
            cell.parts[random.below(19)] = past;
        }
        1 => cell.parts[0] = LOWEST_DENSITY - 1 - rest,
        2 => cell.parts[0] = HIGHEST_DENSITY + 1 - rest,
        3 if cell.flag == INTERFACE => {
            cell.mass = random.pick(&[MASS_LIMIT + 1, -MASS_LIMIT - 1, i128::from(i32::MAX)]);
        }
        // Density 300,000 and momentum 100,001 along x.
        _ => {
            cell.parts = [0; 19];
            cell.parts[0] = 199_999;
            cell.parts[1] = 100_001;
        }
    }
    Some(c)
}
