// Damaged records of the flume by seed: every refusal the reader can give, alone or several at once.

use crate::damage::{
    at_random, cut_refusal, patch, Damaged, Fault, AFTER, BROKEN_RULE, COUNT_CUT, COUNT_WRONG, LEFT_OVER,
    NUMBERS_CUT, OPEN_LAYER, SETTING,
};
use crate::flume::lattice::Flow;
use crate::flume::record::section_starts;
use crate::flume::scenes::{good, Scene};
use crate::flume::state::Cell;
use crate::random::Random;
use crate::settings::REACH;
use crate::state::{
    CARRY_LIMIT, EMPTY, FLUID, HIGHEST_DENSITY, INTERFACE, LOWEST_DENSITY, MASS_LIMIT, PART_LIMIT, WALL,
};

/// What is done to a scene before it is written, and to its bytes after.
#[derive(Clone, Copy, PartialEq, Eq)]
enum Kind {
    OpenLayer,
    Setting,
    BrokenCell,
    Carry,
    Side,
    Count,
    Flag,
    OuterCell,
    Cut,
    LeftOver,
}

const KINDS: [Kind; 10] = [
    Kind::OpenLayer,
    Kind::Setting,
    Kind::BrokenCell,
    Kind::Carry,
    Kind::Side,
    Kind::Count,
    Kind::Flag,
    Kind::OuterCell,
    Kind::Cut,
    Kind::LeftOver,
];

/// Where the sections of a scene's record begin.
pub fn starts_of(scene: &Scene) -> [usize; 7] {
    let cells = &scene.state.cells;
    section_starts(cells.len(), cells.iter().filter(|cell| cell.flag == INTERFACE).count())
}

/// The damaged record of a seed.
pub fn bad(seed: u64) -> Damaged {
    let random = &mut Random::new(!seed);
    let mut scene = good(seed);
    if random.percent(12) {
        return at_random(random, scene.record());
    }
    let mut kinds = vec![random.pick(&KINDS)];
    while random.percent(40) {
        kinds.push(random.pick(&KINDS));
    }
    // An open layer moves cells, so it goes before all others, and once.
    if kinds.contains(&Kind::OpenLayer) {
        kinds.retain(|kind| *kind != Kind::OpenLayer);
        kinds.insert(0, Kind::OpenLayer);
    }
    let mut faults: Vec<Fault> =
        kinds.iter().filter_map(|&kind| break_scene(random, &mut scene, kind)).collect();

    let starts = starts_of(&scene);
    let whole = scene.record();
    let mut bytes = whole.clone();
    for kind in &kinds {
        faults.extend(break_bytes(random, &scene, &whole, &mut bytes, *kind));
    }
    if kinds.contains(&Kind::Cut) {
        let length = random.below(bytes.len());
        bytes.truncate(length);
        let section = starts.iter().filter(|&&start| start <= length).count();
        let place = cut_refusal(&starts, length).place as usize;
        let test = if length < place + 4 { COUNT_CUT } else { NUMBERS_CUT };
        faults.push(Fault::new((section, test), 10, place));
    // A scene without water has no cell to break, but bytes can follow any.
    } else if kinds.contains(&Kind::LeftOver) || faults.is_empty() {
        faults.push(Fault::new(LEFT_OVER, 10, bytes.len()));
        bytes.extend((0..random.between(1, 9)).map(|_| random.bits() as u8));
    }
    Damaged { bytes, fault: faults.iter().min().copied(), faults: faults.len() }
}

/// Breaks what a record is made from.
fn break_scene(random: &mut Random, scene: &mut Scene, kind: Kind) -> Option<Fault> {
    match kind {
        Kind::OpenLayer => open_layer(random, scene).map(|place| Fault::new(OPEN_LAYER, 5, place)),
        Kind::Setting => {
            break_setting(random, scene);
            Some(Fault::new(SETTING, 3, 0))
        }
        Kind::BrokenCell => break_cell(random, scene).map(|place| Fault::new(BROKEN_RULE, 6, place)),
        Kind::Carry => {
            let past = CARRY_LIMIT + random.pick(&[1, 2, 1_000_000]);
            scene.state.carry = random.pick(&[past, -past, i128::from(i64::MIN)]);
            Some(Fault::new(BROKEN_RULE, 6, scene.state.cells.len()))
        }
        _ => None,
    }
}

/// Breaks a record's bytes without changing its length. Counts are taken from the whole record, lest a second damage mend the first.
fn break_bytes(
    random: &mut Random,
    scene: &Scene,
    whole: &[u8],
    bytes: &mut [u8],
    kind: Kind,
) -> Option<Fault> {
    let (grid, starts) = (scene.grid(), starts_of(scene));
    match kind {
        Kind::Side => {
            let sides = random.pick(&[[2, 9], [9, 513], [0, 512], [u32::MAX, 3], [65_536, 65_536]]);
            patch(bytes, 4, &sides.map(u32::to_le_bytes).concat());
            Some(Fault::new((1, AFTER), 1, 0))
        }
        Kind::Count => {
            let section = random.below(7);
            let start = starts[section];
            let count =
                u32::from_le_bytes([whole[start], whole[start + 1], whole[start + 2], whole[start + 3]]);
            // 3 for 2 in the first section makes the head of a box's record.
            let wrong = random.pick(&[count.wrapping_sub(1), count + 1, !count]);
            patch(bytes, start, &wrong.to_le_bytes());
            Some(Fault::new((section + 1, COUNT_WRONG), 11, section + 1))
        }
        Kind::Flag | Kind::OuterCell => {
            let outer = kind == Kind::OuterCell;
            let cells: Vec<usize> = (0..grid.n()).filter(|&c| !outer || grid.outer(c)).collect();
            let c = random.pick(&cells);
            let flag =
                if outer { random.pick(&[EMPTY, INTERFACE, FLUID]) } else { 4 + random.below(252) as u8 };
            bytes[starts[4] + 4 + c] = flag;
            Some(Fault::new((5, AFTER), 4, c))
        }
        _ => None,
    }
}

fn break_setting(random: &mut Random, scene: &mut Scene) {
    let settings = &mut scene.settings;
    match random.below(4) {
        0 => settings.p = random.pick(&[0, 2038, -1, i32::MAX, i32::MIN]),
        1 => settings.gravity = random.pick(&[[35, -1048], [1049, 0], [0, i32::MIN], [i32::MAX, 0]]),
        2 => settings.edge = random.pick(&[0, 1001, -50, i32::MIN]),
        _ => scene.origin[random.below(2)] = random.pick(&[REACH + 1, -REACH - 1, i64::MAX, i64::MIN]),
    }
}

/// Empties a cell beside one that becomes fluid. The place is the lowest fluid cell with an empty one beside it, found by comparing positions.
fn open_layer(random: &mut Random, scene: &mut Scene) -> Option<usize> {
    let grid = scene.grid();
    let cells = &mut scene.state.cells;
    let beside = |a: usize, b: usize| {
        let ((ax, az), (bx, bz)) = (grid.position(a), grid.position(b));
        a != b && ax.abs_diff(bx) <= 1 && az.abs_diff(bz) <= 1
    };
    let pairs: Vec<(usize, usize)> = (0..grid.n())
        .filter(|&c| cells[c].liquid())
        .flat_map(|c| grid.neighbours(c).map(move |b| (c, b)))
        .filter(|&(_, b)| cells[b].flag != WALL)
        .collect();
    if pairs.is_empty() {
        return None;
    }
    let (fluid, emptied) = random.pick(&pairs);
    cells[fluid].flag = FLUID;
    cells[emptied] = Cell::blank(EMPTY);
    let empty: Vec<usize> = (0..grid.n()).filter(|&c| cells[c].flag == EMPTY).collect();
    (0..grid.n()).find(|&c| cells[c].flag == FLUID && empty.iter().any(|&other| beside(c, other)))
}

/// Breaks a rule of one liquid cell.
fn break_cell(random: &mut Random, scene: &mut Scene) -> Option<usize> {
    let cells = &mut scene.state.cells;
    let liquid: Vec<usize> = (0..cells.len()).filter(|&c| cells[c].liquid()).collect();
    if liquid.is_empty() {
        return None;
    }
    let c = random.pick(&liquid);
    let cell = &mut cells[c];
    let rest = Flow::of(&cell.parts).rho - cell.parts[0];
    match random.below(5) {
        0 => {
            let past = random.pick(&[PART_LIMIT + 1, -PART_LIMIT - 1, i128::from(i32::MIN)]);
            cell.parts[random.below(9)] = past;
        }
        1 => cell.parts[0] = LOWEST_DENSITY - 1 - rest,
        2 => cell.parts[0] = HIGHEST_DENSITY + 1 - rest,
        3 if cell.flag == INTERFACE => {
            cell.mass = random.pick(&[MASS_LIMIT + 1, -MASS_LIMIT - 1, i128::from(i32::MAX)]);
        }
        // Density 300,000 and momentum 100,001 along x.
        _ => cell.parts = [199_999, 100_001, 0, 0, 0, 0, 0, 0, 0],
    }
    Some(c)
}
