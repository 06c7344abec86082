// The sheet of a long profile: title, the invert with the water on it, both scales, the deepest point, legend and counts.

use super::{tenths, LongProfile, Spot};
use crate::drawing::colours::{EMPTY, PALE_INK, WALL};
use crate::drawing::scale;
use crate::picture::{Colour, Letters, Picture, INK, WHITE};
use crate::spelling::{counted, thousandths};
use crate::Line;

const MARGIN: usize = 28;
const TITLE: Letters = Letters(3);
const PLAIN: Letters = Letters(2);
/// The plot.
const WIDTH: usize = 1120;
const HEIGHT: usize = 400;
/// A tick, and what lies between it and its label.
const TICK: usize = 6;
const GAP: usize = 4;
/// How many marks the scale of chainages may have, and how far apart those of heights are.
const ALONG: usize = 9;
const UP: usize = 44;
const HEIGHT_NAME: &str = "height/m";
/// A square of the legend.
const SWATCH: usize = 26;
/// Points closer than this are drawn without their dots, and closer than that without their ticks.
const APART: usize = 9;
const CROWDED: usize = 4;

const GROUND: Colour = WALL;
const WATER: Colour = [112, 176, 222];
const SURFACE: Colour = [20, 84, 150];
const DEEPEST: Colour = [190, 50, 36];
const RULE: Colour = [226, 226, 222];
const OUTSIDE: Colour = [240, 238, 232];
const STRIPE: Colour = [206, 202, 194];
const SOLID_STRIPE: Colour = [128, 124, 116];

/// Heights in millimetres of invert and water level.
type Level = (f64, f64);

/// What is drawn at one place along the profile.
#[derive(Clone, Copy)]
enum Column {
    Open(Level),
    Solid,
    Outside,
}

/// Where the plot lies and what it spans, in millimetres.
struct Plan {
    left: usize,
    top: usize,
    chainages: (i64, i64),
    /// None where no point has an invert.
    heights: Option<(i64, i64)>,
}

impl Plan {
    fn new(profile: &LongProfile) -> Plan {
        let ends =
            [profile.spots.first(), profile.spots.last()].map(|spot| spot.map_or(0, |spot| spot.chainage));
        let open = || profile.spots.iter().filter_map(|spot| level(spot, profile.edge));
        let low = open().map(|(invert, _)| invert).fold(f64::INFINITY, f64::min);
        let high = open().map(|(_, water)| water).fold(f64::NEG_INFINITY, f64::max);
        // Room below the invert for the ground, above the water for the label of the deepest.
        let height = (high - low).max(profile.edge as f64);
        let heights = (low <= high)
            .then(|| ((low - 0.18 * height).floor() as i64, (high + 0.32 * height).ceil() as i64));
        let labels = height_marks(heights).into_iter().map(|(_, label)| PLAIN.width(&label));
        Plan {
            left: MARGIN + labels.max().unwrap_or(0).max(PLAIN.width(HEIGHT_NAME)) + GAP + TICK,
            top: MARGIN + TITLE.line() + 4 * PLAIN.line(),
            chainages: (ends[0], ends[1]),
            heights,
        }
    }

    fn length(&self) -> f64 {
        (i128::from(self.chainages.1) - i128::from(self.chainages.0)) as f64
    }

    fn right(&self) -> usize {
        self.left + WIDTH
    }

    fn bottom(&self) -> usize {
        self.top + HEIGHT
    }

    /// The pixel of a chainage; that of the only one is in the middle.
    fn x(&self, chainage: i64) -> usize {
        let along = (i128::from(chainage) - i128::from(self.chainages.0)) as f64;
        let share = if self.length() > 0.0 { along / self.length() } else { 0.5 };
        self.left + (share * (WIDTH - 1) as f64).round() as usize
    }

    /// The pixel of a height.
    fn y(&self, height: f64) -> usize {
        let (low, high) = self.heights.unwrap_or((0, 1));
        let share = (height - low as f64) / (high - low).max(1) as f64;
        self.bottom() - 1 - (share.clamp(0.0, 1.0) * (HEIGHT - 1) as f64).round() as usize
    }

    /// How heights are drawn beside lengths.
    fn raised(&self) -> Option<String> {
        let (low, high) = self.heights?;
        let raised = self.length() / WIDTH as f64 * HEIGHT as f64 / (high - low) as f64;
        match raised {
            _ if self.length() == 0.0 => None,
            _ if raised >= 1.0 => Some(format!("heights drawn {raised:.1} times larger")),
            _ => Some(format!("lengths drawn {:.1} times larger", 1.0 / raised)),
        }
    }
}

/// Invert and water level of a point that is neither outside nor in a solid column.
fn level(spot: &Spot, edge: i64) -> Option<Level> {
    let invert = spot.invert? as f64;
    Some((invert, invert + f64::from(spot.cells()) * edge as f64))
}

fn column(spot: &Spot, edge: i64) -> Column {
    match level(spot, edge) {
        Some(level) => Column::Open(level),
        None if spot.line == Line::Outside => Column::Outside,
        None => Column::Solid,
    }
}

/// What is drawn a share of the way from one point to the next: between two open ones a straight line, else each to the middle.
fn between(from: Column, to: Column, share: f64) -> Column {
    match (from, to) {
        (Column::Open(from), Column::Open(to)) => {
            let part = |from: f64, to: f64| from + share * (to - from);
            // Towards a dry point that lies higher the water stays level and the ground cuts it off.
            let water = |of: Level, beside: Level| if of.1 > of.0 { of.1 } else { of.1.min(beside.1) };
            let invert = part(from.0, to.0);
            Column::Open((invert, part(water(from, to), water(to, from)).max(invert)))
        }
        _ if share < 0.5 => from,
        _ => to,
    }
}

pub fn picture(profile: &LongProfile) -> Picture {
    let plan = Plan::new(profile);
    let below = plan.bottom() + TICK + 2 * GAP + 2 * PLAIN.line() + MARGIN / 2;
    let heading = heading(profile, &plan);
    let widest =
        heading.iter().map(|text| PLAIN.width(text)).max().unwrap_or(0).max(TITLE.width(&profile.title));
    let width = (plan.right() + 2 * MARGIN).max(widest + 2 * MARGIN);
    let mut picture = Picture::new(width, below + SWATCH + MARGIN);
    picture.text(MARGIN, MARGIN, &profile.title, TITLE, INK);
    for (line, text) in heading.iter().enumerate() {
        picture.text(MARGIN, MARGIN + TITLE.line() + line * PLAIN.line(), text, PLAIN, PALE_INK);
    }
    picture.fill(plan.left, plan.top, WIDTH, HEIGHT, EMPTY);
    rules(&mut picture, &plan);
    stretches(&mut picture, profile, &plan);
    dots(&mut picture, profile, &plan);
    picture.frame(plan.left - 1, plan.top - 1, WIDTH + 2, HEIGHT + 2, INK);
    scales(&mut picture, &plan);
    deepest(&mut picture, profile, &plan);
    legend(&mut picture, profile, &plan, below);
    picture
}

/// The list in a line, and the deepest point in another.
fn heading(profile: &LongProfile, plan: &Plan) -> [String; 2] {
    let [(_, points), kinds @ ..] = profile.counts();
    let kinds = kinds.into_iter().filter(|(_, count)| *count > 0);
    let kinds: Vec<String> = kinds.map(|(name, count)| format!("{} {name}", counted(count))).collect();
    let (from, to) = (thousandths(plan.chainages.0), thousandths(plan.chainages.1));
    let list = match points {
        1 => format!("1 point at {from} m"),
        _ => format!("{} points from {from} m to {to} m", counted(points)),
    };
    [format!("{list}: {}", kinds.join(", ")), profile.deepest_line()]
}

/// Light lines at the marks of both scales.
fn rules(picture: &mut Picture, plan: &Plan) {
    for (height, _) in height_marks(plan.heights) {
        picture.fill(plan.left, plan.y(height as f64), WIDTH, 1, RULE);
    }
    for (chainage, _) in chainage_marks(plan) {
        picture.fill(plan.x(chainage), plan.top, 1, HEIGHT, RULE);
    }
}

fn height_marks(heights: Option<(i64, i64)>) -> Vec<(i64, String)> {
    heights.map_or(Vec::new(), |(low, high)| scale::between(low, high, HEIGHT / UP))
}

/// As many as have room for their labels.
fn chainage_marks(plan: &Plan) -> Vec<(i64, String)> {
    let marks = |most: usize| scale::between(plan.chainages.0, plan.chainages.1, most);
    let fit = |marks: &Vec<(i64, String)>| {
        let widest = marks.iter().map(|(_, label)| PLAIN.width(label)).max().unwrap_or(0);
        marks.windows(2).all(|pair| plan.x(pair[0].0) + widest + MARGIN / 2 <= plan.x(pair[1].0))
    };
    (1..=ALONG).rev().map(marks).find(fit).unwrap_or_default()
}

/// Ground and water, a column of pixels after the other.
fn stretches(picture: &mut Picture, profile: &LongProfile, plan: &Plan) {
    let spots = &profile.spots;
    let mut before = 0;
    let mut last: Option<(usize, usize)> = None;
    for x in plan.left..plan.right() {
        while before + 2 < spots.len() && plan.x(spots[before + 1].chainage) <= x {
            before += 1;
        }
        let from = column(&spots[before], profile.edge);
        let here = match spots.get(before + 1) {
            None => from,
            Some(next) => {
                let (left, right) = (plan.x(spots[before].chainage), plan.x(next.chainage));
                let share = (x.saturating_sub(left)) as f64 / right.abs_diff(left).max(1) as f64;
                between(from, column(next, profile.edge), share)
            }
        };
        match here {
            Column::Open((invert, water)) => {
                let (ground, surface) = (plan.y(invert), plan.y(water));
                picture.fill(x, ground, 1, plan.bottom() - ground, GROUND);
                picture.fill(x, surface, 1, ground - surface, WATER);
                outline(picture, x, last, (ground, surface));
                last = Some((ground, surface));
            }
            Column::Solid => {
                stripes(picture, x, plan, GROUND, SOLID_STRIPE);
                last = None;
            }
            Column::Outside => {
                stripes(picture, x, plan, OUTSIDE, STRIPE);
                last = None;
            }
        }
    }
}

/// The lines of water level and invert, joined with those of the column before.
fn outline(picture: &mut Picture, x: usize, last: Option<(usize, usize)>, (ground, surface): (usize, usize)) {
    let (ground_before, surface_before) = last.unwrap_or((ground, surface));
    let mut joined = |from: usize, to: usize, colour: Colour| {
        picture.fill(x, from.min(to), 1, from.abs_diff(to) + 2, colour);
    };
    if surface + 1 < ground {
        joined(surface_before, surface, SURFACE);
    }
    joined(ground_before, ground, INK);
}

fn stripes(picture: &mut Picture, x: usize, plan: &Plan, ground: Colour, stripe: Colour) {
    picture.fill(x, plan.top, 1, HEIGHT, ground);
    for y in (plan.top..plan.bottom()).filter(|y| (x + y) % 12 < 2) {
        picture.fill(x, y, 1, 1, stripe);
    }
}

/// A dot at the invert for each point, and a tick at the foot of the plot, where there is room for them.
fn dots(picture: &mut Picture, profile: &LongProfile, plan: &Plan) {
    let places: Vec<usize> = profile.spots.iter().map(|spot| plan.x(spot.chainage)).collect();
    let nearest = places.windows(2).map(|pair| pair[1] - pair[0]).min().unwrap_or(WIDTH);
    for (spot, x) in profile.spots.iter().zip(places) {
        if nearest >= CROWDED {
            picture.fill(x, plan.bottom() - TICK, 1, TICK, INK);
        }
        if let (Some(invert), true) = (spot.invert, nearest >= APART) {
            let y = plan.y(invert as f64);
            picture.fill(x.saturating_sub(3), y.saturating_sub(2), 7, 7, INK);
            picture.fill(x.saturating_sub(2), y.saturating_sub(1), 5, 5, WHITE);
        }
    }
}

/// Heights on the left, chainages below, and how much heights are raised.
fn scales(picture: &mut Picture, plan: &Plan) {
    let middle = PLAIN.capital() / 2;
    for (height, label) in height_marks(plan.heights) {
        let y = plan.y(height as f64);
        picture.fill(plan.left - TICK, y, TICK, 1, INK);
        picture.ending(plan.left - TICK - GAP, y.saturating_sub(middle), &label, PLAIN, INK);
    }
    let foot = plan.bottom() + TICK + GAP;
    for (chainage, label) in chainage_marks(plan) {
        let x = plan.x(chainage);
        picture.fill(x, plan.bottom(), 1, TICK, INK);
        picture.centred(x, foot, &label, PLAIN, INK);
    }
    if plan.heights.is_some() {
        let above = plan.top - PLAIN.line() - GAP;
        picture.ending(plan.left - TICK - GAP, above, HEIGHT_NAME, PLAIN, PALE_INK);
    }
    let names = foot + PLAIN.line() + GAP;
    picture.centred(plan.left + WIDTH / 2, names, "chainage in m", PLAIN, PALE_INK);
    if let Some(text) = plan.raised() {
        picture.ending(plan.right(), plan.top - PLAIN.line() - GAP, &text, PLAIN, PALE_INK);
    }
}

/// An arrow over the depth of the deepest point, and its depth above it.
fn deepest(picture: &mut Picture, profile: &LongProfile, plan: &Plan) {
    let Some(spot) = profile.deepest.map(|at| profile.spots[at]) else { return };
    let Some((invert, water)) = level(&spot, profile.edge) else { return };
    let (x, ground, surface) = (plan.x(spot.chainage), plan.y(invert), plan.y(water));
    let text = format!("{} mm", tenths(spot.tenths(profile.edge)));
    let half = PLAIN.width(&text) / 2 + GAP;
    let middle = x.clamp(plan.left + half, plan.right() - half);
    let label = plan.top + 2 * GAP;
    // A leader from the label to the water, then the depth itself between two bars.
    picture.fill(x, label + PLAIN.line(), 1, surface.saturating_sub(label + PLAIN.line()), DEEPEST);
    picture.fill(x.saturating_sub(1), surface, 3, (ground + 1).saturating_sub(surface), DEEPEST);
    for y in [surface, ground] {
        picture.fill(x.saturating_sub(6), y, 13, 2, DEEPEST);
    }
    picture.fill(middle - half, label - GAP, 2 * half, PLAIN.capital() + 2 * GAP, WHITE);
    picture.frame(middle - half, label - GAP, 2 * half, PLAIN.capital() + 2 * GAP, DEEPEST);
    picture.centred(middle, label, &text, PLAIN, DEEPEST);
}

/// A square and a word for what is drawn.
fn legend(picture: &mut Picture, profile: &LongProfile, plan: &Plan, top: usize) {
    let [_, deep, _, solid, outside] = profile.counts().map(|(_, count)| count > 0);
    let kinds = [
        (deep, "water", WATER, WATER),
        (plan.heights.is_some(), "invert", GROUND, GROUND),
        (solid, "solid", GROUND, SOLID_STRIPE),
        (outside, "outside", OUTSIDE, STRIPE),
        (profile.deepest.is_some(), "deepest", DEEPEST, DEEPEST),
    ];
    let mut x = plan.left;
    for (_, name, ground, stripe) in kinds.into_iter().filter(|(shown, ..)| *shown) {
        picture.fill(x, top, SWATCH, SWATCH, ground);
        for (column, row) in (0..SWATCH * SWATCH).map(|at| (at % SWATCH, at / SWATCH)) {
            if (column + row) % 12 < 2 {
                picture.fill(x + column, top + row, 1, 1, stripe);
            }
        }
        picture.frame(x, top, SWATCH, SWATCH, INK);
        picture.text(x + SWATCH + 2 * GAP, top + (SWATCH - PLAIN.capital()) / 2, name, PLAIN, INK);
        x += SWATCH + 2 * GAP + PLAIN.width(name) + MARGIN;
    }
}
