// The sheet: title, scale, squares, legend and balance, each in its place.

use super::colours::{blue, edge, ABOVE_SURFACE, EMPTY, FLUID, PALE_INK, SURFACE, WALL};
use super::tiles::Tile;
use super::{scale, unit, Drawing, View, COUNTS};
use crate::picture::{Colour, Letters, Picture, INK};

pub const MARGIN: usize = 24;
pub const TITLE: Letters = Letters(3);
pub const PLAIN: Letters = Letters(2);
/// The squares: no smaller and no larger than this, and all of them in about this room.
const SQUARES: std::ops::RangeInclusive<usize> = 6..=64;
const ROOM: (usize, usize) = (720, 560);
/// A flume may have more cells along or up than any box: then its squares are smaller, and have more room.
const WIDEST_BOX: usize = 128;
const SMALL_SQUARES: std::ops::RangeInclusive<usize> = 2..=6;
const WIDE_ROOM: (usize, usize) = (1240, 1024);
/// The smallest square whose edges are drawn.
const LINED: usize = 8;
/// A tick, and what lies between it and its label.
const TICK: usize = 6;
pub const GAP: usize = 4;
/// Pixels that a label needs along and across a horizontal scale.
const ALONG: usize = 84;
const LABEL: usize = 36;
/// A square of the legend, the letters beside it, and how high the bar of depths may be.
pub const SWATCH: usize = 26;
const WORDS: usize = 10;
const BAR: (usize, usize) = (120, 320);
/// The columns of the balance in letters: names and numbers of the water, and of the cells beside it.
const NAMES: usize = 19;
const AMOUNTS: usize = 19;
const BETWEEN: usize = 5;
const COUNT_NAMES: usize = 15;
const COUNT_NUMBERS: usize = 8;
/// The line of the balance that all above it add up to.
const TOTAL: usize = 3;

/// Where the squares lie.
pub struct Plan {
    pub left: usize,
    pub top: usize,
    pub square: usize,
    pub width: usize,
    pub height: usize,
    /// Where the legend begins.
    pub legend: usize,
}

impl Plan {
    /// For so many squares.
    pub fn new(columns: usize, rows: usize) -> Plan {
        let (squares, room) = match columns.max(rows) <= WIDEST_BOX {
            true => (SQUARES, ROOM),
            false => (SMALL_SQUARES, WIDE_ROOM),
        };
        let square = (room.0 / columns).min(room.1 / rows).clamp(*squares.start(), *squares.end());
        let (width, height) = (square * columns, square * rows);
        let left = MARGIN + letters(6) + GAP + TICK;
        // Title, two lines on the grid, an empty one, one of names and one of labels.
        let top = MARGIN + TITLE.line() + 5 * PLAIN.line() + GAP + TICK;
        let legend = left + width + TICK + GAP + letters(6) + MARGIN;
        Plan { left, top, square, width, height, legend }
    }

    /// Where the squares and their scales end.
    pub fn below(&self) -> usize {
        self.top + self.height + TICK + GAP + 2 * PLAIN.line()
    }
}

pub fn letters(count: usize) -> usize {
    PLAIN.width(&" ".repeat(count))
}

pub fn picture(drawing: &Drawing) -> Picture {
    let plan = Plan::new(drawing.rows[0].len(), drawing.rows.len());
    let below = plan.below().max(plan.top + legend_height(drawing, &plan)) + PLAIN.line();
    let [_, place] = &drawing.place;
    let widest = [
        plan.legend - MARGIN + SWATCH + 2 * GAP + letters(WORDS),
        letters(NAMES + AMOUNTS + BETWEEN + COUNT_NAMES + COUNT_NUMBERS),
        PLAIN.width(place),
        TITLE.width(&drawing.title),
    ];
    let whole = widest.into_iter().max().unwrap_or(0) + 2 * MARGIN;

    let balance = (1 + drawing.balance.len() - COUNTS) * PLAIN.line();
    let mut picture = Picture::new(whole, below + balance + MARGIN);
    heading(&mut picture, &drawing.title, &drawing.place);
    squares(&mut picture, drawing, &plan);
    scales(&mut picture, drawing.view, drawing.edge, &plan);
    legends(&mut picture, drawing, &plan);
    tables(&mut picture, drawing, below);
    picture
}

pub fn heading(picture: &mut Picture, title: &str, place: &[String; 2]) {
    picture.text(MARGIN, MARGIN, title, TITLE, INK);
    for (line, text) in place.iter().enumerate() {
        picture.text(MARGIN, MARGIN + TITLE.line() + line * PLAIN.line(), text, PLAIN, PALE_INK);
    }
}

fn squares(picture: &mut Picture, drawing: &Drawing, plan: &Plan) {
    for (row, tiles) in drawing.rows.iter().enumerate() {
        for (column, tile) in tiles.iter().enumerate() {
            let (x, y) = (plan.left + plan.square * column, plan.top + plan.square * row);
            put(picture, x, y, plan.square, tile, drawing.darkest);
        }
    }
    picture.frame(plan.left - 1, plan.top - 1, plan.width + 2, plan.height + 2, INK);
}

/// A square, two of its edges a little darker; the water of an interface cell stands as high in it as it is full.
fn put(picture: &mut Picture, x: usize, y: usize, square: usize, tile: &Tile, darkest: f32) {
    let line = usize::from(square >= LINED);
    let mut shaded = |y: usize, height: usize, colour: Colour| {
        picture.fill(x, y, square, height, edge(colour));
        picture.fill(x + line, y, square - line, height, colour);
    };
    let colour = match *tile {
        Tile::Wall => WALL,
        Tile::Empty => EMPTY,
        Tile::Interface(_) => ABOVE_SURFACE,
        Tile::Fluid => FLUID,
        Tile::Deep(cells) => blue(cells, darkest),
    };
    shaded(y, square, colour);
    if let Tile::Interface(share) = *tile {
        let water = (share * square as f32).round() as usize;
        shaded(y + square - water, water, SURFACE);
    }
    picture.fill(x, y, square, line, edge(picture.pixel(x + 1, y).unwrap_or(colour)));
}

/// Cells below and to the left, metres above and to the right.
pub fn scales(picture: &mut Picture, view: View, cell_edge: i64, plan: &Plan) {
    let (across, up) = view.axes();
    let (right, bottom) = (plan.left + plan.width, plan.top + plan.height);
    let middle = PLAIN.capital() / 2;
    let metre = plan.square as f64 * 1000.0 / cell_edge as f64;

    for number in scale::cells(plan.width / plan.square, plan.width / (LABEL + 12)) {
        let x = plan.left + plan.square * number + plan.square / 2;
        picture.fill(x, bottom, 1, TICK, INK);
        picture.centred(x, bottom + TICK + GAP, &number.to_string(), PLAIN, INK);
    }
    for number in scale::cells(plan.height / plan.square, plan.height / PLAIN.line()) {
        let y = bottom - plan.square * number - plan.square / 2;
        picture.fill(plan.left - TICK, y, TICK, 1, INK);
        picture.ending(plan.left - TICK - GAP, y - middle, &number.to_string(), PLAIN, INK);
    }
    let mut free = 0;
    for (at, label) in scale::marks(plan.width as f64 / metre, (plan.width / ALONG).max(1)) {
        let x = plan.left + (at * metre) as usize;
        picture.fill(x.min(right), plan.top - TICK, 1, TICK, INK);
        // Over a few cells there may be no room for two labels.
        if x - PLAIN.width(&label) / 2 > free {
            picture.centred(x, plan.top - TICK - GAP - PLAIN.capital(), &label, PLAIN, INK);
            free = x + PLAIN.width(&label) / 2 + GAP;
        }
    }
    for (at, label) in scale::marks(plan.height as f64 / metre, (plan.height / LABEL).max(1)) {
        let y = bottom - (at * metre) as usize;
        picture.fill(right, y, TICK, 1, INK);
        picture.text(right + TICK + GAP, y.saturating_sub(middle), &label, PLAIN, INK);
    }

    let names = plan.top - TICK - GAP - PLAIN.capital() - PLAIN.line();
    picture.ending(plan.left - TICK - GAP, names, &format!("cell {}", up.name()), PLAIN, PALE_INK);
    let over = if plan.width < ALONG { names - PLAIN.line() } else { names };
    picture.centred(plan.left + plan.width / 2, over, &format!("{} in m", across.name()), PLAIN, PALE_INK);
    picture.text(right + TICK + GAP, names, &format!("{} in m", up.name()), PLAIN, PALE_INK);
    let below = bottom + TICK + GAP + PLAIN.line();
    picture.centred(plan.left + plan.width / 2, below, &format!("cell {}", across.name()), PLAIN, PALE_INK);
}

/// What is told beside the squares, by view.
fn kinds(view: View) -> &'static [(Tile, &'static str)] {
    match view {
        View::Above => &[(Tile::Wall, "solid"), (Tile::Empty, "dry")],
        View::Section(..) => &[
            (Tile::Wall, "wall"),
            (Tile::Empty, "empty"),
            (Tile::Interface(0.5), "interface"),
            (Tile::Fluid, "fluid"),
        ],
    }
}

/// Lines above and below the bar of depths.
const OVER_BAR: usize = 1;
const UNDER_BAR: usize = 3;

fn kinds_height(drawing: &Drawing) -> usize {
    kinds(drawing.view).len() * (SWATCH + 2 * GAP)
}

fn bar_height(drawing: &Drawing, plan: &Plan) -> usize {
    let others = kinds_height(drawing) + (OVER_BAR + UNDER_BAR + 1) * PLAIN.line();
    plan.height.saturating_sub(others).clamp(BAR.0, BAR.1)
}

fn legend_height(drawing: &Drawing, plan: &Plan) -> usize {
    let bar = bar_height(drawing, plan) + (OVER_BAR + UNDER_BAR + 1) * PLAIN.line();
    kinds_height(drawing) + if drawing.darkest > 0.0 { bar } else { 0 }
}

/// A square and a word for each kind of cell, and a bar of depths.
fn legends(picture: &mut Picture, drawing: &Drawing, plan: &Plan) {
    let mut y = plan.top;
    for (tile, name) in kinds(drawing.view) {
        put(picture, plan.legend, y, SWATCH, tile, 0.0);
        picture.frame(plan.legend, y, SWATCH, SWATCH, INK);
        let beside = plan.legend + SWATCH + 2 * GAP;
        picture.text(beside, y + (SWATCH - PLAIN.capital()) / 2, name, PLAIN, INK);
        y += SWATCH + 2 * GAP;
    }
    if drawing.darkest > 0.0 {
        bar(picture, drawing, plan, y + PLAIN.line() / 2);
    }
}

/// The blues of the depths from 0 to the darkest, and how deep the deepest is.
fn bar(picture: &mut Picture, drawing: &Drawing, plan: &Plan, top: usize) {
    let (x, height, darkest) = (plan.legend, bar_height(drawing, plan), drawing.darkest);
    picture.text(x, top, "cells deep", PLAIN, INK);
    let y = top + OVER_BAR * PLAIN.line() + PLAIN.capital() / 2;
    for row in 0..height {
        picture.fill(x, y + row, SWATCH, 1, blue(darkest * (row as f32 + 0.5) / height as f32, darkest));
    }
    picture.frame(x, y, SWATCH, height, INK);
    for (at, label) in scale::marks(darkest.into(), 5) {
        let mark = y + (at / f64::from(darkest) * (height - 1) as f64) as usize;
        picture.fill(x + SWATCH, mark, TICK, 1, INK);
        picture.text(x + SWATCH + TICK + GAP, mark - PLAIN.capital() / 2, &label, PLAIN, INK);
    }
    let deepest = drawing.deepest;
    let told = ["deepest".into(), format!("{deepest:.2} cells"), drawing.in_millimetres(deepest)];
    for (line, text) in told.iter().enumerate() {
        let below = y + height + PLAIN.capital() + GAP + line * PLAIN.line();
        picture.text(x, below, text, PLAIN, if line == 0 { PALE_INK } else { INK });
    }
}

/// The water to the unit, and beside it the cells.
fn tables(picture: &mut Picture, drawing: &Drawing, top: usize) {
    let (counts, amounts) = drawing.balance.split_at(COUNTS);
    picture.text(MARGIN, top, &unit(), PLAIN, PALE_INK);
    let mut table = |rows: &[(&str, String)], from: usize, names: usize, numbers: usize| {
        for (line, (name, number)) in rows.iter().enumerate() {
            let y = top + (line + 1) * PLAIN.line();
            picture.text(MARGIN + letters(from), y, name, PLAIN, INK);
            picture.ending(MARGIN + letters(from + names + numbers), y, number, PLAIN, INK);
        }
    };
    table(amounts, 0, NAMES, AMOUNTS);
    table(counts, NAMES + AMOUNTS + BETWEEN, COUNT_NAMES, COUNT_NUMBERS);
    let sum = top + (TOTAL + 1) * PLAIN.line() - GAP;
    picture.fill(MARGIN + letters(NAMES), sum, letters(AMOUNTS), 1, PALE_INK);
}
