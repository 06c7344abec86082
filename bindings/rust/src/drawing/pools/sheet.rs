// The sheet of the pools: title, scales, squares in the colours of their pools, and the pools' table.

use super::{PoolMap, Square};
use crate::drawing::colours::{edge, pale, ABOVE_SURFACE, EMPTY, PALE_INK, POOLS, SURFACE, WALL};
use crate::drawing::sheet::{heading, letters, scales, Plan, GAP, MARGIN, PLAIN, SWATCH, TITLE};
use crate::drawing::{place, unit};
use crate::picture::{Colour, Picture, INK, WHITE};
use crate::spelling::{counted, grouped};
use crate::Pool;

/// The columns of the table in letters: number, cells, water, share, lowest cell.
const COLUMNS: [usize; 5] = [6, 11, 21, 12, 32];
/// The smallest square that a number is written on.
const NUMBERED: usize = 16;

/// The pools that have a colour of their own and a line of the table: those with the most cells, in order.
fn shown(map: &PoolMap) -> Vec<&Pool> {
    let mut pools: Vec<&Pool> = map.list.iter().collect();
    pools.sort_by_key(|pool| (std::cmp::Reverse(pool.cells), pool.number));
    pools.truncate(POOLS.len());
    pools.sort_by_key(|pool| pool.number);
    pools
}

/// The colour of a pool; all that are not shown have one together.
fn colour(shown: &[&Pool], number: u16) -> Colour {
    shown.iter().position(|pool| pool.number == number).map_or(SURFACE, |place| POOLS[place])
}

pub fn picture(map: &PoolMap) -> Picture {
    let place = place([map.sides.nx, map.sides.ny, map.sides.nz], map.site);
    let plan = Plan::new(map.rows[0].len(), map.rows.len());
    let shown = shown(map);
    let more = map.list.len() > shown.len();
    // Heading, pools, perhaps the others, all, and two amounts.
    let lines = 1 + shown.len() + usize::from(more) + 3;
    let top = plan.below() + PLAIN.line();
    let widest = [
        plan.legend - MARGIN + SWATCH + 2 * GAP + letters(6),
        letters(COLUMNS.iter().sum()),
        PLAIN.width(&place[1]),
        TITLE.width(&map.title),
    ];
    let width = widest.into_iter().max().unwrap_or(0) + 2 * MARGIN;
    let height = top + (1 + lines) * PLAIN.line() + MARGIN;
    let mut picture = Picture::new(width, height);
    heading(&mut picture, &map.title, &place);
    for (row, squares) in map.rows.iter().enumerate() {
        for (column, square) in squares.iter().enumerate() {
            let (x, y) = (plan.left + plan.square * column, plan.top + plan.square * row);
            put(&mut picture, x, y, plan.square, square, &shown);
        }
    }
    picture.frame(plan.left - 1, plan.top - 1, plan.width + 2, plan.height + 2, INK);
    numbers(&mut picture, map, &plan, &shown);
    scales(&mut picture, map.view, map.site.edge, &plan);
    for (line, (square, name)) in [(Square::Wall, "wall"), (Square::Empty, "empty")].iter().enumerate() {
        let y = plan.top + line * (SWATCH + 2 * GAP);
        put(&mut picture, plan.legend, y, SWATCH, square, &shown);
        picture.frame(plan.legend, y, SWATCH, SWATCH, INK);
        let beside = plan.legend + SWATCH + 2 * GAP;
        picture.text(beside, y + (SWATCH - PLAIN.capital()) / 2, name, PLAIN, INK);
    }
    table(&mut picture, map, &shown, top);
    picture
}

/// A square, two of its edges a little darker; the water of an interface cell stands as high in it as it is full.
fn put(picture: &mut Picture, x: usize, y: usize, square: usize, content: &Square, shown: &[&Pool]) {
    let line = usize::from(square >= 8);
    let mut shaded = |y: usize, height: usize, colour: Colour| {
        picture.fill(x, y, square, height, edge(colour));
        picture.fill(x + line, y, square - line, height, colour);
    };
    match *content {
        Square::Wall => shaded(y, square, WALL),
        Square::Empty => shaded(y, square, EMPTY),
        Square::Liquid(number, share) => {
            let own = colour(shown, number);
            let water = (share * square as f32).round() as usize;
            shaded(y, square, if own == SURFACE { ABOVE_SURFACE } else { pale(own) });
            shaded(y + square - water, water, own);
        }
    }
    picture.fill(x, y, square, line, edge(picture.pixel(x + 1, y).unwrap_or(WALL)));
}

/// The number of each pool that is shown, on the fullest of its squares that lies nearest to its middle.
fn numbers(picture: &mut Picture, map: &PoolMap, plan: &Plan, shown: &[&Pool]) {
    if plan.square < NUMBERED {
        return;
    }
    for pool in shown {
        let own = |square: &Square| matches!(square, Square::Liquid(number, _) if *number == pool.number);
        let places: Vec<(usize, usize)> = (0..map.rows.len())
            .flat_map(|row| (0..map.rows[row].len()).map(move |column| (row, column)))
            .filter(|&(row, column)| own(&map.rows[row][column]))
            .collect();
        let full = |&(row, column): &(usize, usize)| matches!(map.rows[row][column], Square::Liquid(_, share) if share > 0.9);
        let best: Vec<(usize, usize)> = match places.iter().copied().filter(full).collect::<Vec<_>>() {
            none if none.is_empty() => places,
            full => full,
        };
        let count = best.len().max(1);
        let middle = best.iter().fold((0, 0), |sum, place| (sum.0 + place.0, sum.1 + place.1));
        let far = |&(row, column): &(usize, usize)| {
            (row * count).abs_diff(middle.0) + (column * count).abs_diff(middle.1)
        };
        if let Some(&(row, column)) = best.iter().min_by_key(|place| far(place)) {
            let x = plan.left + plan.square * column + plan.square / 2;
            let y = plan.top + plan.square * row + (plan.square - PLAIN.capital()) / 2;
            let dark = matches!(map.rows[row][column], Square::Liquid(_, share) if share > 0.5);
            picture.centred(x, y, &pool.number.to_string(), PLAIN, if dark { WHITE } else { INK });
        }
    }
}

/// A line for each pool that is shown, one for the others, all together, the carry and the total.
fn table(picture: &mut Picture, map: &PoolMap, shown: &[&Pool], top: usize) {
    picture.text(MARGIN, top, &unit(), PLAIN, PALE_INK);
    let mut line = 1;
    let mut row = |cells: &[&str], own: Option<Colour>, ink: Colour| {
        let y = top + line * PLAIN.line();
        let mut right = 0;
        for (place, (text, width)) in cells.iter().zip(COLUMNS).enumerate() {
            right += width;
            // The lowest cell begins where its column does, all other words end there.
            if place == 4 {
                picture.text(MARGIN + letters(right - width + 3), y, text, PLAIN, ink);
            } else {
                picture.ending(MARGIN + letters(right), y, text, PLAIN, ink);
            }
        }
        if let Some(own) = own {
            picture.fill(MARGIN, y - 1, PLAIN.capital() + 2, PLAIN.capital() + 2, own);
            picture.frame(MARGIN, y - 1, PLAIN.capital() + 2, PLAIN.capital() + 2, INK);
        }
        line += 1;
    };
    row(&["pool", "cells", "water", "share", "lowest cell"], None, PALE_INK);
    for pool in shown {
        let told = map.told(pool);
        row(&told.each_ref().map(String::as_str), Some(colour(shown, pool.number)), INK);
    }
    let others: Vec<&Pool> =
        map.list.iter().filter(|pool| shown.iter().all(|one| one.number != pool.number)).collect();
    if !others.is_empty() {
        let cells: i64 = others.iter().map(|pool| i64::from(pool.cells)).sum();
        let water: i64 = others.iter().map(|pool| pool.water).sum();
        let told = format!("{} pools more", counted(others.len()));
        row(
            &["", &grouped(cells), &grouped(water), &super::percent(water, map.water()), &told],
            Some(SURFACE),
            INK,
        );
    }
    row(&map.together().each_ref().map(String::as_str), None, INK);
    row(&["carry", "", &grouped(map.carry)], None, INK);
    row(&["total", "", &grouped(map.water() + map.carry)], None, INK);
}
