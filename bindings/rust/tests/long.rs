// The picture of a long profile: water where the library finds it, the deepest point marked, and no list that it cannot draw.

use skwarzyna::drawing::long::LongProfile;
use skwarzyna::picture::{Colour, Picture};
use skwarzyna::{Grid, Point, Sides, Site, Station, ONE};

const SITE: Site = Site { edge: 50, origin: Point::new(0, 0, 118_000) };
const GROUND: Colour = [150, 146, 138];
const WATER: Colour = [112, 176, 222];
const DEEPEST: Colour = [190, 50, 36];
const OUTSIDE: Colour = [240, 238, 232];

/// A trough of 40×3×6 cells, with water two cells deep in its second half.
fn trough(wet: bool) -> Grid {
    let mut grid = Grid::new(Sides::new(40, 3, 6)).unwrap();
    for x in 20..39 {
        for z in if wet { 1..3 } else { 1..1 } {
            let cell = grid.sides().cell(x, 1, z).unwrap();
            grid.set_interface(cell, ONE).unwrap();
        }
    }
    grid
}

fn stations(chainages: impl IntoIterator<Item = i64>, x: impl Fn(usize) -> i64) -> Vec<Station> {
    let station = |(i, chainage)| Station { chainage, point: Point::new(x(i), 75, 118_075) };
    chainages.into_iter().enumerate().map(station).collect()
}

fn drawn(grid: &Grid, stations: &[Station]) -> Picture {
    LongProfile::new(grid, SITE, stations).unwrap().picture()
}

/// The columns of pixels that have a colour in this range of rows from the top.
fn columns(picture: &Picture, colour: Colour, rows: std::ops::Range<usize>) -> Vec<usize> {
    let has = |x: &usize| rows.clone().any(|y| picture.pixel(*x, y) == Some(colour));
    (0..picture.width()).filter(has).collect()
}

/// The rows of the plot, without the heading above and the legend below.
const PLOT: std::ops::Range<usize> = 140..545;

#[test]
fn water_is_where_the_library_finds_it() {
    let stations = stations((0..38).map(|i| 50 * i), |i| 75 + 50 * i as i64);
    let picture = drawn(&trough(true), &stations);
    let water = columns(&picture, WATER, PLOT);
    let ground = columns(&picture, GROUND, PLOT);
    let (left, right) = (ground[0], *ground.last().unwrap());
    // From the first wet point, a cell before the middle, to the end.
    let first = left + (right - left) * 18 / 37;
    assert!(water.first().unwrap().abs_diff(first) < 8, "{:?} {first}", water.first());
    assert!(right - water.last().unwrap() < 4);
    // The deepest is the first among equals: marked at the first wet point alone.
    let marked = columns(&picture, DEEPEST, 200..545);
    let wet = left + (right - left) * 19 / 37;
    assert!(!marked.is_empty() && marked.iter().all(|x| x.abs_diff(wet) < 9), "{marked:?} {wet}");

    let dry = drawn(&trough(false), &stations);
    assert!(columns(&dry, WATER, 0..dry.height()).is_empty());
    assert!(columns(&dry, DEEPEST, 0..dry.height()).is_empty());
}

#[test]
fn points_outside_are_striped() {
    let stations = stations([0, 1000, 2000, 3000], |i| if i == 1 { -1 } else { 75 + 50 * i as i64 });
    let picture = drawn(&trough(true), &stations);
    let (all, striped) = (columns(&picture, GROUND, PLOT), columns(&picture, OUTSIDE, PLOT));
    let plot = all.last().unwrap() - all.first().unwrap();
    // From half way before the point to half way behind it: a third of the plot.
    assert!(striped.len().abs_diff(plot / 3) < 8, "{} of {plot}", striped.len());
}

#[test]
fn every_list_can_be_drawn() {
    let grid = trough(true);
    let ends = [i64::MIN, -1, i64::MAX];
    for (chainages, x) in [
        (vec![7], 75),
        (vec![7], -1),
        (vec![i64::MIN], 1_025),
        (ends.to_vec(), 1_025),
        (vec![i64::MAX - 1, i64::MAX], 1_025),
        ((0..2_000).collect(), 1_025),
        ((0..2_000).map(|i| i * 1_000_000_000_000).collect(), 0),
    ] {
        let stations = stations(chainages, |_| x);
        let picture = drawn(&grid, &stations);
        assert!(picture.width() > 1_000 && picture.height() > 500);
        let wet = !columns(&picture, WATER, PLOT).is_empty();
        assert_eq!(wet, x == 1_025, "{x}");
    }
}

#[test]
fn a_dry_invert_of_one_millimetre_at_height_0() {
    let site = Site { edge: 1, origin: Point::new(0, 0, -1) };
    let stations: Vec<Station> =
        (0..38).map(|i| Station { chainage: i, point: Point::new(1 + i, 1, 0) }).collect();
    let profile = LongProfile::new(&trough(false), site, &stations).unwrap();
    assert!(!columns(&profile.picture(), GROUND, PLOT).is_empty());
    assert!(
        profile.text().contains("     0            0.000            0.000        dry\n"),
        "{}",
        profile.text()
    );
}

#[test]
fn heights_at_the_ends_of_the_range() {
    let grid = trough(true);
    for z in [-10_000_000_000, 10_000_000_000 - 6_000] {
        let site = Site { edge: 1_000, origin: Point::new(0, 0, z) };
        let stations: Vec<Station> = (0..38)
            .map(|i| Station { chainage: i, point: Point::new(1_500 + 1_000 * i, 1_500, z) })
            .collect();
        let picture = LongProfile::new(&grid, site, &stations).unwrap().picture();
        assert!(!columns(&picture, WATER, PLOT).is_empty());
    }
}
