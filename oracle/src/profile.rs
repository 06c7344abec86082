// The chainage profile, as docs/AMENDMENTS.md has it under P12: a line for each point of a list, and the deepest point.

use crate::grid::{refuse, Grid, Refusal};
use crate::readings::{depth, place, Depth};
use crate::settings::test_survey;

/// Where a grid lies, and what it holds.
#[derive(Clone, Copy, Debug)]
pub struct Survey<'a> {
    pub sides: [u32; 3],
    pub edge: i32,
    pub origin: [i64; 3],
    pub flags: &'a [u8],
    pub fills: &'a [u32],
}

/// What is found at a point of the list.
#[derive(Clone, Copy, Debug, PartialEq, Eq)]
pub enum Line {
    Outside,
    Inside(Depth),
}

impl Line {
    pub fn kind(&self) -> u8 {
        match self {
            Line::Inside(Depth::Solid) => 1,
            Line::Inside(Depth::Dry) => 2,
            Line::Inside(Depth::Deep(_)) => 3,
            Line::Outside => 4,
        }
    }

    /// The depth in 65,536ths of a cell, where the point is deep.
    fn sum(&self) -> Option<u32> {
        match self {
            Line::Inside(Depth::Deep(sum)) => Some(*sum),
            _ => None,
        }
    }

    /// 0 unless deep.
    pub fn float(&self) -> f32 {
        match self {
            Line::Inside(depth) => depth.float().unwrap_or(0.0),
            Line::Outside => 0.0,
        }
    }
}

/// The most points of a list.
pub const POINTS: usize = 2_000;

/// Tests 1, 2 and 22, then 3 of edge and origin.
fn opened(survey: &Survey, points: usize, lent: [usize; 3]) -> Result<Grid, Refusal> {
    let grid = Grid::new(survey.sides)?;
    let [coordinates, kinds, depths] = lent;
    let fits = survey.flags.len() == grid.n && survey.fills.len() == grid.n;
    if !fits || coordinates != 3 * points || kinds != points || depths != points {
        return refuse(2, 0);
    }
    if !(1..=POINTS).contains(&points) {
        return refuse(22, 0);
    }
    test_survey(survey.edge, &survey.origin)?;
    Ok(grid)
}

/// The line of one point, whose coordinates are in range: 4 and 6 are depth's.
fn line(survey: &Survey, grid: &Grid, point: [i64; 3]) -> Result<Line, Refusal> {
    match place(survey.sides, survey.edge, survey.origin, point) {
        Ok(cell) => {
            let [x, y, _] = grid.position(cell as usize).map(|coordinate| coordinate as u64);
            depth(survey.sides, survey.flags, survey.fills, x, y).map(Line::Inside)
        }
        Err(Refusal { number: 13, .. }) => Ok(Line::Outside),
        Err(refusal) => Err(refusal),
    }
}

/// Test 23, over the whole list.
fn rising(chainages: &[i64]) -> Result<(), Refusal> {
    match chainages.windows(2).position(|pair| pair[1] <= pair[0]) {
        Some(before) => refuse(23, before + 1),
        None => Ok(()),
    }
}

/// Test 3 of the points, over the whole list.
fn near(edge: i32, points: &[i64]) -> Result<(), Refusal> {
    match points.chunks(3).position(|point| test_survey(edge, point).is_err()) {
        Some(far) => refuse(3, far),
        None => Ok(()),
    }
}

/// The lines of a list, or what it is refused with.
fn lines(survey: &Survey, chainages: &[i64], points: &[i64], lent: [usize; 3]) -> Result<Vec<Line>, Refusal> {
    let grid = opened(survey, chainages.len(), lent)?;
    rising(chainages).and_then(|()| near(survey.edge, points))?;
    points.chunks(3).map(|point| line(survey, &grid, [point[0], point[1], point[2]])).collect()
}

/// The deepest of the lines, the first among equals.
fn deepest(lines: &[Line]) -> Option<usize> {
    let most = lines.iter().filter_map(Line::sum).max()?;
    lines.iter().position(|line| line.sum() == Some(most))
}

/// The profile: kinds and depths of the points, and the deepest point, if one is deep. A refusal writes nothing.
pub fn profile(
    survey: &Survey,
    chainages: &[i64],
    points: &[i64],
    kinds: &mut [u8],
    depths: &mut [f32],
) -> Result<Option<usize>, Refusal> {
    let lines = lines(survey, chainages, points, [points.len(), kinds.len(), depths.len()])?;
    for (i, line) in lines.iter().enumerate() {
        kinds[i] = line.kind();
        depths[i] = line.float();
    }
    Ok(deepest(&lines))
}
