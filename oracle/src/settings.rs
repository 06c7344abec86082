// Settings and origin: their ranges, which test 3 stands for.

use crate::grid::{refuse, Refusal};

/// The five numbers of the record's second section.
#[derive(Clone, Copy, Debug, PartialEq, Eq)]
pub struct Settings {
    pub p: i32,
    pub gravity: [i32; 3],
    pub edge: i32,
}

pub const GRAVITY_LIMIT: i128 = 1_099_511;
pub const REACH: i64 = 10_000_000_000;

/// Test 3 as step and run make it: edge and origin are no part of a step.
pub fn test_flow(p: i32, gravity: [i32; 3]) -> Result<(), Refusal> {
    let square: i128 = gravity.iter().map(|&g| i128::from(g) * i128::from(g)).sum();
    if (1..=2037).contains(&p) && square <= GRAVITY_LIMIT {
        Ok(())
    } else {
        refuse(3, 0)
    }
}

/// Test 3 as placing makes it of edge, origin and point, and the record of edge and origin.
pub fn test_survey(edge: i32, coordinates: &[i64]) -> Result<(), Refusal> {
    let near = |coordinate: &i64| (-REACH..=REACH).contains(coordinate);
    if (1..=1000).contains(&edge) && coordinates.iter().all(near) {
        Ok(())
    } else {
        refuse(3, 0)
    }
}

/// Test 3 as the record's reader and writer make it: all settings and the origin.
pub fn test_all(settings: &Settings, origin: [i64; 3]) -> Result<(), Refusal> {
    test_flow(settings.p, settings.gravity)?;
    test_survey(settings.edge, &origin)
}
