// The flume's settings and origin. Their ranges are the box's, for a gravity that has no y.

use crate::grid::Refusal;
use crate::settings::{test_flow, test_survey};

/// The four numbers of the record's second section; gravity along x and up.
#[derive(Clone, Copy, Debug, PartialEq, Eq)]
pub struct Settings {
    pub p: i32,
    pub gravity: [i32; 2],
    pub edge: i32,
}

/// Test 3 as step and run make it.
pub fn test_step(p: i32, [gx, gz]: [i32; 2]) -> Result<(), Refusal> {
    test_flow(p, [gx, 0, gz])
}

/// Test 3 as reader and writer make it.
pub fn test_all(settings: &Settings, origin: [i64; 2]) -> Result<(), Refusal> {
    test_step(settings.p, settings.gravity)?;
    test_survey(settings.edge, &origin)
}
