// The flume's steps, the proved one and those written by hand in whole numbers and in f32: scenes for them, held to be identical, and timed.

pub mod engine;
pub mod float;
pub mod identical;
pub mod measure;
pub mod report;
pub mod scenes;

/// The settings that a step of the flume takes: p, and gravity along x and up.
pub type Settings = crate::engine::Settings<2>;
