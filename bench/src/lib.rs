// What the benchmark and its tests share: the scenes, the steps that are compared, and how they are timed.

pub mod beside;
pub mod engine;
pub mod float;
pub mod flume;
pub mod growth;
pub mod heights;
pub mod identical;
pub mod lanes;
pub mod lattice;
pub mod measure;
pub mod modes;
pub mod native;
pub mod plain;
pub mod pools;
pub mod report;
pub mod scenes;
pub mod sweep;
