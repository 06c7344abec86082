// skw flume: the commands over records of the flume, a file each.

pub mod check;
pub mod draw;
pub mod mirror;
pub mod run;
pub mod step;
pub mod water;
