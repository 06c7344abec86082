// The flume of P3 and its mirror of P13: document 01's step, run and record once more on D2Q9, written from the amendment. What is said of both lattices is taken from the box's modules.

pub mod bounds;
pub mod commands;
pub mod damage;
pub mod drawing;
pub mod grid;
pub mod hunt;
pub mod lattice;
pub mod mirror;
pub mod record;
pub mod run;
pub mod scenes;
pub mod sets;
pub mod settings;
pub mod state;
pub mod step;

pub use mirror::mirror;
pub use record::{read, write};
pub use run::run;
pub use settings::Settings;
pub use state::check;
pub use step::step;
