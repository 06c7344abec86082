//! Water in a grid of cells, stepped in whole numbers by the free-surface lattice Boltzmann method.
//!
//! The library behind this wrapper is proved: every call accepts every input and ends, a step gives exactly the state that its
//! specification (document 01) derives, and no water is made or lost, to the unit. The wrapper owns the buffers and turns refusals into
//! [`Result`]s; it has no arithmetic of the method in it.
//!
//! ```
//! use skwarzyna::{Depth, Grid, Mode, Settings, Sides, ONE};
//!
//! # fn main() -> Result<(), Box<dyn std::error::Error>> {
//! // A closed box, and in it a block of water.
//! let mut grid = Grid::new(Sides::new(12, 8, 10))?;
//! for (x, y, z) in [(1, 1, 1), (2, 1, 1), (1, 2, 1), (1, 1, 2)] {
//!     grid.set_fluid(grid.sides().cell(x, y, z)?, ONE)?;
//! }
//! let before = grid.total();
//!
//! // A hundred steps: p 1600/1024, gravity of a ten-thousandth of a cell per step and step, downwards.
//! let settings = Settings { p: 1600, gx: 0, gy: 0, gz: -105 };
//! grid.run(100, settings)?;
//! // A hundred more, each cell relaxed by a p of its own.
//! grid.run(100, settings.in_mode(Mode::Turbulent))?;
//! assert_eq!(grid.total(), before);
//! if let Depth::Deep(cells) = grid.depth(1, 1)? {
//!     println!("{cells} cells deep");
//! }
//! # Ok(())
//! # }
//! ```
//!
//! [`Grid`] is what most hosts need; [`Scan`] has two schemes between the same walls; [`lent`] has the same calls over slices of one's
//! own; [`drawing`] draws a grid. [`Flume`] is a long section in two dimensions, with calls of its own ([`flume`]).

pub mod drawing;
pub mod flume;
mod grid;
mod heights;
mod index;
mod laying;
pub mod lent;
mod mode;
pub mod picture;
mod pools;
#[doc(hidden)]
pub mod raw;
mod readings;
mod refusal;
mod scan;
mod settings;
mod sides;
pub mod spelling;
mod state;

pub use flume::Flume;
pub use grid::{Grid, Record};
pub use index::{words_of, Held, HeldMut, Index, IndexMut, Next, Surface};
pub use mode::{InMode, Mode};
pub use pools::{Pool, Pools};
pub use readings::{CellPoint, Depth, Line, Profile, Station};
pub use refusal::{Place, Refusal, Stopped};
pub use scan::{Designer, Scan, Scheme};
pub use settings::{Axis, Point, Settings, Site};
pub use sides::Sides;
pub use state::{Counts, State, StateMut, Water, EMPTY, FLUID, FULL, INTERFACE, ONE, PARTS, WALL};
