//! Jobs to compare on: all short ones over small grids, random ones of several families, and
//! jobs steered to the doubles between which a test turns.

pub mod columns;
#[cfg(with_000)]
pub mod draws;
mod families;
mod grid;
mod keyholes;
pub mod outputs;
mod pointed;
mod random;
mod reasons;
mod steer;

pub use families::{FAMILIES, Family, with_a_nan};
pub use grid::{each_close_job, each_short_job};
pub use keyholes::KEYHOLES;
pub use pointed::POINTED;
pub use random::Random;
pub use reasons::REASONS;
pub use steer::Steering;
