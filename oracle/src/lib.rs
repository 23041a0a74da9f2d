//! The oracle of Blidrosk: 000 (`raw_pline_offset.rs` of cavalier_contours 0.9.0), unchanged, over
//! the arithmetic of 01 section 3, inside the job of 01 section 1.
//!
//! `core` and `polyline` hold what 000 imports. They are written after 01 alone, and not after the
//! proved code.

pub mod columns;
pub mod core;
#[cfg(with_000)]
pub mod draws;
pub mod generate;
#[cfg(with_000)]
mod job;
#[cfg(feature = "layers")]
pub mod layers;
pub mod newly;
#[cfg(with_000)]
pub mod packed;
pub mod part;
pub mod polyline;
#[cfg(feature = "proved")]
pub mod proved;
pub mod side_by_side;
pub mod stage;
pub mod text;
pub mod traced;

#[cfg(with_000)]
pub use job::{job, plain_job};

/// The exit status of a program of this package that was built without 000.
pub const WITHOUT_000: i32 = 3;
