//! Numbers and plane geometry, as 000 imports them.

pub mod math;
pub mod traits;
