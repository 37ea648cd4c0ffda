//! The benchmark: the proved functions and the proved player, timed beside fast forms in Rust.

pub mod fast;
#[cfg(feature = "proved")]
pub mod timing;
