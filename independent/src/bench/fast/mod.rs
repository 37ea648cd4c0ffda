//! Fast forms in Rust of what the proved functions do, to time them against. Each function that is
//! timed is a call of its own, never inlined, as a call into the static library is.

pub mod checksum;
pub mod ecc;
pub mod line;
pub mod pack;
pub mod reader;
pub mod unpack;
