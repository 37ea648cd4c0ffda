//! Comparisons: proved programs are run on generated inputs and their output is compared with the
//! model's, and the functions of the proved library are called beside the model's.

pub mod answers;
pub mod cases;
pub mod comparison;
pub mod coverage;
pub mod difference;
mod hub_points;
pub mod json;
pub mod players;
pub mod run;
pub mod scripts;

#[cfg(feature = "proved")]
pub mod expected;
#[cfg(feature = "proved")]
pub mod proved;
