//! A second opinion on the DS90UB964-Q1 hub: a model of its own, written from documents 01 and 02,
//! the facts of a script behind `show` and `check` with their screens, generators of traces and scripts,
//! comparisons of the proved programs with the model, and a benchmark.

#![deny(unsafe_code)]

pub mod bench;
pub mod compare;
pub mod facts;
pub mod generate;
pub mod model;
pub mod screens;
