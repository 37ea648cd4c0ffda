//! The command `bench`, which needs the proved functions.

use super::Failure;
use std::ffi::OsString;

#[cfg(feature = "proved")]
pub fn run(player: &OsString) -> Result<(), Failure> {
    let player = super::program(player);
    let timed = independent::bench::timing::run(&player, &mut std::io::stdout());
    timed.map_err(|error| Failure::Work(error.to_string()))
}

#[cfg(not(feature = "proved"))]
pub fn run(_: &OsString) -> Result<(), Failure> {
    let text = "bench times the proved functions: build with --features proved";
    Err(Failure::Call(text.into()))
}
