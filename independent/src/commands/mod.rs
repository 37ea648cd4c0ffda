//! The commands, and what they share.

pub mod bench;
pub mod compare;
pub mod convert;
pub mod generate;
pub mod play;
pub mod show;

use std::ffi::OsString;
use std::path::{Path, PathBuf};

/// How a command failed: called wrongly, or could not do its work. An empty text says nothing.
pub enum Failure {
    Call(String),
    Work(String),
}

pub fn cannot_write(path: &Path, error: std::io::Error) -> Failure {
    Failure::Work(format!("cannot write {}: {error}", path.display()))
}

pub fn cannot_print(error: std::io::Error) -> Failure {
    Failure::Work(format!("cannot write the output: {error}"))
}

/// A bare name means the file here, if there is one, rather than a command of the system.
pub fn program(name: &OsString) -> PathBuf {
    std::fs::canonicalize(name).unwrap_or_else(|_| PathBuf::from(name))
}

pub fn number(text: &OsString, what: &str) -> Result<u64, Failure> {
    let text = text.to_string_lossy();
    text.parse().map_err(|_| {
        Failure::Call(format!(
            "{what} must be a whole number from 0 up, and {text} is not"
        ))
    })
}
