//! The command `convert`, with the streams of the proved program: a refusal stands on standard
//! output, and what it means on standard error.

use super::{cannot_print, cannot_write, Failure};
use independent::compare::scripts::named;
use independent::model::convert::{
    has_no_write, hub_of, refused_lines, to_text, to_trace, Refused,
};
use independent::model::start::Start;
use std::ffi::OsString;
use std::fs;
use std::io::{self, Read, Write};
use std::path::Path;

pub fn trace(
    start: &OsString,
    address: &OsString,
    script: &Path,
    out: &Path,
) -> Result<(), Failure> {
    let start = start_of(&start.to_string_lossy())?;
    let address = hex_byte(&address.to_string_lossy())?;
    let text = read(script)?;
    match to_trace(address, start, &text) {
        Ok(trace) => {
            if has_no_write(&trace) {
                let _ = writeln!(io::stderr(), "note: there is no register write");
            }
            fs::write(out, trace).map_err(|error| cannot_write(out, error))
        }
        Err(refused) if refused.line.is_some() => {
            print_refusal(&named("trace", &refused_lines(&text)), refused)
        }
        Err(refused) => print_refusal(&["the address is refused".into()], refused),
    }
}

pub fn text(trace: &Path) -> Result<(), Failure> {
    match to_text(&read(trace)?) {
        Ok(text) => io::stdout().write_all(&text).map_err(cannot_print),
        Err(refused) => print_refusal(&["the trace is refused".into()], refused),
    }
}

/// The trace's address and start, with which its text is read again.
pub fn start(trace: &Path) -> Result<(), Failure> {
    match hub_of(&read(trace)?) {
        Ok((address, start)) => {
            let start = start.name();
            writeln!(io::stdout(), "{address:02X} {start}").map_err(cannot_print)
        }
        Err(refused) => print_refusal(&["the trace is refused".into()], refused),
    }
}

fn start_of(text: &str) -> Result<Start, Failure> {
    let problem = || Failure::Call(format!("the start must be board or sheet, not {text}"));
    Start::of_name(text).ok_or_else(problem)
}

/// Two hex digits in either case.
pub fn hex_byte(text: &str) -> Result<u8, Failure> {
    let is_hex = text.len() == 2 && text.bytes().all(|byte| byte.is_ascii_hexdigit());
    let byte = u8::from_str_radix(text, 16).ok().filter(|_| is_hex);
    let problem = || Failure::Call(format!("the address must be two hex digits, not {text}"));
    byte.ok_or_else(problem)
}

/// The whole file, or standard input for -.
pub fn read(path: &Path) -> Result<Vec<u8>, Failure> {
    let got = if path.as_os_str() == "-" {
        let mut bytes = Vec::new();
        io::stdin().read_to_end(&mut bytes).map(|_| bytes)
    } else {
        fs::read(path)
    };
    let cannot_read = |error| format!("cannot read {}: {error}", path.display());
    got.map_err(|error| Failure::Work(cannot_read(error)))
}

/// Exit status 0, as the proved program has no other.
fn print_refusal(words: &[String], refused: Refused) -> Result<(), Failure> {
    for words in words {
        let _ = writeln!(io::stderr(), "{}", words.trim_end_matches('\n'));
    }
    writeln!(io::stdout(), "{refused}").map_err(cannot_print)
}
