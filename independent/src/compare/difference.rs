//! What is wrong with a run, in one line, and the files kept of it.

use super::run::{Ending, Run};
use std::fs;
use std::io;
use std::path::Path;

/// What is kept of a run, by the ending of the file.
pub type Files = Vec<(&'static str, Vec<u8>)>;

/// A case on which the program under test did not do what it should.
pub struct Difference {
    /// What the numbers count.
    pub noun: &'static str,
    pub number: u64,
    pub kind: &'static str,
    pub what: String,
    pub files: Files,
}

impl Difference {
    /// Writes the files into the folder; the name they share.
    pub fn keep(&self, folder: &Path, seed: u64) -> io::Result<String> {
        let name = format!("seed-{seed}-{}-{}", self.noun, self.number);
        fs::create_dir_all(folder)?;
        for (ending, bytes) in &self.files {
            fs::write(folder.join(format!("{name}.{ending}")), bytes)?;
        }
        Ok(name)
    }
}

/// The one with the lower number, where there are two.
pub fn earlier(first: Option<Difference>, second: Option<Difference>) -> Option<Difference> {
    match (first, second) {
        (Some(first), Some(second)) if second.number < first.number => Some(second),
        (first, second) => first.or(second),
    }
}

/// What a run must have on its standard error.
#[derive(Clone, Debug, PartialEq, Eq)]
pub enum ExpectedStderr {
    Nothing,
    OneLine,
    /// A line for each, which begins so.
    Lines(Vec<String>),
}

/// What is wrong with a run, if anything.
pub fn what_is_wrong(run: &Run, stdout: &[u8], stderr: &ExpectedStderr) -> Option<String> {
    what_is_wrong_in_text(run, stdout, stderr).or_else(|| match run.ending {
        Ending::Exited(status) if !status.success() => {
            Some(format!("the right text, but the run ended with {status}"))
        }
        _ => None,
    })
}

/// The same where the exit status does not matter.
pub fn what_is_wrong_in_text(run: &Run, stdout: &[u8], stderr: &ExpectedStderr) -> Option<String> {
    match run.ending {
        Ending::TookTooLong => return Some("the program did not come to an end".into()),
        Ending::PrintedTooMuch => return Some("the program did not stop printing".into()),
        Ending::Exited(_) => {}
    }
    if run.stdout != stdout {
        return Some(first_differing_line(stdout, &run.stdout));
    }
    wrong_stderr(&run.stderr, stderr)
}

fn wrong_stderr(text: &[u8], expected: &ExpectedStderr) -> Option<String> {
    let mut lines = text.split_inclusive(|&byte| byte == b'\n');
    let first = lines.next();
    let ends = first.is_some_and(|line| line.ends_with(b"\n"));
    let one_line = ends && lines.next().is_none();
    let wrong = match expected {
        ExpectedStderr::Nothing if !text.is_empty() => "is not empty",
        ExpectedStderr::OneLine if !one_line => "is not one line",
        ExpectedStderr::Lines(starts) => return wrong_lines(text, starts),
        _ => return None,
    };
    let first = first.map(|line| line.strip_suffix(b"\n").unwrap_or(line));
    Some(format!("its standard error {wrong}: {}", shown(first)))
}

/// The first line that does not begin as it should, is missing, or is one too many.
fn wrong_lines(text: &[u8], starts: &[String]) -> Option<String> {
    let mut lines = text.split_inclusive(|&byte| byte == b'\n');
    for start in starts {
        let line = lines.next();
        let begins = |line: &[u8]| line.starts_with(start.as_bytes()) && line.ends_with(b"\n");
        if !line.is_some_and(begins) {
            let line = shown(line);
            return Some(format!(
                "a line of its standard error should begin with \"{start}\" and is {line}"
            ));
        }
    }
    let more = lines.next()?;
    let more = shown(Some(more));
    Some(format!("its standard error has a line too many: {more}"))
}

fn first_differing_line(expected: &[u8], got: &[u8]) -> String {
    let mut expected = expected.split_inclusive(|&byte| byte == b'\n');
    let mut got = got.split_inclusive(|&byte| byte == b'\n');
    let mut number = 0u64;
    loop {
        number += 1;
        let (right, given) = (expected.next(), got.next());
        if right != given || right.is_none() {
            let from = place_to_show(right.unwrap_or_default(), given.unwrap_or_default());
            let place = match from {
                0 => String::new(),
                _ => format!(", from byte {from} on,"),
            };
            let cut = |line: Option<&'_ [u8]>| shown(line.map(|line| &line[from..]));
            let (right, given) = (cut(right), cut(given));
            return format!("line {number}{place} should be {right} and is {given}");
        }
    }
}

/// Where lines that begin alike are shown from: a little before the byte in which they differ.
fn place_to_show(right: &[u8], given: &[u8]) -> usize {
    let alike = right
        .iter()
        .zip(given)
        .take_while(|(one, other)| one == other);
    match alike.count() {
        0..60 => 0,
        count => count - 30,
    }
}

/// A line in quotes, shortened, with what cannot be shown written out.
fn shown(line: Option<&[u8]>) -> String {
    match line {
        None => "missing".into(),
        Some(bytes) => {
            let text = bytes[..bytes.len().min(80)].escape_ascii();
            format!("\"{text}\"")
        }
    }
}
