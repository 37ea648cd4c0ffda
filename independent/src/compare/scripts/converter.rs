//! Runs the converter on one job, and checks what it prints and what it writes.

use super::outcome::Outcome;
use crate::compare::difference::{what_is_wrong, Files};
use crate::compare::run::{with_context, Program, Run};
use crate::generate::scripts::{Job, Way};
use std::ffi::OsStr;
use std::fs;
use std::io;
use std::path::{Path, PathBuf};

/// The converter under test, its folder, and there the file it is given and the file it writes a
/// trace to.
pub struct Converter<'a> {
    program: Program<'a>,
    folder: PathBuf,
    given: PathBuf,
    out: PathBuf,
}

/// What the program did wrong, and the files that show it.
pub struct Fault {
    pub what: String,
    pub files: Files,
}

impl Converter<'_> {
    pub fn new<'a>(folder: &Path, program: Program<'a>) -> Converter<'a> {
        Converter {
            program,
            folder: folder.to_path_buf(),
            given: folder.join("given"),
            out: folder.join("out.trace"),
        }
    }

    pub fn check(&self, job: &Job, way: &Way, outcome: &Outcome) -> io::Result<Option<Fault>> {
        self.prepare_out(way.old.as_deref())?;
        let stdout = outcome.stdout(job);
        let run = self.run(job, way, stdout.len() as u64)?;
        let file = self.read_out()?;
        let right_file = outcome.file(job, way.old.as_deref());
        let left_behind = self.left_behind()?;
        let wrong = what_is_wrong(&run, &stdout, &outcome.stderr(job))
            .or_else(|| wrong_file(right_file, file.as_deref()))
            .or(left_behind);
        Ok(wrong.map(|what| {
            let mut files = input_files(job, way);
            files.push(("expected.txt", stdout));
            files.push(("actual.txt", run.stdout));
            files.push(("stderr.txt", run.stderr));
            files.extend(right_file.map(|bytes| ("expected.out.trace", bytes.to_vec())));
            files.extend(file.map(|bytes| ("actual.out.trace", bytes)));
            Fault { what, files }
        }))
    }

    /// The trace's file as it is before the run.
    fn prepare_out(&self, old: Option<&[u8]>) -> io::Result<()> {
        let prepared = match old {
            Some(bytes) => fs::write(&self.out, bytes),
            None => fs::remove_file(&self.out),
        };
        match prepared {
            Err(error) if error.kind() != io::ErrorKind::NotFound => {
                Err(with_context(error, "prepare", &self.out))
            }
            _ => Ok(()),
        }
    }

    fn run(&self, job: &Job, way: &Way, expected: u64) -> io::Result<Run> {
        let (given, out) = (self.given.as_os_str(), self.out.as_os_str());
        let (Job::Text { trace: bytes }
        | Job::Start { trace: bytes }
        | Job::Trace { text: bytes, .. }) = job;
        let (given, input) = if way.piped {
            ("-".as_ref(), Some(&bytes[..]))
        } else {
            let cannot_write = |error| with_context(error, "write", &self.given);
            fs::write(given, bytes).map_err(cannot_write)?;
            (given, None)
        };
        let call = |arguments: &[&OsStr]| self.program.run(arguments, input, expected);
        match job {
            Job::Text { .. } => call(&["text".as_ref(), given]),
            Job::Start { .. } => call(&["start".as_ref(), given]),
            Job::Trace { address, start, .. } => {
                let address = shown_address(*address, way.capitals);
                let part = self.folder.join("part");
                call(&[
                    "trace".as_ref(),
                    start.name().as_ref(),
                    address.as_ref(),
                    given,
                    out,
                    part.as_ref(),
                ])
            }
        }
    }

    /// Says so where the program left another file beside the trace's.
    fn left_behind(&self) -> io::Result<Option<String>> {
        let cannot_list = |error| with_context(error, "list", &self.folder);
        for entry in fs::read_dir(&self.folder).map_err(cannot_list)? {
            let path = entry.map_err(cannot_list)?.path();
            if path != self.given && path != self.out {
                let name = path.file_name().unwrap_or_default().to_string_lossy();
                return Ok(Some(format!("the file {name} was left behind")));
            }
        }
        Ok(None)
    }

    /// The trace's file as it is after the run.
    fn read_out(&self) -> io::Result<Option<Vec<u8>>> {
        match fs::read(&self.out) {
            Ok(bytes) => Ok(Some(bytes)),
            Err(error) if error.kind() == io::ErrorKind::NotFound => Ok(None),
            Err(error) => Err(with_context(error, "read", &self.out)),
        }
    }
}

pub fn shown_address(address: u8, capitals: bool) -> String {
    if capitals {
        format!("{address:02X}")
    } else {
        format!("{address:02x}")
    }
}

fn wrong_file(right: Option<&[u8]>, found: Option<&[u8]>) -> Option<String> {
    match (right, found) {
        _ if right == found => None,
        (None, _) => Some("the trace's file should not be there".into()),
        (_, None) => Some("the trace's file is not there".into()),
        (Some(right), Some(found)) => {
            let (length, got) = (right.len(), found.len());
            let same = right.iter().zip(found).take_while(|(a, b)| a == b);
            let place = same.count();
            Some(format!(
                "the trace's file should have {length} bytes and has {got}, which differ from \
                 byte {place} on"
            ))
        }
    }
}

/// The call and what went in.
fn input_files(job: &Job, way: &Way) -> Files {
    let from = |name| if way.piped { "-" } else { name };
    let (call, ending, given) = match job {
        Job::Text { trace } => (format!("convert text {}\n", from("TRACE")), "trace", trace),
        Job::Start { trace } => (format!("convert start {}\n", from("TRACE")), "trace", trace),
        Job::Trace {
            address,
            start,
            text,
        } => {
            let (start, address) = (start.name(), shown_address(*address, way.capitals));
            let script = from("SCRIPT");
            let call = format!("convert trace {start} {address} {script} OUT PART\n");
            (call, "script", text)
        }
    };
    let mut files = vec![("call.txt", call.into_bytes()), (ending, given.clone())];
    let old = way.old.clone();
    files.extend(old.map(|bytes| ("old.out.trace", bytes)));
    files
}
