//! The calls of the program on one case, and what is wrong with what it does.

use super::right::{status, Word};
use crate::compare::comparison::Settings;
use crate::compare::difference::{what_is_wrong, what_is_wrong_in_text, Files};
use crate::compare::json::is_json;
use crate::compare::run::{with_context, Program, Run};
use crate::generate::answers::{Case, Job};
use crate::model::convert::Refused;
use crate::screens::Subject;
use std::ffi::OsStr;
use std::fs;
use std::io;
use std::path::{Path, PathBuf};

/// Runs a program with its descriptor 3 in a file: on it the program says the status that the front
/// door ends with.
const WITH_STATUS: &str = "said=$1; shift; exec \"$@\" 3>\"$said\"";

/// A case, and the file that the program is given; `-` is standard input.
pub struct Calls<'a> {
    settings: &'a Settings,
    case: &'a Case,
    file: PathBuf,
    said: PathBuf,
}

/// What the program did wrong, and the files that show it.
pub struct Fault {
    pub what: String,
    pub files: Files,
}

impl<'a> Calls<'a> {
    pub fn new(settings: &'a Settings, folder: &Path, case: &'a Case) -> io::Result<Calls<'a>> {
        let calls = Calls {
            settings,
            case,
            file: case.file(folder),
            said: folder.join("said"),
        };
        if calls.input().is_none() {
            let cannot_write = |error| with_context(error, "write", &calls.file);
            fs::write(&calls.file, case.job.bytes()).map_err(cannot_write)?;
        }
        Ok(calls)
    }

    /// What goes in on standard input, where the program is given no file.
    fn input(&self) -> Option<&[u8]> {
        (self.file.as_os_str() == "-").then(|| self.case.job.bytes())
    }

    pub fn check(
        &self,
        word: Word,
        subject: &Result<Subject, Refused>,
    ) -> io::Result<Option<Fault>> {
        let stdout = word.stdout(subject);
        let stderr = word.stderr(&self.case.job, subject);
        let run = self.run(word, stdout.len() as u64)?;
        // The exit status of a refusal is the front door's to give.
        let mut wrong = match subject {
            Ok(_) => what_is_wrong(&run, &stdout, &stderr),
            Err(_) => what_is_wrong_in_text(&run, &stdout, &stderr),
        };
        if wrong.is_none() && word.prints_object() && subject.is_ok() && !is_json(&run.stdout) {
            wrong = Some("the object is not JSON".into());
        }
        if wrong.is_none() && word.is_check() {
            wrong = self.wrong_status(status(subject))?;
        }
        Ok(wrong.map(|what| Fault {
            what,
            files: self.files(word, stdout, run),
        }))
    }

    fn run(&self, word: Word, expected: u64) -> io::Result<Run> {
        let mut program = Program {
            path: &self.settings.program,
            role: "program",
            time_limit: self.settings.time_limit,
        };
        let mut arguments: Vec<&OsStr> = Vec::new();
        if word.is_check() {
            arguments.extend(["-c", WITH_STATUS, "sh"].map(OsStr::new));
            arguments.extend([self.said.as_os_str(), program.path.as_os_str()]);
            program.path = Path::new("/bin/sh");
        }
        let hub = match self.case.job {
            Job::Script { address, start, .. } => {
                vec![start.name().into(), format!("{address:02X}")]
            }
            Job::Trace { .. } => Vec::new(),
        };
        arguments.push(word.name().as_ref());
        arguments.extend(hub.iter().map(OsStr::new));
        arguments.push(self.file.as_os_str());
        program.run(&arguments, self.input(), expected)
    }

    fn wrong_status(&self, right: &[u8]) -> io::Result<Option<String>> {
        let said = fs::read(&self.said).map_err(|error| with_context(error, "read", &self.said))?;
        let words = |right: &[u8], given: &[u8]| {
            let (right, given) = (right.escape_ascii(), given.escape_ascii());
            format!("its status on descriptor 3 should be \"{right}\" and is \"{given}\"")
        };
        Ok((said != right).then(|| words(right, &said)))
    }

    /// The call, what went in, and what came out.
    fn files(&self, word: Word, stdout: Vec<u8>, run: Run) -> Files {
        let (ending, hub) = match &self.case.job {
            Job::Script { address, start, .. } => {
                ("script", format!("{} {address:02X} ", start.name()))
            }
            Job::Trace { .. } => ("trace", String::new()),
        };
        let (word_name, what) = (word.name(), ending.to_uppercase());
        let file = self.file.display();
        let call = format!("{word_name} {hub}{what}\n{what} is {file}\n");
        let [expected, actual] = word.endings();
        vec![
            ("call.txt", call.into_bytes()),
            (ending, self.case.job.bytes().to_vec()),
            (expected, stdout),
            (actual, run.stdout),
            ("stderr.txt", run.stderr),
        ]
    }
}
