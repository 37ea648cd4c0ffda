//! The words that the program is called with, and what is right for each.

use crate::compare::difference::ExpectedStderr;
use crate::compare::scripts::named;
use crate::facts::object::object;
use crate::generate::answers::Job;
use crate::model::convert::{refused_lines, Refused};
use crate::screens::{check, show, Subject};

#[derive(Clone, Copy, PartialEq, Eq)]
pub enum Word {
    Json,
    Show,
    Check,
    CheckJson,
}

impl Word {
    pub fn name(self) -> &'static str {
        match self {
            Word::Json => "json",
            Word::Show => "show",
            Word::Check => "check",
            Word::CheckJson => "check-json",
        }
    }

    /// The command that the words on standard error name.
    fn command(self) -> &'static str {
        match self {
            Word::Json | Word::Show => "show",
            Word::Check | Word::CheckJson => "check",
        }
    }

    pub fn is_check(self) -> bool {
        self.command() == "check"
    }

    /// The ending of the files that are kept of what is printed.
    pub fn endings(self) -> [&'static str; 2] {
        match self {
            Word::Json | Word::CheckJson => ["expected.json", "actual.json"],
            Word::Show | Word::Check => ["expected.txt", "actual.txt"],
        }
    }

    pub fn prints_object(self) -> bool {
        matches!(self, Word::Json | Word::CheckJson)
    }

    /// The object, the screen, or the refusal.
    pub fn stdout(self, subject: &Result<Subject, Refused>) -> Vec<u8> {
        match (self, subject) {
            (_, Err(refused)) => format!("{refused}\n").into_bytes(),
            (Word::Show, Ok(subject)) => show(subject),
            (Word::Check, Ok(subject)) => check(subject),
            (_, Ok(subject)) => format!("{}\n", object(&subject.answer)).into_bytes(),
        }
    }

    pub fn stderr(self, job: &Job, subject: &Result<Subject, Refused>) -> ExpectedStderr {
        match (job, subject) {
            (_, Ok(_)) => ExpectedStderr::Nothing,
            (Job::Script { text, .. }, Err(Refused { line: Some(_), .. })) => {
                ExpectedStderr::Lines(named(self.command(), &refused_lines(text)))
            }
            _ => ExpectedStderr::OneLine,
        }
    }
}

/// The status of `check`.
pub fn status(subject: &Result<Subject, Refused>) -> &'static [u8] {
    match subject {
        Ok(subject) if subject.answer.is_wrong() => b"1",
        Ok(_) => b"0",
        Err(_) => b"2",
    }
}
