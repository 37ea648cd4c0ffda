//! What must come of a job: what the program prints, and what it writes into the trace's file.

use crate::compare::difference::ExpectedStderr;
use crate::generate::scripts::Job;
use crate::model::convert::{has_no_write, hub_of, refused_lines, to_text, to_trace, Refused};
use crate::model::start::Start;

/// So many refused lines are named; those behind them are counted.
const MOST_NAMED: usize = 20;

#[derive(Clone, Debug, PartialEq, Eq)]
pub enum Outcome {
    Taken(Vec<u8>),
    Refused(Refused),
}

impl Outcome {
    pub fn of(job: &Job) -> Outcome {
        let turned = match job {
            Job::Trace {
                address,
                start,
                text,
            } => to_trace(*address, *start, text),
            Job::Text { trace } => to_text(trace),
            Job::Start { trace } => hub_of(trace).map(said),
        };
        turned.map_or_else(Outcome::Refused, Outcome::Taken)
    }

    pub fn name(&self) -> &'static str {
        match self {
            Outcome::Taken(_) => "taken",
            Outcome::Refused(_) => "refused",
        }
    }

    /// What the program prints.
    pub fn stdout(&self, job: &Job) -> Vec<u8> {
        match (self, job) {
            (Outcome::Taken(text), Job::Text { .. } | Job::Start { .. }) => text.clone(),
            (Outcome::Refused(refused), _) => format!("{refused}\n").into_bytes(),
            _ => Vec::new(),
        }
    }

    pub fn stderr(&self, job: &Job) -> ExpectedStderr {
        match (self, job) {
            // A note that there is no register write, only the hub record.
            (Outcome::Taken(trace), Job::Trace { .. }) if has_no_write(trace) => {
                ExpectedStderr::OneLine
            }
            (Outcome::Taken(_), _) => ExpectedStderr::Nothing,
            (Outcome::Refused(Refused { line: Some(_), .. }), Job::Trace { text, .. }) => {
                ExpectedStderr::Lines(named("trace", &refused_lines(text)))
            }
            (Outcome::Refused(_), _) => ExpectedStderr::OneLine,
        }
    }

    /// What the trace's file holds afterwards: it is only touched where a trace was made.
    pub fn file<'a>(&'a self, job: &Job, old: Option<&'a [u8]>) -> Option<&'a [u8]> {
        match (self, job) {
            (Outcome::Taken(trace), Job::Trace { .. }) => Some(trace),
            _ => old,
        }
    }
}

/// A trace's address and start on one line.
fn said((address, start): (u8, Start)) -> Vec<u8> {
    format!("{address:02X} {}\n", start.name()).into_bytes()
}

/// How the command's words for refused lines begin.
pub fn named(command: &str, lines: &[u64]) -> Vec<String> {
    let (first, behind) = lines.split_at(lines.len().min(MOST_NAMED));
    let name = |line| format!("loopcinder {command}: line {line} ");
    let mut words: Vec<String> = first.iter().map(name).collect();
    if !behind.is_empty() {
        let count = behind.len();
        words.push(format!(
            "loopcinder {command}: refused lines besides these: {count}\n"
        ));
    }
    words
}
