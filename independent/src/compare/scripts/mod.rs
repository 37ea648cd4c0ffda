//! The comparison of converters: numbered texts and traces of a seed, each turned by the program
//! under test and by the model, byte for byte, until the first difference. A trace's start is asked
//! for, and a text that was made from a trace is turned back with it.

mod border_points;
mod converter;
mod line_points;
mod outcome;
mod points;
mod text_points;
mod trace_points;

use super::comparison::{Comparison, Findings, Settings};
use super::coverage::Coverage;
use super::difference::Difference;
use super::run::Program;
use crate::generate::scripts::{self, Case, Job};
use crate::model::convert::hub_of;
use crate::model::player::end_state;
use converter::{Converter, Fault};
pub use outcome::named;
use outcome::Outcome;
use points::POINTS;
use std::io;
use std::path::Path;

pub static CONVERTERS: Comparison = Comparison {
    program:
        "a program that takes 'trace START ADDRESS SCRIPT OUT', 'text TRACE' and 'start TRACE'",
    cases: "cases",
    points: POINTS,
    refusals: "every refusal the program can give (2, 13, 14, 15, 16)",
    compare_one,
    compared,
    compared_in_full: compared,
};

fn compared(found: &Findings) -> String {
    format!("{} texts and {} traces", found.texts, found.traces)
}

fn compare_one(settings: &Settings, folder: &Path, number: u64) -> io::Result<Findings> {
    let case = scripts::numbered(settings.seed, number);
    let program = Program {
        path: &settings.program,
        role: "converter",
        time_limit: settings.time_limit,
    };
    let converter = Converter::new(folder, program);
    let outcome = Outcome::of(&case.job);
    let mut found = Findings {
        coverage: Coverage::new(POINTS),
        ..Findings::default()
    };
    match case.job {
        Job::Trace { .. } => found.texts += 1,
        Job::Text { .. } | Job::Start { .. } => found.traces += 1,
    }
    points::note(&mut found.coverage, &case, &outcome);
    let mut fault = converter.check(&case.job, &case.way, &outcome)?;
    if let (None, Job::Text { trace }) = (&fault, &case.job) {
        let job = Job::Start {
            trace: trace.clone(),
        };
        fault = converter.check(&job, &case.way, &Outcome::of(&job))?;
    }
    if let (None, Job::Text { trace }, Outcome::Taken(text)) = (&fault, &case.job, outcome) {
        fault = turn_back(&converter, &case, trace, text)?;
    }
    found.difference = fault.map(|Fault { what, files }| Difference {
        noun: "case",
        number,
        kind: case.kind.name(),
        what,
        files,
    });
    Ok(found)
}

/// Reads the text of a trace again with its address and start: it has to play to the same end state.
fn turn_back(
    converter: &Converter,
    case: &Case,
    trace: &[u8],
    text: Vec<u8>,
) -> io::Result<Option<Fault>> {
    let end = end_state(trace);
    let Ok((address, start)) = hub_of(trace) else {
        return Ok(None); // a trace that has a text has a hub
    };
    let job = Job::Trace {
        address,
        start,
        text,
    };
    let outcome = Outcome::of(&job);
    let fault = converter.check(&job, &case.way, &outcome)?;
    match outcome {
        Outcome::Taken(again) if fault.is_none() && end_state(&again) != end => Ok(Some(Fault {
            what: "the text of the trace plays to another end state".into(),
            files: vec![("trace", trace.to_vec()), ("again.trace", again)],
        })),
        _ => Ok(fault),
    }
}

/// The points that a numbered case reaches, without a run.
pub fn note_points(coverage: &mut Coverage, seed: u64, number: u64) {
    let case = scripts::numbered(seed, number);
    points::note(coverage, &case, &Outcome::of(&case.job));
}
