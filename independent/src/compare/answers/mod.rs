//! The comparison of programs that answer what a script or a trace comes to: numbered scripts and
//! traces of a seed, each answered by the program under test and by the facts, as an object and as
//! both screens, byte for byte, until the first difference.

mod calls;
mod clash_points;
mod lost_points;
mod order_points;
mod points;
mod record_points;
mod right;
mod screen_points;
mod write_points;

use super::comparison::{Comparison, Findings, Settings};
use super::coverage::Coverage;
use super::difference::Difference;
use crate::generate::answers::{numbered, Case, Job};
use crate::model::convert::Refused;
use crate::screens::Subject;
use calls::{Calls, Fault};
use points::POINTS;
use right::Word;
use std::io;
use std::path::Path;

/// So often the object is asked of `check` too.
const CHECK_JSON_EVERY: u64 = 16;

/// Calls take long where there are more writes than these: then one is enough, in turn, and of still
/// more writes the shortest.
const MANY_WRITES: usize = 2000;
const TOO_MANY_WRITES: usize = 20_000;

pub static ANSWERS: Comparison = Comparison {
    program:
        "a program that takes 'json START ADDRESS SCRIPT' and 'json TRACE', and so show, check and \
              check-json",
    cases: "cases",
    points: POINTS,
    refusals: "every refusal the program can give (2, 13, 14, 15)",
    compare_one,
    compared,
    compared_in_full: compared,
};

fn compared(found: &Findings) -> String {
    let (scripts, traces) = (found.texts, found.traces);
    format!("{scripts} scripts and {traces} traces, as objects and on both screens")
}

fn compare_one(settings: &Settings, folder: &Path, number: u64) -> io::Result<Findings> {
    let case = numbered(settings.seed, number);
    let file = case.file(folder);
    let subject = subject(&case, &file);
    let mut found = Findings {
        coverage: Coverage::new(POINTS),
        ..Findings::default()
    };
    match case.job {
        Job::Script { .. } => found.texts += 1,
        Job::Trace { .. } => found.traces += 1,
    }
    let words = words(number, &subject);
    points::note(&mut found.coverage, &case, &subject, &words);
    let fault = first_fault(&Calls::new(settings, folder, &case)?, &words, &subject)?;
    found.difference = fault.map(|Fault { what, files }| Difference {
        noun: "case",
        number,
        kind: case.kind.name(),
        what,
        files,
    });
    Ok(found)
}

/// The calls of the case with this number.
fn words(number: u64, subject: &Result<Subject, Refused>) -> Vec<Word> {
    let all = [Word::Json, Word::Show, Word::Check];
    let writes = subject.as_ref().map_or(0, |it| it.given.writes.len());
    if writes > TOO_MANY_WRITES {
        vec![Word::Show]
    } else if writes > MANY_WRITES {
        vec![all[(number / 15 % 3) as usize]]
    } else if number.is_multiple_of(CHECK_JSON_EVERY) {
        [&all[..], &[Word::CheckJson]].concat()
    } else {
        all.to_vec()
    }
}

fn first_fault(
    calls: &Calls,
    words: &[Word],
    subject: &Result<Subject, Refused>,
) -> io::Result<Option<Fault>> {
    for &word in words {
        let fault = calls.check(word, subject)?;
        if fault.is_some() {
            return Ok(fault);
        }
    }
    Ok(None)
}

/// The case with the name of its file, as the program is given it.
fn subject<'a>(case: &'a Case, file: &'a Path) -> Result<Subject<'a>, Refused> {
    let name = file.as_os_str().as_encoded_bytes();
    match &case.job {
        Job::Script {
            address,
            start,
            text,
        } => Subject::of_script(name, *address, *start, text),
        Job::Trace { trace } => Subject::of_trace(name, trace),
    }
}

/// The points that a numbered case reaches, without a run.
pub fn note_points(coverage: &mut Coverage, seed: u64, number: u64) {
    let case = numbered(seed, number);
    let file = case.file(Path::new(""));
    let subject = subject(&case, &file);
    points::note(coverage, &case, &subject, &words(number, &subject));
}
