//! The points that a comparison of answers must reach.

use super::right::Word;
use super::{clash_points, lost_points, order_points, record_points, screen_points, write_points};
use crate::compare::coverage::{joined, Coverage};
use crate::facts::findings::finding::{Finding, Grade, Kind};
use crate::generate::answers::{Case, Job};
use crate::model::convert::Refused;
use crate::model::registers::MAX_FRM_LO;
use crate::model::start::Start;
use crate::screens::Subject;

pub const POINTS: &[&str] = &joined::<COUNT>(PARTS);

const PARTS: &[&[&str]] = &[
    HERE,
    order_points::POINTS,
    write_points::POINTS,
    clash_points::POINTS,
    screen_points::POINTS,
    lost_points::POINTS,
];

const COUNT: usize = HERE.len()
    + order_points::POINTS.len()
    + write_points::POINTS.len()
    + clash_points::POINTS.len()
    + screen_points::POINTS.len()
    + lost_points::POINTS.len();

const HERE: &[&str] = &[
    "a script at the board's start",
    "a script at the sheet's start",
    "a trace at the board's start",
    "a trace at the sheet's start",
    "a trace refused 2 at the sheet's start",
    "a trace refused 13 for its second byte",
    "a trace refused 13 for a hub record of 3 bytes",
    "00 to 1E, as the board starts",
    "00 to 1E, as the sheet does not start",
    "04 to 1E, as the sheet starts",
    "04 to 1E, as the board does not start",
    "a script taken",
    "a script of no bytes",
    "a script without a write",
    "a script refused 2",
    "a script refused 14",
    "a script refused 15",
    "a trace taken",
    "a trace of no bytes refused 13",
    "a trace of the hub record alone",
    "a trace with records that change no register",
    "a trace with a refused question or frame",
    "a trace refused 2",
    "a trace refused 13",
    "a trace refused 13 after writes",
    "a burst of several findings",
    "a burst over 4C",
    "a burst over FF to 00",
    "no finding",
    "notes alone",
    "nothing but meant",
    "a line above 255",
    "a line above 65535",
    "a script: replaced",
    "a script: same-channel wrong",
    "a script: same-channel meant",
    "a script: same-address wrong",
    "a script: same-address meant",
    "a script: no-port",
    "a script: not-set-up",
    "a script: port-twice",
    "a script: shared-in-block",
    "a script: not-followed",
    "a script: bits-ignored",
    "a script: no-change",
    "a script: odd-alias",
    "a script: no-address",
    "a trace: replaced",
    "a trace: same-channel wrong",
    "a trace: same-channel meant",
    "a trace: same-address wrong",
    "a trace: same-address meant",
    "a trace: no-port",
    "a trace: not-set-up",
    "a trace: port-twice",
    "a trace: shared-in-block",
    "a trace: not-followed",
    "a trace: bits-ignored",
    "a trace: no-change",
    "a trace: odd-alias",
    "a trace: no-address",
];

/// What the case reaches where it is compared with these calls.
pub fn note(
    coverage: &mut Coverage,
    case: &Case,
    subject: &Result<Subject, Refused>,
    words: &[Word],
) {
    let form = match &case.job {
        Job::Script { .. } => "script",
        Job::Trace { trace } => {
            record_points::note(coverage, trace, subject.is_err());
            "trace"
        }
    };
    let no_bytes = match case.job.bytes() {
        [] => " of no bytes",
        _ => "",
    };
    match subject {
        Ok(subject) => {
            coverage.note(&format!("a {form} taken"));
            coverage.note(&format!(
                "a {form} at the {}'s start",
                subject.given.start.name()
            ));
            coverage.note(&format!("a {form}{no_bytes}"));
            note_taken(coverage, form, subject);
            screen_points::note(coverage, subject, words);
            if words.contains(&Word::Show) {
                lost_points::note(coverage, subject);
            }
        }
        Err(refused) => {
            let number = refused.refusal.number();
            coverage.note(&format!("a {form} refused {number}"));
            coverage.note(&format!("a {form}{no_bytes} refused {number}"));
        }
    }
}

fn note_taken(coverage: &mut Coverage, form: &str, subject: &Subject) {
    let (given, run, answer) = (&subject.given, &subject.run, &subject.answer);
    if given.writes.is_empty() {
        coverage.note(&format!("a {form} without a write"));
    }
    note_largest(coverage, subject);
    for finding in &answer.findings {
        let kind = finding.kind.name();
        coverage.note(&match finding.kind {
            Kind::SameChannel | Kind::SameAddress => {
                format!("a {form}: {kind} {}", finding.grade.name())
            }
            _ => format!("a {form}: {kind}"),
        });
        match finding.lines.last() {
            Some(256..=65_535) => coverage.note("a line above 255"),
            Some(65_536..) => coverage.note("a line above 65535"),
            _ => {}
        }
    }
    let all = |grade| answer.findings.iter().all(|it: &Finding| it.grade == grade);
    match &answer.findings[..] {
        [] => coverage.note("no finding"),
        _ if all(Grade::Note) => coverage.note("notes alone"),
        _ if all(Grade::Meant) => coverage.note("nothing but meant"),
        _ => {}
    }
    order_points::note(coverage, given, run);
    write_points::note(coverage, run, &answer.findings);
    clash_points::note(coverage, run, answer);
}

/// The first write to 1E, where it gives what the register holds at one of the starts.
fn note_largest(coverage: &mut Coverage, subject: &Subject) {
    let mut writes = subject.given.writes.iter();
    let first = writes.find(|write| write.offset == MAX_FRM_LO);
    coverage.note(
        match (first.map(|write| write.value), subject.given.start) {
            (Some(0x00), Start::Board) => "00 to 1E, as the board starts",
            (Some(0x00), Start::Sheet) => "00 to 1E, as the sheet does not start",
            (Some(0x04), Start::Sheet) => "04 to 1E, as the sheet starts",
            (Some(0x04), Start::Board) => "04 to 1E, as the board does not start",
            _ => return,
        },
    );
}
