//! The points that a text reaches.

use super::converter::shown_address;
use super::line_points;
use super::outcome::Outcome;
use crate::compare::coverage::Coverage;
use crate::generate::scripts::{Case, Kind};
use crate::model::convert::{pieces, to_trace, Refused};
use crate::model::refusal::Refusal;
use crate::model::script_line::{read_shape, LONGEST_LINE};
use crate::model::start::Start;

pub fn note(coverage: &mut Coverage, case: &Case, address: u8, text: &[u8], outcome: &Outcome) {
    note_edit(coverage, case.kind, outcome);
    note_file(coverage, case.way.old.as_deref(), outcome);
    match outcome {
        Outcome::Taken(_) => {
            line_points::note(coverage, text);
            note_address(coverage, &shown_address(address, case.way.capitals));
        }
        Outcome::Refused(refused) => {
            note_refusal(coverage, address, text, *refused);
            if refused.refusal == Refusal::LineShape {
                coverage.note(case.wrong.unwrap_or_default());
            }
        }
    }
}

fn note_edit(coverage: &mut Coverage, kind: Kind, outcome: &Outcome) {
    let edit = match kind {
        Kind::Changed => "a changed byte",
        Kind::Deleted => "a deleted byte",
        Kind::Inserted => "an inserted byte",
        _ => return,
    };
    coverage.note(&format!("{edit}, {}", outcome.name()));
}

fn note_file(coverage: &mut Coverage, old: Option<&[u8]>, outcome: &Outcome) {
    coverage.note(match (outcome, old) {
        (Outcome::Taken(_), None) => "the file made",
        (Outcome::Taken(trace), Some(old)) if old.len() > trace.len() => "a longer file replaced",
        (Outcome::Taken(_), Some(_)) => "a file replaced",
        (Outcome::Refused(_), None) => "no file made by a refusal",
        (Outcome::Refused(_), Some(_)) => "a file unchanged by a refusal",
    });
}

fn note_address(coverage: &mut Coverage, shown: &str) {
    coverage.note(&format!("the address {shown}"));
    if shown.contains(|letter: char| letter.is_ascii_uppercase()) {
        coverage.note("an address with a capital letter");
    }
    if shown.contains(|letter: char| letter.is_ascii_lowercase()) {
        coverage.note("an address with a small letter");
    }
}

fn note_refusal(coverage: &mut Coverage, address: u8, text: &[u8], refused: Refused) {
    let Some(number) = refused.line else {
        coverage.note(&format!("2 for the address {address:02X}"));
        coverage.note(&format!("2 before {}", refusal_of(text)));
        return;
    };
    let refusal = refused.refusal.number();
    let place = match number {
        1 => "line 1",
        2..=255 => "a later line",
        256..=65535 => "a line above 255",
        _ => "a line above 65535",
    };
    coverage.note(&format!("{refusal} in {place}"));
    let mut lines = pieces(text).skip(number as usize - 1);
    let piece = lines.next().unwrap_or_default();
    let rest = lines.collect::<Vec<_>>().concat();
    coverage.note(&format!("{refusal} before {}", refusal_of(&rest)));
    match piece.strip_suffix(b"\n") {
        None => coverage.note(&format!("{refusal} for a last line without a line feed")),
        Some(line) if refusal == 15 => coverage.note(too_long_point(line)),
        Some(_) => {}
    }
}

/// What a text would give with a right address.
fn refusal_of(text: &[u8]) -> String {
    match to_trace(0x3D, Start::Board, text) {
        Ok(_) => "a right text".into(),
        Err(refused) => format!("a {}", refused.refusal.number()),
    }
}

fn too_long_point(line: &[u8]) -> &'static str {
    match read_shape(line) {
        Ok(_) if line.len() == LONGEST_LINE + 1 => "15 for a line of 201 bytes",
        Ok(_) => "15 for a longer line",
        Err(_) => "15 for a line of another shape too",
    }
}
