//! The points that a comparison of converters must reach.

use super::outcome::Outcome;
use super::{border_points, text_points, trace_points};
use crate::compare::coverage::{joined, Coverage};
use crate::compare::hub_points;
use crate::generate::scripts::{Case, Job};

/// All points, those at the borders last.
pub const POINTS: &[&str] = &joined::<COUNT>(PARTS);
const PARTS: &[&[&str]] = &[ELSEWHERE, hub_points::POINTS, border_points::POINTS];
const COUNT: usize = ELSEWHERE.len() + hub_points::POINTS.len() + border_points::POINTS.len();

const ELSEWHERE: &[&str] = &[
    "a text from a file",
    "a text from standard input",
    "a trace from a file",
    "a trace from standard input",
    "the file made",
    "a file replaced",
    "a longer file replaced",
    "no file made by a refusal",
    "a file unchanged by a refusal",
    "the board's start",
    "the sheet's start",
    "the address 08",
    "the address 77",
    "an address with a capital letter",
    "an address with a small letter",
    "the empty text",
    "a text without a call",
    "a text with calls",
    "a text with more than 255 calls",
    "an empty line",
    "a line of blanks",
    "a comment alone",
    "blanks and a comment",
    "a call",
    "a call with a comment",
    "a call after a comment line",
    "a call of 200 bytes by blanks",
    "a call of 200 bytes by its comment",
    "a comment of 200 bytes",
    "200 blanks",
    "a space before the word",
    "a space before (",
    "a space after (",
    "a space before ,",
    "a space after ,",
    "a space before )",
    "a space after )",
    "a tab before the word",
    "a tab before (",
    "a tab after (",
    "a tab before ,",
    "a tab after ,",
    "a tab before )",
    "a tab after )",
    "a value of one digit",
    "a value of two digits",
    "a value with small letters",
    "a value with capitals",
    "a value with both",
    "an empty comment",
    "a comment with a call",
    "a comment with another #",
    "a comment with a carriage return",
    "a comment with a zero byte",
    "a comment with a byte above 7F",
    "2 for the address 07",
    "2 for the address 78",
    "2 for the address 80",
    "2 for the address FF",
    "2 before a right text",
    "2 before a 14",
    "2 before a 15",
    "14 in line 1",
    "14 in a later line",
    "14 in a line above 255",
    "14 in a line above 65535",
    "14 before a 15",
    "14 for a last line without a line feed",
    "15 in line 1",
    "15 in a later line",
    "15 in a line above 255",
    "15 before a 14",
    "15 for a line of 201 bytes",
    "15 for a longer line",
    "15 for a line of another shape too",
    "15 for a last line without a line feed",
    "a changed byte, taken",
    "a changed byte, refused",
    "a deleted byte, taken",
    "a deleted byte, refused",
    "an inserted byte, taken",
    "an inserted byte, refused",
    "14 for a carriage return",
    "14 for a capital X",
    "14 for three digits",
    "14 for no digits",
    "14 for a value without 0x",
    "14 for a decimal value",
    "14 for a digit that is none",
    "14 for a missing bracket",
    "14 for a bracket too many",
    "14 for another bracket",
    "14 for a missing comma",
    "14 for a comma too many",
    "14 for no value, one or three",
    "14 for two calls",
    "14 for text after a call",
    "14 for text before a call",
    "14 for another word",
    "14 for the word in another case",
    "14 for a part of a call",
    "14 for a # inside a call",
    "14 for another mark for a comment",
    "14 for a blank inside the word",
    "14 for a blank inside a value",
    "14 for a vertical tab",
    "14 for a form feed",
    "14 for a zero byte",
    "14 for a non-breaking space",
    "14 for a byte order mark",
    "the hub record alone",
    "a write of one value",
    "a burst",
    "a burst of 254 values",
    "a burst over FF to 00",
    "13 for an empty trace",
    "13 for the mark",
    "13 for the kind",
    "13 for the length",
    "13 for the direction",
    "13 for a second byte other than 0",
    "13 for a record cut short",
    "13 for a first record not of kind 00",
    "13 for kind 00 again",
    "13 for a record of a kind without text",
    "13 for a write without a value",
    "13 for a write as first record",
    "13 for another first record",
    "2 in record 1 for 07",
    "2 in record 1 for 78",
    "2 in record 1 for 80",
    "2 in record 1 for FF",
    "2 before nothing of a trace",
    "2 before writes",
    "2 before a 13 of a trace",
    "2 before a 16 of a trace",
    "16 for kind 02",
    "16 for kind 03",
    "16 for kind 10",
    "16 for kind 11",
    "16 for kind 12",
    "16 before writes",
    "16 before a 13 of a trace",
    "a trace's text read again at the board's start",
    "a trace's text read again at the sheet's start",
    "the board's start of a trace with no text",
    "the sheet's start of a trace with no text",
];

/// The points that a case reaches.
pub fn note(coverage: &mut Coverage, case: &Case, outcome: &Outcome) {
    let source = if case.way.piped {
        "standard input"
    } else {
        "a file"
    };
    match &case.job {
        Job::Trace {
            address,
            start,
            text,
        } => {
            coverage.note(&format!("a text from {source}"));
            border_points::note_text(coverage, text, source, outcome);
            text_points::note(coverage, case, *address, text, outcome);
            if let Outcome::Taken(_) = outcome {
                coverage.note(&format!("the {}'s start", start.name()));
            }
        }
        Job::Text { trace } | Job::Start { trace } => {
            coverage.note(&format!("a trace from {source}"));
            hub_points::note(coverage, trace);
            border_points::note_trace(coverage, trace, source, outcome);
            trace_points::note(coverage, trace, outcome);
        }
    }
}
