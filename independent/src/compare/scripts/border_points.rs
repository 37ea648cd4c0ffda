//! The points at the borders of what the program reads and writes at a time.

use super::outcome::Outcome;
use crate::compare::coverage::Coverage;
use crate::generate::scripts::WINDOW;
use crate::model::convert::{pieces, to_text};
use crate::model::refusal::Refusal;
use crate::model::script_line::LONGEST_LINE;

/// What can come from a file and from standard input, in both ways.
macro_rules! from_both {
    ($($what:literal,)*) => {
        &[$(concat!($what, " from a file"), concat!($what, " from standard input"),)*]
    };
}

pub const POINTS: &[&str] = from_both![
    "a text of 65535 bytes taken",
    "a text of 65535 bytes with 14 in its last line",
    "a text of 65535 bytes with 15 in its last line",
    "a text of 65535 bytes without a line feed at its end",
    "a text of 65536 bytes taken",
    "a text of 65536 bytes with 14 in its last line",
    "a text of 65536 bytes with 15 in its last line",
    "a text of 65536 bytes without a line feed at its end",
    "a text of 65537 bytes taken",
    "a text of 65537 bytes with 14 in its last line",
    "a text of 65537 bytes with 15 in its last line",
    "a text of 65537 bytes without a line feed at its end",
    "a text of 131071 bytes taken",
    "a text of 131071 bytes with 14 in its last line",
    "a text of 131071 bytes with 15 in its last line",
    "a text of 131071 bytes without a line feed at its end",
    "a text of 131072 bytes taken",
    "a text of 131072 bytes with 14 in its last line",
    "a text of 131072 bytes with 15 in its last line",
    "a text of 131072 bytes without a line feed at its end",
    "a text of 131073 bytes taken",
    "a text of 131073 bytes with 14 in its last line",
    "a text of 131073 bytes with 15 in its last line",
    "a text of 131073 bytes without a line feed at its end",
    "a text of over 262144 bytes taken",
    "a trace of over 65536 bytes made",
    "a line of 200 bytes across a border",
    "a line of 200 bytes up to a border",
    "a line of 201 bytes across a border",
    "a line of 201 bytes up to a border",
    "a line of over 65536 bytes",
    "a trace of 65535 bytes taken",
    "a trace of 65535 bytes with 13 in its last record",
    "a trace of 65535 bytes with 16 in its last record",
    "a trace of 65535 bytes cut short",
    "a trace of 65536 bytes taken",
    "a trace of 65536 bytes with 13 in its last record",
    "a trace of 65536 bytes with 16 in its last record",
    "a trace of 65536 bytes cut short",
    "a trace of 65537 bytes taken",
    "a trace of 65537 bytes with 13 in its last record",
    "a trace of 65537 bytes with 16 in its last record",
    "a trace of 65537 bytes cut short",
    "a trace of over 262144 bytes taken",
    "a border after byte 1 of a record",
    "a border after byte 2 of a record",
    "a border after byte 3 of a record",
    "a border after byte 4 of a record",
    "a border among the values of a record",
    "a text of 65520 bytes made",
    "a text of 65540 bytes made",
    "a text of over 262144 bytes made",
];

/// The points of a text that comes from there.
pub fn note_text(coverage: &mut Coverage, text: &[u8], source: &str, outcome: &Outcome) {
    let end = text_end(text, outcome);
    note_length(coverage, "text", text.len(), end, source);
    if let Outcome::Taken(trace) = outcome {
        note_length(coverage, "trace", trace.len(), "made", source);
    }
    if text.len() > WINDOW {
        note_line(coverage, text, source, outcome);
    }
}

/// The points of a trace that comes from there.
pub fn note_trace(coverage: &mut Coverage, trace: &[u8], source: &str, outcome: &Outcome) {
    let end = trace_end(trace, outcome);
    note_length(coverage, "trace", trace.len(), end, source);
    if let Outcome::Taken(text) = outcome {
        note_length(coverage, "text", text.len(), "made", source);
        note_record(coverage, trace, source);
    }
}

/// The length itself, and that it is over a border.
fn note_length(coverage: &mut Coverage, what: &str, length: usize, end: &str, source: &str) {
    coverage.note(&format!("a {what} of {length} bytes {end} from {source}"));
    for border in [WINDOW, 4 * WINDOW] {
        if length > border {
            let point = format!("a {what} of over {border} bytes {end} from {source}");
            coverage.note(&point);
        }
    }
}

/// How a text ends; nothing where an earlier line is refused.
fn text_end(text: &[u8], outcome: &Outcome) -> &'static str {
    let refused = match outcome {
        Outcome::Taken(_) => return "taken",
        Outcome::Refused(refused) => refused,
    };
    let lines = pieces(text).count() as u64;
    match refused.refusal {
        _ if refused.line != Some(lines) => "",
        Refusal::LineTooLong => "with 15 in its last line",
        _ if text.ends_with(b"\n") => "with 14 in its last line",
        _ => "without a line feed at its end",
    }
}

/// The line at the first border, where it is taken or is the one that is refused.
fn note_line(coverage: &mut Coverage, text: &[u8], source: &str, outcome: &Outcome) {
    let mut start = 0;
    for (number, piece) in (1..).zip(pieces(text)) {
        let length = piece.strip_suffix(b"\n").unwrap_or(piece).len();
        let refused = matches!(outcome, Outcome::Refused(it) if it.line == Some(number));
        if length > WINDOW && refused {
            coverage.note(&format!("a line of over {WINDOW} bytes from {source}"));
        }
        if start < WINDOW && WINDOW <= start + length && refused == (length > LONGEST_LINE) {
            let place = if WINDOW == start + length {
                "up to"
            } else {
                "across"
            };
            let line = format!("a line of {length} bytes {place} a border from {source}");
            coverage.note(&line);
        }
        if refused {
            return;
        }
        start += piece.len();
    }
}

/// How a trace ends; nothing where an earlier record is refused.
fn trace_end(trace: &[u8], outcome: &Outcome) -> &'static str {
    let refused = match outcome {
        Outcome::Taken(_) => return "taken",
        Outcome::Refused(refused) => refused,
    };
    let (start, size) = records(trace).last().unwrap_or_default();
    match refused.refusal {
        _ if to_text(&trace[..start]).is_err() => "",
        Refusal::NoTextForm => "with 16 in its last record",
        Refusal::RecordMalformed if start + size > trace.len() => "cut short",
        Refusal::RecordMalformed => "with 13 in its last record",
        _ => "",
    }
}

/// The record at the first border.
fn note_record(coverage: &mut Coverage, trace: &[u8], source: &str) {
    let at_border = |&(start, size): &(usize, usize)| start < WINDOW && WINDOW < start + size;
    let place = match records(trace).find(at_border) {
        Some((start, _)) if WINDOW - start <= 4 => format!("after byte {} of", WINDOW - start),
        Some(_) => "among the values of".into(),
        None => return,
    };
    coverage.note(&format!("a border {place} a record from {source}"));
}

/// Where the records start, and the bytes that they should have.
fn records(trace: &[u8]) -> impl Iterator<Item = (usize, usize)> + '_ {
    let mut next = 0;
    std::iter::from_fn(move || {
        let start = next;
        let rest = trace.get(start..).filter(|rest| !rest.is_empty())?;
        let size = 4 + usize::from(rest.get(3).copied().unwrap_or(0));
        next += size;
        Some((start, size))
    })
}
