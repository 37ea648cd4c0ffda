//! The points that the lines of a text reach, where the text is taken.

use crate::compare::coverage::Coverage;
use crate::model::convert::pieces;
use crate::model::script_line::{code, LONGEST_LINE};

pub fn note(coverage: &mut Coverage, text: &[u8]) {
    let mut after_comment = false;
    let mut calls = 0;
    for line in pieces(text).filter_map(|piece| piece.strip_suffix(b"\n")) {
        let (code, comment) = line.split_at(code(line).len());
        let is_call = code.contains(&b'(');
        note_line(coverage, is_call, code, comment);
        if is_call {
            calls += 1;
            if after_comment {
                coverage.note("a call after a comment line");
            }
            note_blanks(coverage, code);
            note_values(coverage, code);
        }
        note_comment(coverage, comment);
        after_comment = !is_call && !comment.is_empty();
    }
    coverage.note(match (text.is_empty(), calls) {
        (true, _) => "the empty text",
        (false, 0) => "a text without a call",
        (false, 1..=255) => "a text with calls",
        _ => "a text with more than 255 calls",
    });
}

fn note_line(coverage: &mut Coverage, is_call: bool, code: &[u8], comment: &[u8]) {
    coverage.note(match (is_call, code.is_empty(), comment.is_empty()) {
        (true, _, true) => "a call",
        (true, _, false) => "a call with a comment",
        (false, true, true) => "an empty line",
        (false, false, true) => "a line of blanks",
        (false, true, false) => "a comment alone",
        (false, false, false) => "blanks and a comment",
    });
    if code.len() + comment.len() == LONGEST_LINE {
        coverage.note(match (is_call, comment.is_empty()) {
            (true, true) => "a call of 200 bytes by blanks",
            (true, false) => "a call of 200 bytes by its comment",
            (false, true) => "200 blanks",
            (false, false) => "a comment of 200 bytes",
        });
    }
}

/// The blanks of a call: beside which part, and whether space or tab.
fn note_blanks(coverage: &mut Coverage, code: &[u8]) {
    let mut note = |byte: Option<&u8>, place: &str| match byte {
        Some(b' ') => coverage.note(&format!("a space {place}")),
        Some(b'\t') => coverage.note(&format!("a tab {place}")),
        _ => {}
    };
    note(code.first(), "before the word");
    for mark in [b'(', b',', b')'] {
        let place = code.iter().position(|&byte| byte == mark).unwrap_or(0);
        let mark = char::from(mark);
        note(code[..place].last(), &format!("before {mark}"));
        note(code.get(place + 1), &format!("after {mark}"));
    }
}

fn note_values(coverage: &mut Coverage, code: &[u8]) {
    for value in code.split(|byte| b"(,)".contains(byte)).skip(1).take(2) {
        let digits = value.trim_ascii().strip_prefix(b"0x").unwrap_or_default();
        coverage.note(match digits.len() {
            1 => "a value of one digit",
            _ => "a value of two digits",
        });
        let small = digits.iter().any(u8::is_ascii_lowercase);
        let capital = digits.iter().any(u8::is_ascii_uppercase);
        match (small, capital) {
            (true, false) => coverage.note("a value with small letters"),
            (false, true) => coverage.note("a value with capitals"),
            (true, true) => coverage.note("a value with both"),
            (false, false) => {}
        }
    }
}

fn note_comment(coverage: &mut Coverage, comment: &[u8]) {
    let Some((_, text)) = comment.split_first() else {
        return;
    };
    let call = b"WriteI2C(0x";
    let has_call = text.windows(call.len()).any(|part| part == call);
    for (holds, point) in [
        (text.is_empty(), "an empty comment"),
        (text.contains(&b'#'), "a comment with another #"),
        (text.contains(&b'\r'), "a comment with a carriage return"),
        (text.contains(&0), "a comment with a zero byte"),
        (!text.is_ascii(), "a comment with a byte above 7F"),
        (has_call, "a comment with a call"),
    ] {
        if holds {
            coverage.note(point);
        }
    }
}
