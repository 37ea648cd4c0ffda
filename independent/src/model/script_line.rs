//! One line of an installer's script, by request L1: blank or one call of WriteI2C, either with or
//! without a comment. The line is cut into pieces, and each piece is looked at as a whole.

use super::refusal::Refusal;

/// The most bytes a line may have, its line feed not counted.
pub const LONGEST_LINE: usize = 200;

const WORD: &[u8] = b"WriteI2C";

#[derive(Clone, Copy, Debug, PartialEq, Eq)]
pub struct Call {
    pub offset: u8,
    pub value: u8,
}

/// A line without its line feed: its call, or nothing where it is blank. 15 comes before 14.
pub fn read_line(line: &[u8]) -> Result<Option<Call>, Refusal> {
    if line.len() > LONGEST_LINE {
        return Err(Refusal::LineTooLong);
    }
    read_shape(line)
}

/// The same for a line of any length.
pub fn read_shape(line: &[u8]) -> Result<Option<Call>, Refusal> {
    let code = trimmed(code(line));
    if code.is_empty() {
        return Ok(None);
    }
    call(code).map(Some).ok_or(Refusal::LineShape)
}

/// What stands before the comment.
pub fn code(line: &[u8]) -> &[u8] {
    cut(line, b'#').map_or(line, |(before, _)| before)
}

/// Before the bracket stands the word; between it and the last byte, the other bracket, two values.
fn call(code: &[u8]) -> Option<Call> {
    let (word, rest) = cut(code, b'(')?;
    let (offset, value) = cut(rest.strip_suffix(b")")?, b',')?;
    if trimmed(word) != WORD {
        return None;
    }
    Some(Call {
        offset: number(trimmed(offset))?,
        value: number(trimmed(value))?,
    })
}

/// What stands before the first such byte, and after it.
fn cut(bytes: &[u8], at: u8) -> Option<(&[u8], &[u8])> {
    let place = bytes.iter().position(|&byte| byte == at)?;
    Some((&bytes[..place], &bytes[place + 1..]))
}

/// Without the spaces and tabs at both ends.
fn trimmed(mut bytes: &[u8]) -> &[u8] {
    while let [b' ' | b'\t', rest @ ..] | [rest @ .., b' ' | b'\t'] = bytes {
        bytes = rest;
    }
    bytes
}

/// 0x and one or two digits, and nothing else.
fn number(text: &[u8]) -> Option<u8> {
    match *text {
        [b'0', b'x', low] => digit(low),
        [b'0', b'x', high, low] => Some(16 * digit(high)? + digit(low)?),
        _ => None,
    }
}

fn digit(byte: u8) -> Option<u8> {
    match byte {
        b'0'..=b'9' => Some(byte - b'0'),
        b'a'..=b'f' => Some(byte - b'a' + 10),
        b'A'..=b'F' => Some(byte - b'A' + 10),
        _ => None,
    }
}

/// The call as text is written, with its line feed.
pub fn written(call: Call) -> String {
    format!("WriteI2C(0x{:02x},0x{:02x})\n", call.offset, call.value)
}
