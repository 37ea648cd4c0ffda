//! Whether a text is one JSON value: a small reader of its own, by RFC 8259, for ASCII.

pub fn is_json(text: &[u8]) -> bool {
    value(text).is_some_and(|rest| blanks(rest).is_empty())
}

/// What follows the value at the start of the text.
fn value(text: &[u8]) -> Option<&[u8]> {
    let text = blanks(text);
    match text.first()? {
        b'{' => list(&text[1..], b'}', |rest| {
            value(blanks(string(blanks(rest))?).strip_prefix(b":")?)
        }),
        b'[' => list(&text[1..], b']', value),
        b'"' => string(text),
        b'0'..=b'9' | b'-' => number(text),
        _ => [&b"null"[..], b"true", b"false"]
            .iter()
            .find_map(|word| text.strip_prefix(*word)),
    }
}

fn list(text: &[u8], end: u8, item: impl Fn(&[u8]) -> Option<&[u8]>) -> Option<&[u8]> {
    let mut rest = blanks(text);
    if let Some(rest) = rest.strip_prefix(&[end]) {
        return Some(rest);
    }
    loop {
        rest = blanks(item(rest)?);
        match rest.split_first()? {
            (b',', more) => rest = more,
            (&byte, more) if byte == end => return Some(more),
            _ => return None,
        }
    }
}

fn string(text: &[u8]) -> Option<&[u8]> {
    let inner = text.strip_prefix(b"\"")?;
    let end = inner.iter().position(|&byte| byte == b'"')?;
    let plain = inner[..end]
        .iter()
        .all(|&byte| (0x20..0x7F).contains(&byte) && byte != b'\\');
    plain.then_some(&inner[end + 1..])
}

/// Whole numbers without a zero in front.
fn number(text: &[u8]) -> Option<&[u8]> {
    let text = text.strip_prefix(b"-").unwrap_or(text);
    let digits = text.iter().take_while(|byte| byte.is_ascii_digit()).count();
    let right = digits == 1 || digits > 1 && text[0] != b'0';
    right.then_some(&text[digits..])
}

fn blanks(text: &[u8]) -> &[u8] {
    text.trim_ascii_start()
}
