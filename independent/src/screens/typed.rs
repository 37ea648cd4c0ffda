//! What somebody typed, as it is shown: the file's name and the lines of a script.

use super::page::Page;
use super::Subject;

/// "a tab as a space and other control characters as `\x1b`": those of one byte, and of those of two,
/// C2 and 80 to 9F, the second.
pub fn shown(bytes: &[u8]) -> Vec<u8> {
    let mut shown = Vec::new();
    let mut before = 0;
    for &byte in bytes {
        match (before, byte) {
            (_, b'\t') => shown.push(b' '),
            (_, 0x00..=0x1F | 0x7F) | (0xC2, 0x80..=0x9F) => {
                shown.extend(format!("\\x{byte:02x}").bytes());
            }
            _ => shown.push(byte),
        }
        before = byte;
    }
    shown
}

impl Subject<'_> {
    /// "The number ends in column 6, then two spaces, then the line without the blanks at its start,
    /// comments included"; of a trace `    record 12`.
    pub fn print_typed(&self, page: &mut Page, number: u64) {
        let Some(typed) = &self.typed else {
            page.line(format!("    record {number}"));
            return;
        };
        let place = number as usize - 1;
        let line = typed.get(place).copied().unwrap_or_default();
        let mut line = line.strip_suffix(b"\n").unwrap_or(line);
        while let [b' ' | b'\t', rest @ ..] = line {
            line = rest;
        }
        let mut row = format!("{number:>6}  ").into_bytes();
        row.extend(shown(line));
        page.line(row);
    }
}
