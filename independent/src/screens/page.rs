//! Text that grows line by line, and pieces of a line that begin in a column.

#[derive(Default)]
pub struct Page {
    bytes: Vec<u8>,
}

impl Page {
    pub fn line(&mut self, line: impl AsRef<[u8]>) {
        self.bytes.extend_from_slice(line.as_ref());
        self.bytes.push(b'\n');
    }

    pub fn lines(&mut self, lines: impl IntoIterator<Item = impl AsRef<[u8]>>) {
        for line in lines {
            self.line(line);
        }
    }

    /// Whole lines.
    pub fn bytes(&mut self, lines: &[u8]) {
        self.bytes.extend_from_slice(lines);
    }

    pub fn empty_line(&mut self) {
        self.line("");
    }

    pub fn into_bytes(self) -> Vec<u8> {
        self.bytes
    }
}

/// The piece begins in the column, counted from 1; "what would stand on another piece goes on after
/// one space".
pub fn in_column(mut line: String, column: usize, piece: &str) -> String {
    line.push(' ');
    while line.len() + 1 < column {
        line.push(' ');
    }
    line + piece
}

/// "A row that looks wrong has a mark `!`."
pub fn mark(wrong: bool) -> &'static str {
    if wrong {
        "! "
    } else {
        "  "
    }
}
