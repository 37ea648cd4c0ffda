//! One printed line, built in place: decimal numbers, hex bytes, words.

const DIGITS: &[u8; 16] = b"0123456789ABCDEF";

#[derive(Default)]
pub struct TextLine {
    bytes: Vec<u8>,
}

impl TextLine {
    pub fn clear(&mut self) {
        self.bytes.clear();
    }

    pub fn as_bytes(&self) -> &[u8] {
        &self.bytes
    }

    pub fn word(&mut self, word: &str) {
        self.bytes.extend_from_slice(word.as_bytes());
    }

    pub fn decimal(&mut self, number: u64) {
        let mut digits = [0; 20];
        let mut from = digits.len();
        let mut rest = number;
        loop {
            from -= 1;
            digits[from] = b'0' + (rest % 10) as u8;
            rest /= 10;
            if rest == 0 {
                break;
            }
        }
        self.bytes.extend_from_slice(&digits[from..]);
    }

    /// Two digits a byte, capitals.
    pub fn hex(&mut self, byte: u8) {
        let pair = [
            DIGITS[usize::from(byte >> 4)],
            DIGITS[usize::from(byte & 15)],
        ];
        self.bytes.extend_from_slice(&pair);
    }
}
