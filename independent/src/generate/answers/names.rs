//! What the file of a case is called.

/// A bridge by its name, control characters of one byte and of two, and what looks like one.
const ODD: [&str; 8] = [
    "Waage Süd, Spur 1.txt",
    "a tab\there.script",
    "\u{1b}[2Jcleared",
    "rubbed\u{7f}out\r",
    "two\nlines",
    "next\u{85}line \u{9b}31m",
    "\\x1b is no escape",
    "桥",
];

/// Now and then standard input, a long name, or an odd one.
pub fn name(number: u64) -> String {
    match number % 16 {
        5 => "-".into(),
        9 => "long ".repeat(40),
        3 | 11 => ODD[(number / 8 % 8) as usize].into(),
        _ => "given".into(),
    }
}
