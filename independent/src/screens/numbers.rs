//! Lists of lines, or of records.

use super::names::counted;

/// "at most 40 are named"
const MOST_NAMED: usize = 40;
const LAST_COLUMN: usize = 70;

/// `line 7`, or `lines 6, 7, 8`; nothing where there is none.
pub fn short(noun: &str, numbers: &[u64]) -> String {
    let words: Vec<String> = numbers.iter().map(u64::to_string).collect();
    match words.len() {
        0 => String::new(),
        1 => format!("{noun} {}", words[0]),
        _ => format!("{noun}s {}", words.join(", ")),
    }
}

/// The numbers of writes after some words: "`line 2` where there is one such write, else `lines 2, 4,
/// 9`. A number is named once (a burst is one record), and at most 40 are named: then comes ` and 3
/// more`. Where the comma after a number stands behind column 70, the next number begins a line,
/// after four spaces."
pub fn long(before: &str, noun: &str, writes: &[u64]) -> Vec<String> {
    let mut numbers = writes.to_vec();
    numbers.dedup();
    let (named, behind) = numbers.split_at(numbers.len().min(MOST_NAMED));
    let several = if writes.len() == 1 { "" } else { "s" };
    let mut lines = Vec::new();
    let mut line = format!("{before}{noun}{several}");
    let mut comma = false;
    for number in named {
        if comma {
            line.push(',');
        }
        if line.len() > LAST_COLUMN {
            lines.push(std::mem::replace(&mut line, "   ".into()));
        }
        line += &format!(" {number}");
        comma = true;
    }
    if !behind.is_empty() {
        line += &format!(" and {}", counted(behind.len(), "more", "more"));
    }
    lines.push(line);
    lines
}
