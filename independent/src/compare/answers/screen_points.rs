//! The points about the screens: words that stand on them, and a few more.

use super::right::Word;
use crate::compare::coverage::Coverage;
use crate::screens::{check, show, Subject};

/// A point, and the words on the screen that it is known by.
type Known = (&'static str, &'static str);

const ON_SHOW: [Known; 18] = [
    ("show: no write", "no register write: "),
    ("show: no write sets anything up", ", and none sets up "),
    ("show: not followed, and no port", " by this model, "),
    ("show: off as the chip starts", "not forwarded *"),
    ("show: off by a line", "not forwarded ("),
    ("show: a device's own address is not set", " (not set) "),
    (
        "show: a read answered among several",
        "a read is answered by ",
    ),
    ("show: an unclear read", "a read has no clear answer "),
    ("show: no address reaches several ports", "reaches ports "),
    ("show: perhaps meant", ", perhaps meant\n"),
    ("show: any order", " may be run in any order: "),
    ("show: any order in part", " may be run in any order, in "),
    ("show: the order may matter", "The order of the "),
    ("show: one thing", "\n1 thing looks wrong. "),
    ("show: nothing wrong", "\nNothing looks wrong.\n"),
    ("show: nothing wrong in part", "\nNothing looks wrong in "),
    ("show: nothing set up", "\nNothing that this model "),
    ("show: is it the right file", "\nThere is no register "),
];

const ON_CHECK: [Known; 38] = [
    ("check: one thing", "\n1 thing looks wrong.\n"),
    ("check: more than 20 things", "\nand "),
    ("check: another port too", "  It selects port "),
    (
        "check: a channel as the chip starts",
        " has that channel as ",
    ),
    ("check: nothing selects a port", "; WriteI2C(0x4C,0x"),
    (
        "check: selected and not set up",
        ", but none of its registers ",
    ),
    ("check: perhaps as meant", "\nShared, perhaps as meant\n"),
    ("check: on by off", "pass-through on by off "),
    ("check: off by on", "pass-through off by on "),
    ("check: another 58", " replaces register 58: "),
    (
        "check: a serializer's own address",
        "the serializer's own address ",
    ),
    ("check: another 5B", " replaces register 5B: "),
    ("check: a serializer's address", "the serializer's address "),
    ("check: another 5C", " replaces register 5C: "),
    ("check: a camera's own address", "a camera's own address "),
    ("check: a camera's address", " replaces address "),
    ("check: an address that was off", "address off by "),
    ("check: another 65", " replaces register 65: "),
    ("check: a RAW10 channel", " RAW10 channel "),
    ("check: a RAW10 data type", " RAW10 data type "),
    ("check: a RAW12 channel", " RAW12 channel "),
    ("check: a RAW12 data type", " RAW12 data type "),
    ("check: one selection again", "  1 selection of a port "),
    ("check: selections again", " selections of ports "),
    ("check: one shared register", "  1 write to a shared "),
    ("check: shared registers", " writes to shared "),
    ("check: one write not followed", "  1 write to a register "),
    ("check: writes not followed", " writes to registers "),
    ("check: one write's bits", "  1 write with bits "),
    ("check: writes' bits", " writes with bits "),
    (
        "check: one write that changes nothing",
        "  1 write that changes ",
    ),
    ("check: writes that change nothing", " writes that change "),
    ("check: one odd alias", "  1 alias with "),
    ("check: odd aliases", " aliases with "),
    ("check: an odd alias that is an address", "; for address "),
    ("check: an odd alias that is off", " means off;"),
    ("check: more than ten odd aliases", "\n    and "),
    ("check: no address reaches several ports", " reaches ports "),
];

const MORE: [&str; 15] = [
    "show: a lost address that is marked",
    "show: a lost address that is not marked",
    "show: no star",
    "show: a list over several lines",
    "show: more than 40 numbers",
    "show: a row wider than the screen",
    "check: a list over several lines",
    "check: more than 40 numbers",
    "check: an odd alias above 7F",
    "check: a control character in a line",
    "check: a control character of two bytes",
    "check: a blank after a byte of zero",
    "a control character in a name",
    "a long name",
    "standard input",
];

/// Those that are known by what stands in a line of check's; C2 alone is no character.
const TYPED: [Known; 3] = [
    ("check: a control character in a line", "\\x"),
    ("check: a control character of two bytes", "\u{FFFD}\\x85"),
    ("check: a blank after a byte of zero", "\\x00 "),
];

pub const POINTS: &[&str] = &names();

const fn names() -> [&'static str; ON_SHOW.len() + ON_CHECK.len() + MORE.len()] {
    let mut names = [""; ON_SHOW.len() + ON_CHECK.len() + MORE.len()];
    let mut place = 0;
    while place < names.len() {
        names[place] = if place < ON_SHOW.len() {
            ON_SHOW[place].0
        } else if place < ON_SHOW.len() + ON_CHECK.len() {
            ON_CHECK[place - ON_SHOW.len()].0
        } else {
            MORE[place - ON_SHOW.len() - ON_CHECK.len()]
        };
        place += 1;
    }
    names
}

pub fn note(coverage: &mut Coverage, subject: &Subject, words: &[Word]) {
    if words.contains(&Word::Show) {
        let screen = show(subject);
        let screen = String::from_utf8_lossy(&screen);
        note_both(coverage, "show", &screen, &ON_SHOW);
        note_show(coverage, &screen);
    }
    if words.contains(&Word::Check) {
        let screen = check(subject);
        let screen = String::from_utf8_lossy(&screen);
        note_both(coverage, "check", &screen, &ON_CHECK);
        for line in screen.lines().skip(1) {
            if line.contains(" means address ") && !line.contains(';') {
                coverage.note("check: an odd alias above 7F");
            }
            for (point, shown) in TYPED {
                if line.contains(shown) {
                    coverage.note(point);
                }
            }
        }
    }
    note_name(coverage, subject.name);
}

fn note_show(coverage: &mut Coverage, screen: &str) {
    if !screen.contains("\n  * as ") {
        coverage.note("show: no star");
    }
    for line in screen.lines().skip(1) {
        if line.len() > 80 {
            coverage.note("show: a row wider than the screen");
        }
        if line.contains("  nobody any more ") {
            coverage.note(match line.as_bytes()[0] {
                b'!' => "show: a lost address that is marked",
                _ => "show: a lost address that is not marked",
            });
        }
    }
}

fn note_both(coverage: &mut Coverage, name: &str, screen: &str, known: &[Known]) {
    let (_, after_name) = screen.split_at(screen.find(" on hub ").unwrap_or(0));
    for (point, words) in known {
        if after_name.contains(words) {
            coverage.note(point);
        }
    }
    note_lists(coverage, name, screen);
}

fn note_lists(coverage: &mut Coverage, screen: &str, text: &str) {
    for line in text.lines().skip(1) {
        let start = line.strip_prefix("    ").unwrap_or_default();
        if start.starts_with(|first: char| first.is_ascii_digit()) && !start.contains("  ") {
            coverage.note(&format!("{screen}: a list over several lines"));
        }
        let is_list = !line.trim_start().starts_with("and ");
        if is_list && line.ends_with(" more") {
            coverage.note(&format!("{screen}: more than 40 numbers"));
        }
    }
}

fn note_name(coverage: &mut Coverage, name: &[u8]) {
    if name == b"-" {
        coverage.note("standard input");
    }
    if name.len() >= 200 {
        coverage.note("a long name");
    }
    if name.iter().any(u8::is_ascii_control) {
        coverage.note("a control character in a name");
    }
}
